/* client.h: what a driver behind the broker says to it and to the daemon. client.c and ../nvme/client.c are made of it.
 * The requests and answers stand in broker.c, and in the device's file.
 */
#ifndef CLIENT_H
#define CLIENT_H

#include "iova_client.h"

#include <errno.h>
#include <stdio.h>
#include <string.h>
#include <sys/socket.h>
#include <sys/un.h>
#include <time.h>
#include <unistd.h>

enum { CLIENT_PATIENCE = 300 /* seconds */, RING_FULL = 7 /* of the daemon's refusals: a flush is under way */ };

static inline int client_fails(const char *what, const char *why) {
    fprintf(stderr, "client: %s: %s\n", what, why);
    return 1;
}

/* A connection to the broker, or -1. */
static inline int client_connect(const char *path) {
    struct sockaddr_un to = {.sun_family = AF_UNIX};
    int broker = socket(AF_UNIX, SOCK_SEQPACKET | SOCK_CLOEXEC, 0);
    snprintf(to.sun_path, sizeof to.sun_path, "%s", path);
    if (broker < 0 || !connect(broker, (struct sockaddr *)(void *)&to, sizeof to))
        return broker;
    close(broker);
    return -1;
}

/* One message to the broker, with the memory's file where `fd` isn't -1. */
static inline int client_tell(int broker, const char *text, int fd) {
    char room[CMSG_SPACE(sizeof fd)] = {0};
    struct iovec part = {(void *)(uintptr_t)text, strlen(text)};
    struct msghdr message = {.msg_iov = &part, .msg_iovlen = 1};
    if (fd >= 0) {
        message.msg_control = room;
        message.msg_controllen = sizeof room;
        struct cmsghdr *more = CMSG_FIRSTHDR(&message);
        more->cmsg_level = SOL_SOCKET;
        more->cmsg_type = SCM_RIGHTS;
        more->cmsg_len = CMSG_LEN(sizeof fd);
        memcpy(CMSG_DATA(more), &fd, sizeof fd);
    }
    return sendmsg(broker, &message, MSG_NOSIGNAL) < 0 ? client_fails("the broker", strerror(errno)) : 0;
}

/* The broker's next answer: 0 where it begins with this word, 1 where it is another, which no driver is told that plays
 * by the rules, and -1 where there is none. A signal interrupts a call that has a time limit. */
static inline int client_hear(int broker, const char *word, char *said, size_t room) {
    ssize_t count;
    do
        count = recv(broker, said, room - 1, 0);
    while (count < 0 && errno == EINTR);
    said[count < 0 ? 0 : count] = 0;
    if (count > 0 && strncmp(said, word, strlen(word)) == 0)
        return 0;
    client_fails(word, count > 0 ? said : "the broker has left");
    return count > 0 ? 1 : -1;
}

/* Gives up to 16 addresses up. Where a ring was full, since a flush was under way, it says so once more. 0, or why the
 * daemon didn't take them. */
static inline uint64_t client_free(iovad_session *session, uint64_t *left, int count) {
    uint64_t error = 0;
    time_t end = time(NULL) + CLIENT_PATIENCE;
    while (count > 0 && !error) {
        int asked = count, again = 0;
        if (time(NULL) > end)
            return IOVAD_TIMED_OUT;
        for (int at = 0; at < asked && !error; at++)
            error = iovad_ask_free(session, left[at]);
        for (int at = 0; at < asked && !error; at++) {
            iovad_range range = iovad_take_free(session);
            if (range.error == RING_FULL)
                left[again++] = left[at];
            else
                error = range.error;
        }
        count = again;
    }
    return error;
}

#endif
