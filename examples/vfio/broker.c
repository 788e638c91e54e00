/* The broker of a device: it alone has the VFIO container, and it is the peer that `iovad serve` asks.
 *
 *     broker ADDRESS SINK DRIVERS LAST LOG
 *
 * The daemon comes to the Unix socket SINK, its --peer, in as many connections as it likes. Drivers come to the Unix
 * socket DRIVERS, where each message is one request, and is answered by one or two:
 *
 *     map CLIENT FIRST FRAMES [PAGE]   with the memory's file, from a page on   mapped
 *     unmap CLIENT FIRST                                                        unmapped
 *
 * and those that the device's file has: edu.c or ../nvme/queues.c. All may be answered by `no ..`. CLIENT is the
 * number that the daemon gave the driver, FIRST and FRAMES are frames that it was given. Drivers are trusted to say
 * their own number. One thread does all, one thing after another; while the device is at work it looks at it each few
 * milliseconds. What it mapped, unmapped and invalidated is appended to LOG, which `iovad check` reads; LAST is the
 * last frame of the daemon's domain: the broker's own memory lies behind it. SIGTERM ends it, and it prints its
 * counts.
 */
#include "broker.h"

#include <poll.h>
#include <signal.h>
#include <stdlib.h>
#include <sys/socket.h>
#include <sys/un.h>

enum { TEXT = 1 << 17 };

static volatile sig_atomic_t ending;

static void end(int number) {
    (void)number;
    ending = 1;
}

void broker_note(struct broker *broker, const char *what, uint64_t first, uint64_t frames) {
    dprintf(broker->log, "%s %" PRIu64 " %" PRIu64 "\n", what, first, frames);
}

/* The IOTLB has nothing of what was unmapped before: VFIO saw to that at each unmap. */
static void note_flush(struct broker *broker, uint64_t number) {
    dprintf(broker->log, "begin %" PRIu64 "\nend %" PRIu64 " ok\n", number, number);
}

/* The page table. */

static const char *map(struct broker *broker, struct mapping new, int fd, uint64_t page) {
    if (new.client >= CLIENTS || broker->gone[new.client]) {
        broker->refused++;
        return "no client";
    }
    if (broker->count == MAPPINGS || new.frames == 0 || new.frames > 1 << 20)
        return "no room";
    void *memory = mmap(NULL, new.frames * FRAME, PROT_READ | PROT_WRITE, MAP_SHARED, fd, (off_t)(page * FRAME));
    if (memory == MAP_FAILED)
        return "no memory";
    new.memory = memory;
    int failed = device_map(&broker->device, new.memory, new.first * FRAME, new.frames * FRAME) ? errno : 0;
    if (!failed || failed == EEXIST) /* it was given to this client, whatever is there */
        broker_note(broker, "map", new.first, new.frames);
    if (!failed) {
        broker->mappings[broker->count++] = new;
        broker->mapped++;
        return "mapped";
    }
    munmap(new.memory, new.frames * FRAME);
    broker->clashes += failed == EEXIST;
    return failed == EEXIST ? "no place" : "no memory";
}

/* Unmaps, under the device's hands where it is at work there: that ends in a fault. 0 where it went well. */
static int unmap(struct broker *broker, struct mapping *mapping) {
    int used = work_uses(broker, mapping);
    if (device_unmap(&broker->device, mapping->first * FRAME, mapping->frames * FRAME))
        return device_fails("unmap");
    if (used && work_uses(broker, mapping))
        broker->provoked++;
    else if (used)
        broker->near++; /* it came to its end meanwhile: before the unmap, or after it */
    broker_note(broker, "unmap", mapping->first, mapping->frames);
    munmap(mapping->memory, mapping->frames * FRAME);
    *mapping = broker->mappings[--broker->count];
    broker->unmapped++;
    return 0;
}

/* What this client mapped in these frames, and no more: another's mapping may be there by now. */
static int unmap_of(struct broker *broker, uint64_t client, uint64_t first, uint64_t frames) {
    int failed = 0;
    for (size_t at = broker->count; at-- > 0;) {
        struct mapping *mapping = &broker->mappings[at];
        if (mapping->client == client && mapping->first >= first && mapping->first - first < frames)
            failed |= unmap(broker, mapping);
    }
    return failed;
}

static int unmap_all(struct broker *broker) {
    int failed = 0;
    for (size_t at = broker->count; at-- > 0;)
        failed |= unmap(broker, &broker->mappings[at]);
    return failed;
}

struct mapping *broker_find(struct broker *broker, uint64_t client, uint64_t address, uint64_t bytes) {
    for (size_t at = 0; at < broker->count; at++) {
        struct mapping *mapping = &broker->mappings[at];
        uint64_t first = mapping->first * FRAME, size = mapping->frames * FRAME;
        if (mapping->client == client && address >= first && bytes <= size && address - first <= size - bytes)
            return mapping;
    }
    return NULL;
}

/* Connections. */

static void leave(struct broker *broker, struct connection *connection) {
    close(connection->fd);
    free(connection->text);
    work_leave(broker, connection);
    memset(connection, 0, sizeof *connection);
    connection->fd = -1;
}

void broker_answer(struct broker *broker, struct connection *connection, const char *text) {
    if (send(connection->fd, text, strlen(text), MSG_NOSIGNAL | MSG_DONTWAIT) < 0)
        leave(broker, connection);
}

static int has_ended(int fd) {
    char byte;
    return recv(fd, &byte, 1, MSG_PEEK | MSG_DONTWAIT) == 0;
}

/* The daemon's side. */

/* The bytes of the request that the text begins with: 0 until it is there whole. */
static size_t whole(const char *text) {
    unsigned lines = 0;
    const char *at = strchr(text, '\n');
    if (at)
        sscanf(text, "gone %*u %*u %u", &lines);
    for (; at && lines > 0; lines--)
        at = strchr(at + 1, '\n');
    return at ? (size_t)(at - text) + 1 : 0;
}

static int remove_client(struct broker *broker, uint64_t client, const char *lines) {
    uint64_t first, frames;
    int failed = 0;
    while ((lines = strchr(lines, '\n')) && sscanf(++lines, "%" SCNu64 " %" SCNu64, &first, &frames) == 2)
        failed |= unmap_of(broker, client, first, frames);
    return failed;
}

/* A new daemon, which counts its clients from 1: nothing is left of the earlier one, and its drivers' connections are closed. */
static int reset(struct broker *broker) {
    int failed = unmap_all(broker);
    for (int at = 0; at < CONNECTIONS; at++)
        if (broker->connections[at].who == DRIVER)
            leave(broker, &broker->connections[at]);
    memset(broker->gone, 0, sizeof broker->gone);
    note_flush(broker, 0);
    return failed;
}

/* Carries a request out, and answers. Of `gone` and `reset` the device is stopped first. Where it can't be, the page
 * table stops it at once, but its command still has the address, which may be another's after the answer: so that waits
 * until the device has ended what it does for such a client. */
static void carry_out(struct broker *broker, struct connection *connection) {
    uint64_t domain, number = 0;
    char word[8] = "", text[48];
    int words = sscanf(connection->text, "%7s %" SCNu64 " %" SCNu64, word, &domain, &number), stop = 0, failed = 0;
    if (words == 3 && strcmp(word, "inval") == 0) {
        note_flush(broker, number);
        broker->invals++;
    } else if (words == 3 && strcmp(word, "gone") == 0) {
        broker->gones++;
        if (number < CLIENTS)
            broker->gone[number] = 1;
        stop = work_stop(broker, number);
        failed = stop < 0 || remove_client(broker, number, connection->text);
    } else if (words == 2 && strcmp(word, "reset") == 0) {
        broker->resets++;
        stop = work_stop(broker, NO_CLIENT);
        failed = stop < 0 || reset(broker);
    } else {
        leave(broker, connection);
        return;
    }
    snprintf(text, sizeof text, "%s %s %" PRIu64 "\n", failed ? "fail" : "done", word, words == 3 ? number : domain);
    if (stop > 0)
        memcpy(connection->owed, text, sizeof text);
    else
        broker_answer(broker, connection, text);
}

/* A request whose connection has ended is nobody's any more: its daemon is dead, or has made it again. */
static void hear_daemon(struct broker *broker, struct connection *connection) {
    size_t room = TEXT - 1 - connection->length;
    ssize_t count = recv(connection->fd, connection->text + connection->length, room, MSG_DONTWAIT);
    if (count <= 0) {
        leave(broker, connection);
        return;
    }
    connection->length += (size_t)count;
    connection->text[connection->length] = 0;
    size_t bytes = whole(connection->text);
    if (bytes == 0)
        return;
    if (bytes < connection->length || has_ended(connection->fd)) {
        leave(broker, connection);
        return;
    }
    connection->length = 0;
    carry_out(broker, connection);
}

/* The drivers' side. */

static const char *meet_driver(struct broker *broker, struct connection *connection, const char *text, int fd) {
    struct mapping new = {0, 0, 0, NULL}, *mapping;
    uint64_t page = 0;
    const char *form = "map %" SCNu64 " %" SCNu64 " %" SCNu64 " %" SCNu64;
    if (sscanf(text, form, &new.client, &new.first, &new.frames, &page) >= 3)
        return map(broker, new, fd, page);
    if (sscanf(text, "unmap %" SCNu64 " %" SCNu64, &new.client, &new.first) == 2) {
        mapping = broker_find(broker, new.client, new.first * FRAME, FRAME);
        if (!mapping || mapping->first != new.first || work_wants(broker, mapping))
            return mapping ? "no, it is used" : "no mapping";
        return unmap(broker, mapping) ? "no unmap" : "unmapped";
    }
    return work_meet(broker, connection, text);
}

static void hear_driver(struct broker *broker, struct connection *connection) {
    char text[128], room[CMSG_SPACE(sizeof(int))];
    struct iovec part = {text, sizeof text - 1};
    struct msghdr message = {.msg_iov = &part, .msg_iovlen = 1, .msg_control = room, .msg_controllen = sizeof room};
    ssize_t count = recvmsg(connection->fd, &message, MSG_DONTWAIT | MSG_CMSG_CLOEXEC);
    if (count <= 0) {
        leave(broker, connection);
        return;
    }
    int fd = -1;
    text[count] = 0;
    struct cmsghdr *more = CMSG_FIRSTHDR(&message);
    if (more && more->cmsg_type == SCM_RIGHTS && more->cmsg_len == CMSG_LEN(sizeof fd))
        memcpy(&fd, CMSG_DATA(more), sizeof fd);
    const char *said = meet_driver(broker, connection, text, fd);
    if (fd >= 0)
        close(fd); /* the mapping has the memory */
    if (said)
        broker_answer(broker, connection, said);
}

/* All together. */

static int listen_at(const char *path, int type) {
    struct sockaddr_un at = {.sun_family = AF_UNIX};
    snprintf(at.sun_path, sizeof at.sun_path, "%s", path);
    int fd = socket(AF_UNIX, type | SOCK_CLOEXEC, 0);
    if (fd < 0 || bind(fd, (struct sockaddr *)(void *)&at, sizeof at) || listen(fd, CONNECTIONS)) {
        device_fails(path);
        exit(1);
    }
    return fd;
}

static void welcome(struct broker *broker, int listener, int who) {
    int fd = accept4(listener, NULL, NULL, SOCK_CLOEXEC);
    for (int at = 0; at < CONNECTIONS && fd >= 0; at++) {
        struct connection *connection = &broker->connections[at];
        if (connection->who != NOBODY)
            continue;
        connection->text = who == DAEMON ? malloc(TEXT) : NULL;
        if (who == DAEMON && !connection->text)
            break;
        connection->who = who;
        connection->fd = fd;
        return;
    }
    if (fd >= 0)
        close(fd);
}

static void serve(struct broker *broker, int sink, int drivers) {
    struct pollfd fds[CONNECTIONS + 2] = {{sink, POLLIN, 0}, {drivers, POLLIN, 0}};
    const struct timespec moment = {0, 3000000};
    sigset_t all_but_term, none;
    int soon = 0;
    sigemptyset(&none);
    sigemptyset(&all_but_term);
    sigaddset(&all_but_term, SIGTERM);
    sigprocmask(SIG_BLOCK, &all_but_term, NULL);
    while (!ending) {
        for (int at = 0; at < CONNECTIONS; at++)
            fds[at + 2] = (struct pollfd){broker->connections[at].fd, POLLIN, 0};
        if (ppoll(fds, CONNECTIONS + 2, soon ? &moment : NULL, &none) < 0)
            continue;
        for (int at = 0; at < CONNECTIONS; at++) {
            struct connection *connection = &broker->connections[at];
            if (!fds[at + 2].revents || connection->fd != fds[at + 2].fd)
                continue;
            if (connection->who == DAEMON)
                hear_daemon(broker, connection);
            else
                hear_driver(broker, connection);
        }
        soon = work_turn(broker);
        for (int at = 0; at < 2; at++)
            if (fds[at].revents)
                welcome(broker, fds[at].fd, at == 0 ? DAEMON : DRIVER);
    }
}

int main(int argc, char **words) {
    static struct broker broker;
    if (argc != 6) {
        fprintf(stderr, "usage: broker ADDRESS SINK DRIVERS LAST LOG\n");
        return 2;
    }
    signal(SIGTERM, end);
    for (int at = 0; at < CONNECTIONS; at++)
        broker.connections[at].fd = -1;
    broker.log = open(words[5], O_WRONLY | O_CREAT | O_TRUNC | O_APPEND | O_CLOEXEC, 0666);
    if (broker.log < 0)
        return device_fails(words[5]);
    broker.last = strtoull(words[4], NULL, 10);
    dprintf(broker.log, "iovalog 1 1 %" PRIu64 "\n", broker.last);
    if (device_open(&broker.device, words[1]) || work_begin(&broker))
        return 1;
    int drivers = listen_at(words[3], SOCK_SEQPACKET), sink = listen_at(words[2], SOCK_STREAM);
    serve(&broker, sink, drivers);
    work_end(&broker);
    unmap_all(&broker);
    for (int at = 0; at < CONNECTIONS; at++)
        if (broker.connections[at].who != NOBODY)
            leave(&broker, &broker.connections[at]);
    close(sink);
    close(drivers);
    unlink(words[2]);
    unlink(words[3]);
    close(broker.log);
    device_close(&broker.device);
    printf("mapped %" PRIu64 " unmapped %" PRIu64 " inval %" PRIu64 " gone %" PRIu64 " reset %" PRIu64
           " provoked %" PRIu64 " near %" PRIu64 " refused %" PRIu64 " clashes %" PRIu64 " ",
           broker.mapped, broker.unmapped, broker.invals, broker.gones, broker.resets, broker.provoked, broker.near,
           broker.refused, broker.clashes);
    work_print();
    return 0;
}
