/* broker.h: the peer of `iovad serve`, for the device of vhost.h. Each flush of the daemon ends by the device's
 * acknowledgement: `inval` becomes INVALIDATE, and its acknowledgement becomes `done`.
 *
 * The broker is threads of the driver's process, since a vhost-user device has one connection for rings and INVALIDATE.
 * If the process dies, the connection ends, and the device stops. The daemon then asks the next process for `gone`.
 *
 * The daemon connects several times. Each connection has a thread, and the lock of the page table orders the requests.
 */
#ifndef BROKER_H
#define BROKER_H

#include "vhost.h"

struct broker_connection {
    struct vhost *vhost;
    int fd;
};

/* Whether the daemon still waits. A request whose connection has ended is nobody's: the daemon has made it again, or is
 * dead. The lock is held. */
static inline int broker_is_asked(struct broker_connection *connection) {
    char byte;
    return recv(connection->fd, &byte, 1, MSG_PEEK | MSG_DONTWAIT) != 0;
}

/* `reset`: a daemon starts, and nothing is left of an earlier one. */
static inline int broker_reset(struct broker_connection *connection) {
    for (uint64_t frame = 1; frame <= LAST; frame++)
        vhost_remove(connection->vhost, frame * FRAME);
    return vhost_invalidate(connection->vhost, 0);
}

/* `gone`: a client has ended, and its ranges follow in `count` lines. An earlier process may have had that client: then
 * this page table has nothing of it. */
static inline int broker_remove(struct broker_connection *connection, uint64_t client, const uint64_t (*ranges)[2],
                                uint64_t count) {
    struct vhost *vhost = connection->vhost;
    if (client != vhost->client)
        return 1;
    vhost->client = 0;
    for (uint64_t at = 0; at < count; at++)
        for (uint64_t frame = ranges[at][0]; frame <= LAST && frame - ranges[at][0] < ranges[at][1]; frame++)
            vhost_remove(vhost, frame * FRAME);
    return 1;
}

/* Carries one request out: 1, or 0 if it failed, or -1 if it is none. */
static inline int broker_carry_out(struct broker_connection *connection, FILE *from, const char *word, int words,
                                   uint64_t number, uint64_t count) {
    static __thread uint64_t ranges[LAST][2];
    char line[64];
    int is_reset = words == 2 && !strcmp(word, "reset"), is_flush = words == 3 && !strcmp(word, "inval");
    if (!is_reset && !is_flush && (words != 4 || strcmp(word, "gone") || count > LAST))
        return -1;
    for (uint64_t at = 0; at < count; at++)
        if (!fgets(line, sizeof line, from) ||
            sscanf(line, "%" SCNu64 " %" SCNu64, &ranges[at][0], &ranges[at][1]) != 2)
            return -1;
    pthread_mutex_lock(&connection->vhost->lock);
    int is_done = broker_is_asked(connection) && (is_reset   ? broker_reset(connection)
                                                  : is_flush ? vhost_invalidate(connection->vhost, number)
                                                             : broker_remove(connection, number, ranges, count));
    pthread_mutex_unlock(&connection->vhost->lock);
    return is_done;
}

static inline void *broker_serve(void *given) {
    struct broker_connection *connection = given;
    FILE *from = fdopen(connection->fd, "r");
    char line[64], word[8];
    while (from && fgets(line, sizeof line, from)) {
        uint64_t domain, number = 0, count = 0;
        int words = sscanf(line, "%7s %" SCNu64 " %" SCNu64 " %" SCNu64, word, &domain, &number, &count);
        int is_done = broker_carry_out(connection, from, word, words, number, count);
        if (is_done < 0)
            break;
        dprintf(connection->fd, "%s %s %" PRIu64 "\n", is_done ? "done" : "fail", word, words == 2 ? domain : number);
    }
    if (from)
        fclose(from);
    free(connection);
    return NULL;
}

struct broker {
    struct vhost *vhost;
    int listener;
};

static inline void *broker_accept(void *given) {
    struct broker *broker = given;
    for (int fd; (fd = accept(broker->listener, NULL, NULL)) >= 0;) {
        struct broker_connection *connection = malloc(sizeof *connection);
        pthread_t thread;
        if (connection)
            *connection = (struct broker_connection){broker->vhost, fd};
        if (!connection || pthread_create(&thread, NULL, broker_serve, connection) || pthread_detach(thread))
            vhost_fails("a connection of the daemon");
    }
    return NULL;
}

/* Listens at a path for the daemon. An earlier run may have left its socket there. */
static inline void broker_start(struct broker *broker, struct vhost *vhost, const char *path) {
    struct sockaddr_un at = {.sun_family = AF_UNIX};
    pthread_t thread;
    snprintf(at.sun_path, sizeof at.sun_path, "%s", path);
    *broker = (struct broker){vhost, socket(AF_UNIX, SOCK_STREAM, 0)};
    unlink(path);
    if (bind(broker->listener, (void *)&at, sizeof at) || listen(broker->listener, 64) ||
        pthread_create(&thread, NULL, broker_accept, broker) || pthread_detach(thread))
        vhost_fails(path);
}

#endif
