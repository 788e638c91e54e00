/* broker.h: a broker's state, and what it asks of the device that it brokers. broker.c has the page table, the daemon
 * and the drivers' connections; a device has a file of its own: edu.c, and ../nvme/queues.c for a disk.
 */
#ifndef BROKER_H
#define BROKER_H

#define _GNU_SOURCE

#include "device.h"

enum { CONNECTIONS = 64, MAPPINGS = 8192, CLIENTS = 65537 };

struct mapping {
    uint64_t client, first, frames;
    uint8_t *memory;
};

struct connection {
    enum { NOBODY, DAEMON, DRIVER } who;
    int fd;
    char *text; /* of a request of the daemon's, as far as it has come */
    size_t length;
    char owed[48]; /* an answer that waits for the device */
};

struct broker {
    struct device device;
    struct mapping mappings[MAPPINGS];
    size_t count;
    uint8_t gone[CLIENTS]; /* clients that may map nothing any more */
    struct connection connections[CONNECTIONS];
    uint64_t last; /* the last frame of the daemon's domain */
    int log;
    uint64_t mapped, unmapped, invals, gones, resets, provoked, near, refused, clashes;
};

enum { NO_CLIENT = CLIENTS }; /* no client has this number */

/* broker.c: the mapping of a client's that has all of these bytes, or NULL. */
struct mapping *broker_find(struct broker *broker, uint64_t client, uint64_t address, uint64_t bytes);

/* A line of the log: so many frames were mapped, used or unmapped. */
void broker_note(struct broker *broker, const char *what, uint64_t first, uint64_t frames);

/* An answer to a connection, which is closed where it takes none. */
void broker_answer(struct broker *broker, struct connection *connection, const char *text);

/* The device's file. */

/* Begins, once the device is open. 0, or not where it can't. */
int work_begin(struct broker *broker);

/* A driver's request that is neither `map` nor `unmap`. The answer, or NULL where it comes later. */
const char *work_meet(struct broker *broker, struct connection *connection, const char *text);

/* Whether a driver may not unmap this yet, since the device was given it for longer than a command. */
int work_wants(struct broker *broker, const struct mapping *mapping);

/* Whether the device is at work on this just now: what it then tries ends in a fault if it is unmapped. */
int work_uses(struct broker *broker, const struct mapping *mapping);

/* Stops what the device does for a client that is gone, or for all where that is NO_CLIENT. Whether the answer has to
 * wait, since the device can't be stopped; negative: whether it stopped isn't known. */
int work_stop(struct broker *broker, uint64_t client);

/* What is due at each turn, and whether the next turn is to come soon, though no message does. */
int work_turn(struct broker *broker);

/* A connection ends. */
void work_leave(struct broker *broker, const struct connection *connection);

/* At the end: the device stops, and then its counts are printed. */
void work_end(struct broker *broker);
void work_print(void);

#endif
