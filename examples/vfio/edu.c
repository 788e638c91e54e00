/* QEMU's `edu` behind the broker. A driver's request:
 *
 *     copy CLIENT FROM TO BYTES       by the device, in bytes             started, and later: done
 *
 * Drivers have their turns one after another. A command can't be taken back from this device.
 */
#include "broker.h"

enum { PIECE = 4095 };

struct job {
    uint64_t client, from, to, bytes; /* bytes is 0 where there is none */
};

static struct {
    struct job job; /* what the device does */
    enum { IDLE, READING, WRITING } stage;
    struct connection *asker;     /* whose job it is, or NULL where that has left */
    struct job asked[CONNECTIONS]; /* what waits for its turn */
    uint64_t copies;
} edu;

int work_begin(struct broker *broker) {
    (void)broker;
    return 0;
}

static int has(const struct mapping *mapping, uint64_t address, uint64_t bytes) {
    return address >= mapping->first * FRAME && address + bytes <= (mapping->first + mapping->frames) * FRAME;
}

/* Both ends, since the second transfer is still to come. */
int work_wants(struct broker *broker, const struct mapping *mapping) {
    (void)broker;
    return edu.stage != IDLE && (has(mapping, edu.job.from, edu.job.bytes) || has(mapping, edu.job.to, edu.job.bytes));
}

/* The bytes move at the end of the work. */
int work_uses(struct broker *broker, const struct mapping *mapping) {
    uint64_t address = edu.stage == WRITING ? edu.job.to : edu.job.from;
    return edu.stage != IDLE && has(mapping, address, edu.job.bytes) && edu_is_busy(&broker->device);
}

int work_stop(struct broker *broker, uint64_t client) {
    (void)broker;
    return edu.stage != IDLE && (client == NO_CLIENT || edu.job.client == client);
}

const char *work_meet(struct broker *broker, struct connection *connection, const char *text) {
    struct job job, *asked = &edu.asked[connection - broker->connections];
    const char *form = "copy %" SCNu64 " %" SCNu64 " %" SCNu64 " %" SCNu64;
    if (sscanf(text, form, &job.client, &job.from, &job.to, &job.bytes) != 4)
        return "no request";
    if (asked->bytes > 0 || edu.asker == connection || job.bytes == 0 || job.bytes > PIECE)
        return "no copy";
    *asked = job;
    return NULL;
}

void work_leave(struct broker *broker, const struct connection *connection) {
    edu.asked[connection - broker->connections].bytes = 0;
    if (edu.asker == connection)
        edu.asker = NULL;
}

/* A copy is two transfers, and nobody else's comes between them. */
static void begin_job(struct broker *broker, struct connection *connection, struct job job) {
    edu.asked[connection - broker->connections].bytes = 0;
    if (!broker_find(broker, job.client, job.from, job.bytes) || !broker_find(broker, job.client, job.to, job.bytes)) {
        broker_answer(broker, connection, "no mapping");
        return;
    }
    edu.job = job;
    edu.stage = READING;
    edu.asker = connection;
    edu_start(&broker->device, job.from, job.bytes, 0);
    broker_answer(broker, connection, "started");
}

static void end_transfer(struct broker *broker) {
    int wanted = edu.asker && !broker->gone[edu.job.client];
    if (wanted && edu.stage == READING) {
        edu.stage = WRITING;
        edu_start(&broker->device, edu.job.to, edu.job.bytes, 1);
        return;
    }
    struct connection *asker = edu.asker;
    edu.stage = IDLE;
    edu.asker = NULL;
    edu.copies += (uint64_t)wanted;
    if (wanted) {
        broker_note(broker, "use", edu.job.from / FRAME, 1);
        broker_note(broker, "use", edu.job.to / FRAME, 1);
    }
    if (asker)
        broker_answer(broker, asker, wanted ? "done" : "no client");
    for (int at = 0; at < CONNECTIONS; at++) {
        struct connection *connection = &broker->connections[at];
        if (connection->owed[0]) {
            char text[sizeof connection->owed];
            memcpy(text, connection->owed, sizeof text);
            connection->owed[0] = 0;
            broker_answer(broker, connection, text);
        }
    }
}

int work_turn(struct broker *broker) {
    static int next;
    if (edu.stage != IDLE && !edu_is_busy(&broker->device))
        end_transfer(broker);
    for (int tried = 0; tried < CONNECTIONS && edu.stage == IDLE; tried++) {
        next = (next + 1) % CONNECTIONS;
        if (broker->connections[next].who == DRIVER && edu.asked[next].bytes > 0)
            begin_job(broker, &broker->connections[next], edu.asked[next]);
    }
    return edu.stage != IDLE;
}

void work_end(struct broker *broker) {
    while (edu_is_busy(&broker->device))
        usleep(1000);
    edu.stage = IDLE;
}

void work_print(void) { printf("copies %" PRIu64 "\n", edu.copies); }
