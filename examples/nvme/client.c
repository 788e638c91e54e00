/* A disk's driver behind the broker (../vfio/broker.c with queues.c): iovad gives it addresses, the broker maps its
 * memory there and rings for it, and all else is as in driver.c: a queue pair of its own, an address for each I/O.
 *
 *     client IOVAD BROKER SHARE SHARES IOS [LOG]
 *
 * IOVAD is the socket of `iovad serve`, BROKER that of the broker's drivers. The disk is split into so many SHARES,
 * and this driver has the one of this number, from 0 on: WHAT STANDS THERE IS OVERWRITTEN by so many I/Os (ios.h), up
 * to 256 of them in flight, and all that was written is read back. It prints `started` and how many are in flight once
 * those are 200, or after ten seconds, and at its end its counts. What the device was seen to use is appended to LOG.
 * At a SIGTERM no further I/O begins, and all is read back.
 */
#define _GNU_SOURCE
#include "../vfio/client.h"
#include "ios.h"

#include <fcntl.h>
#include <inttypes.h>
#include <signal.h>
#include <stdlib.h>
#include <sys/mman.h>

enum {
    BATCH = IOVAD_IN_FLIGHT, /* requests on their way */
    FRAME = 4096,
    STARTED = 200, /* commands in flight, or so many milliseconds after the first */
    STARTED_LATE = 10000,
    NO_SPACE = 6, /* of the daemon's refusals: nothing fits now */
};

struct client {
    iovad_session session;
    uint64_t number, first; /* the daemon's for this client; the frame of the rings and lists */
    int broker, fd, log;
    uint8_t *memory;        /* rings and lists, and behind them the data */
    struct nvme nvme;
    struct nvme_queue queue;
    struct load load;
    struct io *waiting[DEPTH], *gathered[DEPTH]; /* without an address; ended, and still mapped */
    int waits, count, has_started, submitted;    /* submitted: commands that the controller has */
    uint64_t mapped, begun; /* begun: when, in milliseconds */
};

static volatile sig_atomic_t ending;

static void end(int number) {
    (void)number;
    ending = 1;
}

static int fails_by(const char *what, uint64_t error) { return client_fails(what, iovad_error_name(error)); }

/* The bytes of the rings, and of these and the lists: whole frames. */
static uint64_t rings(void) { return nvme_queue_bytes(DEPTH + 1); }
static uint64_t fixed(void) { return rings() + LISTS; }

static int tell(struct client *client, const char *text, int fd) { return client_tell(client->broker, text, fd); }

static int hear(struct client *client, const char *word, char *said, size_t room) {
    return client_hear(client->broker, word, said, room);
}

static int ask_broker(struct client *client, const char *text, const char *word, char *said, size_t room) {
    return tell(client, text, -1) || hear(client, word, said, room);
}

/* Memory of this driver's, at an address of the daemon's: the answer is still to come. */
static int ask_map(struct client *client, uint64_t first, const uint8_t *memory, uint64_t bytes) {
    char text[96];
    snprintf(text, sizeof text, "map %" PRIu64 " %" PRIu64 " %" PRIu64 " %" PRIu64, client->number, first,
             bytes / FRAME, (uint64_t)(memory - client->memory) / FRAME);
    client->mapped++;
    return tell(client, text, client->fd);
}

static int ask_unmap(struct client *client, uint64_t first) {
    char text[64];
    snprintf(text, sizeof text, "unmap %" PRIu64 " %" PRIu64, client->number, first);
    return tell(client, text, -1);
}

/* Writes an I/O's command. The controller hears of it once the broker rings. */
static void push(struct client *client, const struct io *io) {
    int slot = (int)(io - client->load.ios);
    uint8_t *lists = client->memory + rings();
    uint64_t address = client->first * FRAME + rings();
    struct nvme_command command = load_command(&client->load, &client->nvme, slot, lists, address);
    nvme_push(&client->queue, &command);
}

/* Addresses for I/Os that wait for one, and mappings there. How many got one, or -1. Where the space is full the others
 * wait on: this driver's own completions make room. */
static int map_some(struct client *client) {
    int asked = client->waits < BATCH ? client->waits : BATCH, got = 0, left = 0, failed = 0;
    char said[64];
    for (int at = 0; at < asked; at++)
        if (iovad_ask_alloc(&client->session, client->waiting[at]->bytes / FRAME, UINT64_MAX))
            return -client_fails("the daemon", "it takes no request");
    for (int at = 0; at < asked; at++) {
        struct io *io = client->waiting[at];
        iovad_range range = iovad_take_alloc(&client->session);
        if (range.error == NO_SPACE) {
            client->waiting[left++] = io;
            continue;
        }
        if (range.error)
            return -fails_by("alloc", range.error);
        io->address = range.lo * FRAME;
        failed |= ask_map(client, range.lo, io->memory, io->bytes);
        push(client, io);
        got++;
    }
    for (int at = 0; at < got && !failed; at++)
        failed |= hear(client, "mapped", said, sizeof said);
    memmove(client->waiting + left, client->waiting + asked, (size_t)(client->waits - asked) * sizeof *client->waiting);
    client->waits -= got;
    client->submitted += got;
    return failed ? -1 : got;
}

static int free_all(struct client *client, uint64_t *left, int count) {
    uint64_t error = client_free(&client->session, left, count);
    return error ? fails_by("free", error) : 0;
}

/* Unmaps what has ended, and gives the addresses up: in this order. */
static int take_back(struct client *client, struct io **ios, int count) {
    uint64_t left[BATCH];
    char said[64];
    int failed = 0;
    for (int at = 0; at < count; at++) {
        left[at] = ios[at]->address / FRAME;
        if (client->log >= 0)
            dprintf(client->log, "use %" PRIu64 " %" PRIu64 "\n", left[at], ios[at]->bytes / FRAME);
        failed |= ask_unmap(client, left[at]);
    }
    for (int at = 0; at < count && !failed; at++)
        failed |= hear(client, "unmapped", said, sizeof said);
    failed = failed || free_all(client, left, count);
    for (int at = 0; at < count; at++)
        load_retire(&client->load, ios[at]);
    return failed;
}

static int ring(struct client *client) {
    char text[64], said[64];
    snprintf(text, sizeof text, "ring %" PRIu64 " %" PRIu16 " %" PRIu16, client->number, client->queue.tail,
             client->queue.head);
    return ask_broker(client, text, "rung", said, sizeof said);
}

/* One turn: I/Os begin, one doorbell for all; what has ended is taken, and taken back. How many that were, or -1. */
static int turn(struct client *client) {
    struct load *load = &client->load;
    struct nvme_completion taken;
    int ended = 0, begun, slot;
    while (client->waits < BATCH && (slot = load_next(load, DEPTH)) >= 0) {
        load_begin(load, slot);
        client->waiting[client->waits++] = &load->ios[slot];
    }
    if ((begun = map_some(client)) < 0)
        return -1;
    while (nvme_take(&client->queue, &taken)) {
        struct io *io = load_end(load, &taken);
        if (!io)
            return -1;
        client->gathered[client->count++] = io;
        client->submitted--;
        ended++;
    }
    if (begun + ended && ring(client))
        return -1;
    int late = nvme_milliseconds() - client->begun > STARTED_LATE;
    if ((client->submitted >= STARTED || late) && !client->has_started) {
        client->has_started = 1;
        printf("started %d\n", client->submitted);
        fflush(stdout);
    }
    for (int at = 0; at < client->count; at += BATCH)
        if (take_back(client, client->gathered + at, client->count - at < BATCH ? client->count - at : BATCH))
            return -1;
    client->count = 0;
    return begun + ended;
}

static int run(struct client *client) {
    uint64_t end = nvme_milliseconds() + NVME_PATIENCE;
    client->begun = nvme_milliseconds();
    while (load_has_more(&client->load)) {
        int moved = turn(client);
        if (moved < 0)
            return 1;
        if (ending)
            client->load.left = 0;
        if (moved > 0)
            end = nvme_milliseconds() + NVME_PATIENCE;
        else if (nvme_milliseconds() > end)
            return client_fails("the disk", "it answers nothing");
        else
            usleep(500);
    }
    return 0;
}

/* The memory, the rings' address and mapping, and the queue. */
static int start(struct client *client, uint64_t share, uint64_t shares, uint64_t ios) {
    char text[96], said[96];
    struct load *load = &client->load;
    uint64_t frames = fixed() / FRAME;
    client->fd = memfd_create("driver", MFD_CLOEXEC);
    if (client->fd < 0 || ftruncate(client->fd, (off_t)(fixed() + POOL)))
        return client_fails("memory", strerror(errno));
    void *memory = mmap(NULL, fixed() + POOL, PROT_READ | PROT_WRITE, MAP_SHARED, client->fd, 0);
    if (memory == MAP_FAILED)
        return client_fails("memory", strerror(errno));
    client->memory = memory;
    uint64_t error = iovad_ask_alloc(&client->session, frames, UINT64_MAX);
    iovad_range range = iovad_take_alloc(&client->session);
    if (error || range.error)
        return fails_by("alloc", error ? error : range.error);
    client->first = range.lo;
    if (ask_map(client, range.lo, client->memory, fixed()) || hear(client, "mapped", said, sizeof said))
        return 1;
    snprintf(text, sizeof text, "queue %" PRIu64 " %" PRIu64 " %d", client->number, range.lo, DEPTH + 1);
    if (ask_broker(client, text, "queue", said, sizeof said))
        return 1;
    struct nvme *nvme = &client->nvme;
    if (sscanf(said, "queue %" SCNu64 " %" SCNu64 " %" SCNu64, &nvme->most, &nvme->block, &nvme->blocks) != 3)
        return client_fails("queue", said);
    client->queue = nvme_rings_over(1, DEPTH + 1, client->memory);
    uint64_t blocks = nvme->block > BLOCK || !nvme->block ? 0 : nvme->blocks / (BLOCK / nvme->block);
    load_make(load, client->number, client->memory + fixed());
    load->blocks = blocks / shares;
    load->first = share * load->blocks;
    load->most = nvme->most < LARGE ? nvme->most : LARGE;
    load->left = ios;
    load->generations = calloc(blocks, sizeof *load->generations);
    load->busy = calloc(blocks, 1);
    int good = load->generations && load->busy && load->blocks >= LARGE / BLOCK;
    return good ? 0 : client_fails("the disk", "it is too small, or too big");
}

/* The queue goes first: its rings are mapped as long as it is there. */
static int stop(struct client *client) {
    char text[64], said[64];
    snprintf(text, sizeof text, "delete %" PRIu64, client->number);
    return ask_broker(client, text, "deleted", said, sizeof said) || ask_unmap(client, client->first) ||
           hear(client, "unmapped", said, sizeof said) || free_all(client, &client->first, 1) ||
           iovad_bye(&client->session);
}

static int open_both(struct client *client, const char *daemon, const char *broker) {
    const struct timeval patience = {NVME_PATIENCE / 1000, 0};
    iovad_opened opened = iovad_open(&client->session, daemon, 0, 0);
    if (opened.error)
        return fails_by("the daemon", opened.error);
    iovad_within(&client->session, NVME_PATIENCE);
    client->number = opened.number;
    client->broker = client_connect(broker);
    int failed = client->broker < 0 ||
                 setsockopt(client->broker, SOL_SOCKET, SO_RCVTIMEO, &patience, sizeof patience);
    return failed ? client_fails("the broker", strerror(errno)) : 0;
}

int main(int argc, char **words) {
    static struct client client = {.broker = -1, .fd = -1, .log = -1, .session = {.fd = -1}};
    uint64_t share = argc > 5 ? strtoull(words[3], NULL, 10) : 0, shares = argc > 5 ? strtoull(words[4], NULL, 10) : 0;
    if (argc < 6 || argc > 7 || share >= shares) {
        fprintf(stderr, "usage: client IOVAD BROKER SHARE SHARES IOS [LOG]\n");
        return 2;
    }
    signal(SIGTERM, end); /* calls that wait go on */
    if (argc > 6 && (client.log = open(words[6], O_WRONLY | O_APPEND | O_CLOEXEC)) < 0)
        return client_fails(words[6], strerror(errno));
    int failed = open_both(&client, words[1], words[2]) ||
                 start(&client, share, shares, strtoull(words[5], NULL, 10)) || run(&client) || stop(&client);
    iovad_close(&client.session);
    struct load *load = &client.load;
    printf("reads %" PRIu64 " writes %" PRIu64 " KiB %" PRIu64 " mapped %" PRIu64 " wrong %" PRIu64 "\n", load->reads,
           load->writes, load->bytes >> 10, client.mapped, load->wrong);
    free(load->generations);
    free(load->busy);
    if (client.memory)
        munmap(client.memory, fixed() + POOL);
    for (int which = 0; which < 3; which++) {
        int fd = which == 0 ? client.broker : which == 1 ? client.fd : client.log;
        if (fd >= 0)
            close(fd);
    }
    return failed || load->wrong;
}
