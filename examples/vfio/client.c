/* A driver behind the broker: iovad gives it addresses, and the broker maps them and has the device copy.
 *
 *     client IOVAD BROKER TURNS
 *
 * IOVAD is the socket of `iovad serve`, BROKER that of the broker's drivers. In each turn it asks for the addresses of
 * 16 buffers of 1 to 8 pages, has them mapped, and in each fourth turn, from the first on, copied from one to another
 * by the device; it compares the bytes, has them unmapped, and frees the addresses. Where the daemon or the broker
 * goes away it begins anew with the next one, up to so many turns. At a SIGTERM it ends its turn, and is over.
 */
#define _GNU_SOURCE
#include "client.h"

#include <inttypes.h>
#include <signal.h>
#include <stdlib.h>
#include <sys/mman.h>

enum { DEPTH = IOVAD_IN_FLIGHT, FRAME = 4096, PAGES = 8, COPIED = 4, PIECE = 4095, TRIES = CLIENT_PATIENCE * 50 };

struct buffer {
    uint64_t first, frames, mark;
    uint8_t *memory;
    int fd;
};

struct driver {
    iovad_session session;
    uint64_t client;
    int broker;
    uint32_t dice;
    struct buffer buffers[DEPTH];
    int refused; /* whether somebody said no, which no driver that plays by the rules is told here */
    uint64_t turns, mapped, copies, lost, wrong;
};

static volatile sig_atomic_t ending;

static void end(int number) {
    (void)number;
    ending = 1;
}

/* Why there is no answer, or that it was a refusal. */
static int fails_by(struct driver *driver, const char *what, uint64_t error) {
    driver->refused |= error < IOVAD_BAD_PATH;
    return client_fails(what, iovad_error_name(error));
}

static uint32_t roll(struct driver *driver) { return (driver->dice = driver->dice * 1664525 + 1013904223) >> 16; }

static int tell(struct driver *driver, const char *text, int fd) { return client_tell(driver->broker, text, fd); }

static int hear(struct driver *driver, const char *word) {
    char said[64];
    int heard = client_hear(driver->broker, word, said, sizeof said);
    driver->refused |= heard > 0;
    return heard;
}

/* Addresses from the daemon: 16 requests in flight. */
static int ask(struct driver *driver) {
    uint64_t error = 0;
    for (int at = 0; at < DEPTH && !error; at++) {
        driver->buffers[at].frames = roll(driver) % PAGES + 1;
        error = iovad_ask_alloc(&driver->session, driver->buffers[at].frames, UINT64_MAX);
    }
    for (int at = 0; at < DEPTH && !error; at++) {
        iovad_range range = iovad_take_alloc(&driver->session);
        driver->buffers[at].first = range.lo;
        error = range.error;
    }
    return error ? fails_by(driver, "alloc", error) : 0;
}

/* Memory that the broker can have too: each page is marked as this driver's. */
static int make(struct driver *driver, struct buffer *buffer) {
    size_t bytes = buffer->frames * FRAME;
    buffer->mark = driver->client << 40 | driver->turns << 20 | buffer->first;
    buffer->fd = memfd_create("buffer", MFD_CLOEXEC);
    if (buffer->fd < 0 || ftruncate(buffer->fd, (off_t)bytes))
        return client_fails("memory", strerror(errno));
    void *memory = mmap(NULL, bytes, PROT_READ | PROT_WRITE, MAP_SHARED, buffer->fd, 0);
    if (memory == MAP_FAILED)
        return client_fails("memory", strerror(errno));
    buffer->memory = memory;
    for (size_t at = 0; at < bytes; at += FRAME)
        memcpy(buffer->memory + at, &buffer->mark, sizeof buffer->mark);
    return 0;
}

static int map(struct driver *driver, struct buffer *buffer) {
    char text[96];
    snprintf(text, sizeof text, "map %" PRIu64 " %" PRIu64 " %" PRIu64, driver->client, buffer->first, buffer->frames);
    driver->mapped++;
    return make(driver, buffer) || tell(driver, text, buffer->fd) || hear(driver, "mapped");
}

/* The device copies the first page of one buffer to that of another. */
static int copy(struct driver *driver) {
    char text[128];
    uint32_t first = roll(driver) % DEPTH, second = (first + 1 + roll(driver) % (DEPTH - 1)) % DEPTH;
    struct buffer *from = &driver->buffers[first], *to = &driver->buffers[second];
    for (int at = 0; at < PIECE; at++)
        from->memory[at] = (uint8_t)(driver->client + driver->turns + (uint64_t)at * 7);
    snprintf(text, sizeof text, "copy %" PRIu64 " %" PRIu64 " %" PRIu64 " %d", driver->client, from->first * FRAME,
             to->first * FRAME, PIECE);
    if (tell(driver, text, -1) || hear(driver, "started"))
        return 1;
    printf("started\n");
    fflush(stdout);
    if (hear(driver, "done"))
        return 1;
    driver->wrong += memcmp(from->memory, to->memory, PIECE) != 0;
    driver->copies++;
    memcpy(from->memory, &from->mark, sizeof from->mark);
    memcpy(to->memory, &to->mark, sizeof to->mark);
    return 0;
}

/* Nobody else wrote into a buffer while it was this driver's. */
static int unmap(struct driver *driver, struct buffer *buffer) {
    char text[96];
    snprintf(text, sizeof text, "unmap %" PRIu64 " %" PRIu64, driver->client, buffer->first);
    if (tell(driver, text, -1) || hear(driver, "unmapped"))
        return 1;
    for (size_t at = 0; at < buffer->frames * FRAME; at += FRAME)
        driver->wrong += memcmp(buffer->memory + at, &buffer->mark, sizeof buffer->mark) != 0;
    return 0;
}

static int unmap_all(struct driver *driver) {
    int failed = 0;
    for (int at = 0; at < DEPTH && !failed; at++)
        failed = unmap(driver, &driver->buffers[at]);
    return failed;
}

static int free_all(struct driver *driver) {
    uint64_t left[DEPTH];
    for (int at = 0; at < DEPTH; at++)
        left[at] = driver->buffers[at].first;
    uint64_t error = client_free(&driver->session, left, DEPTH);
    return error ? fails_by(driver, "free", error) : 0;
}

static void drop_memory(struct driver *driver) {
    for (int at = 0; at < DEPTH; at++) {
        struct buffer *buffer = &driver->buffers[at];
        if (buffer->memory)
            munmap(buffer->memory, buffer->frames * FRAME);
        if (buffer->fd >= 0)
            close(buffer->fd);
        *buffer = (struct buffer){.fd = -1};
    }
}

/* A driver's life: ask, map, use, unmap, free. */
static int turn(struct driver *driver) {
    int failed = ask(driver);
    for (int at = 0; at < DEPTH && !failed; at++)
        failed = map(driver, &driver->buffers[at]);
    if (!failed && driver->turns % COPIED == 0)
        failed = copy(driver);
    failed = failed || unmap_all(driver) || free_all(driver);
    drop_memory(driver);
    driver->turns++;
    return failed;
}

/* The daemon first: once it answers, the broker has forgotten an earlier daemon's clients. */
static int open_both(struct driver *driver, const char *daemon, const char *broker) {
    iovad_opened opened = iovad_open(&driver->session, daemon, 0, 0);
    if (opened.error)
        return 1;
    driver->client = opened.number;
    driver->broker = client_connect(broker);
    return driver->broker < 0;
}

static void close_both(struct driver *driver) {
    iovad_close(&driver->session);
    if (driver->broker >= 0)
        close(driver->broker);
    driver->broker = -1;
}

int main(int argc, char **words) {
    struct driver driver = {.broker = -1, .session = {.fd = -1}};
    if (argc != 4) {
        fprintf(stderr, "usage: client IOVAD BROKER TURNS\n");
        return 2;
    }
    uint64_t turns = strtoull(words[3], NULL, 10);
    int failed = 0, tries = 0;
    signal(SIGTERM, end); /* calls that wait go on */
    drop_memory(&driver);
    while (driver.turns < turns && !ending && tries < TRIES && !driver.refused) {
        failed = open_both(&driver, words[1], words[2]);
        driver.dice = (uint32_t)driver.client;
        while (!failed && driver.turns < turns && !ending && !(failed = turn(&driver)))
            tries = 0;
        if (!failed)
            failed = iovad_bye(&driver.session) != 0;
        driver.lost += (uint64_t)(failed && tries++ == 0);
        close_both(&driver);
        if (failed)
            usleep(20000);
    }
    printf("turns %" PRIu64 " mapped %" PRIu64 " copies %" PRIu64 " lost %" PRIu64 " wrong %" PRIu64 "\n", driver.turns,
           driver.mapped, driver.copies, driver.lost, driver.wrong);
    return failed || driver.wrong;
}
