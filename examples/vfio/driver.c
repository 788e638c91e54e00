/* A driver in its own process: VFIO has the page tables, and libiova says which addresses to map.
 *
 *     driver [--cached] ADDRESS MASK [BUFFERS [LOG]]
 *
 * ADDRESS is that of an `edu` on the PCI bus, which vfio-pci has; MASK is the last byte that the device reaches, as
 * 0xfffffff. The driver posts so many buffers (10,000) of 1 to 32 pages and takes them back, a batch at a time, while
 * others stay posted. Of each hundredth the device reads a piece and writes it elsewhere in the same buffer. At each
 * thousandth the device is told to use an address that was given up: that has to be a fault of the IOMMU. What was
 * mapped, unmapped and flushed is written to LOG, which `iovad check` reads, and counts go to standard output.
 *
 * With --cached addresses come from a cache (iova_shared.h), as they do for each thread of a driver that has several. It
 * flushes by itself where 255 buffers that were given up wait.
 */
#define _GNU_SOURCE
#include "device.h"

#include <iova.h>
#include <iova_shared.h>

enum {
    POSTED = 512,        /* buffers that are posted at a time */
    BATCH = 32,          /* that many are taken back, and as many posted, in a turn */
    PAGES = 32,          /* of a buffer at most */
    USED = 100,          /* one of so many buffers is used by the device */
    PROVOKED = 1000,     /* one of so many addresses is used after it was given up */
    HALF = FRAME / 2,    /* where in a page the device writes */
    PIECE = HALF - 1,    /* so many bytes */
    WINDOWS = 64,
};

struct buffer {
    uint8_t *memory;
    uint64_t number, address, bytes; /* bytes is 0 where nothing is posted */
};

struct driver {
    struct device device;
    iova_domain *domain;
    uint64_t client, mask;
    int is_cached;
    iova_shared shared;
    iova_shared_cache cache;
    struct buffer buffers[POSTED];
    uint8_t *pool;
    uint8_t *known; /* of each frame, whether it was given before */
    FILE *log;
    uint64_t mapped, unmapped, flushes, again, transfers, provoked, wrong;
};

static int fails(const char *what, uint64_t refused) {
    fprintf(stderr, "driver: %s: %s\n", what, refused ? iova_refusal_name(refused) : strerror(errno));
    return 1;
}

static void note(struct driver *driver, const char *what, const struct buffer *buffer) {
    if (driver->log)
        fprintf(driver->log, "%s %" PRIu64 " %" PRIu64 "\n", what, buffer->address / FRAME, buffer->bytes / FRAME);
}

/* A flush, between its begin and its end: VFIO has emptied the IOTLB of what was unmapped at each unmap, so there is
 * nothing to do. 1: done; 0 would say that it failed. */
static int invalidate(void *with) {
    struct driver *driver = with;
    driver->flushes++;
    if (driver->log)
        fprintf(driver->log, "begin %" PRIu64 "\nend %" PRIu64 " ok\n", driver->flushes, driver->flushes);
    return 1;
}

/* Whoever is given addresses: a client of the domain, or a cache, which has one. */
static uint64_t open_client(struct driver *driver) {
    if (driver->is_cached) {
        uint64_t refused = iova_shared_init(&driver->shared, driver->domain, invalidate, driver);
        return refused ? refused : iova_shared_open(&driver->cache, &driver->shared, 0, 0);
    }
    iova_number opened = iova_open(driver->domain, 0, 0);
    driver->client = opened.number;
    return opened.refused;
}

static iova_mapping take_address(struct driver *driver, uint64_t bytes) {
    if (driver->is_cached)
        return iova_shared_map(&driver->cache, bytes, driver->mask);
    return iova_map(driver->domain, 0, driver->client, bytes, driver->mask);
}

static iova_mapping give_up_address(struct driver *driver, uint64_t address) {
    if (driver->is_cached)
        return iova_shared_unmap_bytes(&driver->cache, address);
    return iova_unmap_bytes(driver->domain, 0, driver->client, address);
}

/* The domain: the frames that the device reaches, but for the windows that the platform keeps for itself. */
static int make_domain(struct driver *driver) {
    struct device_window windows[WINDOWS];
    uint64_t last = (driver->mask - (FRAME - 1)) / FRAME;
    int count = device_windows(&driver->device, &last, windows, WINDOWS);
    driver->domain = iova_domain_new();
    uint64_t refused = count < 0 ? IOVA_BAD_WINDOW : driver->domain ? 0 : IOVA_NO_MEMORY;
    if (!refused)
        refused = iova_domain_make(driver->domain, 1, last, 1);
    for (int at = 0; at < count && !refused; at++)
        refused = iova_reserve(driver->domain, windows[at].first, windows[at].last).refused;
    if (!refused)
        refused = open_client(driver);
    driver->known = calloc(last + 1, 1);
    if (driver->log)
        fprintf(driver->log, "iovalog 1 1 %" PRIu64 "\n", last);
    return refused || !driver->known ? fails("the domain", refused ? refused : IOVA_NO_MEMORY) : 0;
}

/* Each page says in both of its halves whose it is. */
static uint64_t *mark(const struct buffer *buffer, uint64_t page, int half) {
    return (uint64_t *)(void *)(buffer->memory + page * FRAME + (half ? HALF : 0));
}

static void mark_all(struct buffer *buffer) {
    for (uint64_t page = 0; page < buffer->bytes / FRAME; page++)
        *mark(buffer, page, 0) = *mark(buffer, page, 1) = buffer->number << 8 | page;
}

static uint64_t marks_that_changed(const struct buffer *buffer) {
    uint64_t count = 0;
    for (uint64_t page = 0; page < buffer->bytes / FRAME; page++)
        for (int half = 0; half < 2; half++)
            count += *mark(buffer, page, half) != (buffer->number << 8 | page);
    return count;
}

/* An address first, then the page table: the device may use the buffer from now on. */
static int post(struct driver *driver, struct buffer *buffer, uint64_t number, uint64_t pages) {
    iova_mapping given = take_address(driver, pages * FRAME);
    if (given.refused)
        return fails("an address", given.refused);
    *buffer = (struct buffer){buffer->memory, number, given.address, pages * FRAME};
    mark_all(buffer);
    note(driver, "map", buffer);
    if (device_map(&driver->device, buffer->memory, buffer->address, buffer->bytes))
        return fails("map", 0);
    driver->mapped++;
    driver->again += driver->known[buffer->address / FRAME];
    memset(driver->known + buffer->address / FRAME, 1, pages);
    return 0;
}

/* The device reads a piece of one page, and writes it into another one, or the same. */
static void use(struct driver *driver, struct buffer *buffer) {
    uint64_t pages = buffer->bytes / FRAME, from = buffer->number / USED % pages, to = pages - 1 - from;
    uint8_t *source = buffer->memory + from * FRAME, *target = buffer->memory + to * FRAME + HALF;
    for (int at = 0; at < PIECE; at++)
        source[at] = (uint8_t)(buffer->number / USED + (uint64_t)at * 7);
    edu_transfer(&driver->device, buffer->address + from * FRAME, PIECE, 0);
    edu_transfer(&driver->device, buffer->address + to * FRAME + HALF, PIECE, 1);
    note(driver, "use", buffer);
    driver->transfers += 2;
    driver->wrong += memcmp(source, target, PIECE) != 0;
    mark_all(buffer);
}

static int unmap_all(struct driver *driver, struct buffer *batch) {
    for (struct buffer *buffer = batch; buffer < batch + BATCH; buffer++) {
        if (!buffer->bytes)
            continue;
        if (device_unmap(&driver->device, buffer->address, buffer->bytes))
            return fails("unmap", 0);
        note(driver, "unmap", buffer);
        driver->unmapped++;
        driver->wrong += marks_that_changed(buffer);
    }
    return 0;
}

static int give_up_all(struct driver *driver, struct buffer *batch) {
    for (struct buffer *buffer = batch; buffer < batch + BATCH; buffer++) {
        if (!buffer->bytes)
            continue;
        iova_mapping given_up = give_up_address(driver, buffer->address);
        if (given_up.refused)
            return fails("give up", given_up.refused);
    }
    return 0;
}

/* What was given up before may be given again after this. A cache flushes by itself. */
static int flush(struct driver *driver) {
    if (driver->is_cached)
        return 0;
    iova_number begun = iova_begin(driver->domain);
    uint64_t refused = begun.refused ? begun.refused : iova_end(driver->domain, begun.number, invalidate(driver));
    if (!refused)
        refused = iova_drain(driver->domain, 0, 0).refused;
    return refused ? fails("flush", refused) : 0;
}

/* Unmap, then give up, then flush: the other way round an address comes back while the device still reaches it. */
static int take_back(struct driver *driver, struct buffer *batch) {
    return unmap_all(driver, batch) || give_up_all(driver, batch) || flush(driver);
}

/* The device is told to use what was given up: reading at one time, writing at another. */
static void provoke(struct driver *driver, const struct buffer *buffer) {
    if (buffer->bytes && buffer->number % PROVOKED == 0) {
        edu_transfer(&driver->device, buffer->address, PIECE, (int)(buffer->number / PROVOKED % 2));
        driver->provoked++;
    }
}

static int run(struct driver *driver, uint64_t buffers) {
    uint32_t dice = 1;
    for (uint64_t number = 1; number <= buffers + POSTED; number += BATCH) {
        struct buffer *batch = driver->buffers + (number - 1) % POSTED;
        if (take_back(driver, batch))
            return 1;
        for (uint64_t at = 0; at < BATCH; at++) {
            provoke(driver, batch + at);
            batch[at].bytes = 0;
        }
        for (uint64_t at = 0; at < BATCH && number + at <= buffers; at++) {
            dice = dice * 1664525 + 1013904223;
            if (post(driver, batch + at, number + at, (dice >> 16) % PAGES + 1))
                return 1;
            if ((number + at) % USED == 0)
                use(driver, batch + at);
        }
    }
    return 0;
}

int main(int argc, char **words) {
    static struct driver driver;
    if (argc > 1 && !strcmp(words[1], "--cached")) {
        driver.is_cached = 1;
        argc--, words++;
    }
    uint64_t buffers = argc > 3 ? strtoull(words[3], NULL, 0) : 10000;
    driver.mask = argc > 2 ? strtoull(words[2], NULL, 0) : 0;
    if (argc < 3 || argc > 5 || driver.mask < 2 * FRAME || driver.mask > UINT32_MAX) {
        fprintf(stderr, "usage: driver [--cached] ADDRESS MASK [BUFFERS [LOG]]\n");
        return 2;
    }
    size_t size = (size_t)POSTED * PAGES * FRAME;
    driver.pool = mmap(NULL, size, PROT_READ | PROT_WRITE, MAP_PRIVATE | MAP_ANONYMOUS, -1, 0);
    if (driver.pool == MAP_FAILED || (argc > 4 && !(driver.log = fopen(words[4], "w"))))
        return fails("memory or log", 0);
    for (int at = 0; at < POSTED; at++)
        driver.buffers[at].memory = driver.pool + (size_t)at * PAGES * FRAME;
    int failed = device_open(&driver.device, words[1]) || make_domain(&driver) || run(&driver, buffers);
    device_close(&driver.device);
    if (driver.cache.shared) {
        iova_shared_close(&driver.cache);
        iova_shared_clear(&driver.shared);
    }
    iova_domain_free(driver.domain);
    free(driver.known);
    munmap(driver.pool, size);
    if (driver.log && fclose(driver.log))
        failed = fails(words[4], 0);
    printf("mapped %" PRIu64 " unmapped %" PRIu64 " flushes %" PRIu64 " again %" PRIu64 " transfers %" PRIu64
           " provoked %" PRIu64 " wrong %" PRIu64 "\n",
           driver.mapped, driver.unmapped, driver.flushes, driver.again, driver.transfers, driver.provoked, driver.wrong);
    return failed || driver.wrong;
}
