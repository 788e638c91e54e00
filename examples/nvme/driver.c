/* A disk's driver in its own process: an NVMe controller over VFIO, a queue pair for each thread, and for each I/O an
 * address from libiova, which is mapped before the command and unmapped after its completion.
 *
 *     driver [--lazy | --strict | --static] [--threads N] [--depth N] [--mask M] [--window FIRST-LAST]
 *            [--beside EDU] [--log FILE] [--generations FILE] ADDRESS IOS
 *
 * ADDRESS is that of a controller on the PCI bus, which vfio-pci has. WHAT STANDS ON ITS DISK IS OVERWRITTEN: so many
 * I/Os by chance (ios.h says which), up to --depth (256) in flight for each of 1 to 4 threads, and at the end all is
 * read back. How often each block was written is left in --generations, 32 bits for each block of 4 KiB, for whoever
 * looks at the disk from elsewhere.
 *
 *  --strict   each completion: unmap, give up, flush
 *  --lazy     completions are gathered: one unmap for neighbours, all given up; a flush where 255 wait
 *  --static   all memory is mapped once, and nothing is unmapped: as fast as it gets, and the device reaches all
 *  --mask     the last byte that the device reaches, as 0xffffffff for one of 32 bits, or 0xffffff for 16 MiB
 *  --window   a part of the space, in bytes, that is kept back
 *  --beside   another device in the same space, an `edu` that reaches 32 bits: it copies as long as there are I/Os
 *
 * What was mapped, used, unmapped and flushed is written to --log, which `iovad check` reads, and counts go to standard
 * output.
 *
 * The addresses come and go by two functions, take_address and give_back. Each thread has a cache of the one domain
 * (iova_shared.h), so that most I/Os touch nothing that another thread has.
 */
#define _GNU_SOURCE
#include "../vfio/device.h"
#include "ios.h"

#include <getopt.h>
#include <iova_shared.h>
#include <pthread.h>

enum {
    THREADS = 4,
    GATHERED = 128, /* so many ranges are unmapped together at most */
    WINDOWS = 64,
    HUGE_PAGE = 2 << 20,
    PIECE = 4095, /* bytes that `edu` copies at most */
};

enum mode { LAZY, STRICT, STATIC };

struct driver;

/* A thread: it is a worker of the domain, with a cache, and has a queue pair. */
struct worker {
    struct driver *driver;
    iova_shared_cache cache;
    uint64_t mapped, unmapped, waits;
    uint64_t calls;                /* of VFIO's that unmapped something */
    struct nvme_queue queue;
    struct load load;
    struct io *gathered[DEPTH];    /* I/Os that have ended, and are still mapped */
    int count;
    uint8_t *lists;                /* PRP lists, and where the device reaches them */
    uint64_t lists_address;
    pthread_t thread;
    int failed;
};

struct driver {
    struct device device, beside;
    struct nvme nvme;
    enum mode mode;
    uint64_t threads, depth, mask, most;
    uint64_t window[2];
    uint32_t *generations;
    uint8_t *busy, *pool, *rings;  /* of a block, whether a command has it; data; queues */
    struct io pool_at, rings_at;   /* and where the device reaches both */
    int failed, ended;             /* ended: no I/O is left */
    iova_domain *domain;
    iova_shared shared;            /* the domain, for all threads */
    uint64_t caches;               /* that are open */
    struct worker *waiting;        /* who has found no room, and comes first */
    uint64_t flushes, copies;
    uint64_t fixed, milliseconds;  /* frames that stay mapped; what the I/Os took */
    FILE *log;                     /* which has a lock of its own: lines are whole */
    struct worker workers[THREADS + 1]; /* behind the threads' is that of main, and of the device beside it */
};

static int fails(const char *what, uint64_t refused) {
    fprintf(stderr, "driver: %s: %s\n", what, refused ? iova_refusal_name(refused) : strerror(errno));
    return 1;
}

static void note(struct driver *driver, const char *what, uint64_t address, uint64_t bytes) {
    if (driver->log)
        fprintf(driver->log, "%s %" PRIu64 " %" PRIu64 "\n", what, address / FRAME, bytes / FRAME);
}

/* The address space. */

/* The frames that the IOMMU has and the device reaches, but for the platform's windows. `last` is the last frame whose
 * bytes are all within the mask. Each cache is a worker of the domain: one for each thread, and main's. */
static uint64_t reserve(struct driver *driver) {
    struct device_window windows[WINDOWS];
    uint64_t last = (driver->mask - (FRAME - 1)) / FRAME;
    int count = device_windows(&driver->device, &last, windows, WINDOWS);
    uint64_t refused = count < 0 ? IOVA_BAD_WINDOW : iova_domain_make(driver->domain, 1, last, driver->threads + 1);
    for (int at = 0; at < count && !refused; at++)
        refused = iova_reserve(driver->domain, windows[at].first, windows[at].last).refused;
    if (!refused && driver->window[1])
        refused = iova_reserve(driver->domain, driver->window[0] / FRAME, driver->window[1] / FRAME).refused;
    if (driver->log)
        fprintf(driver->log, "iovalog 1 1 %" PRIu64 "\n", last);
    return refused;
}

/* A flush, between its begin and its end; iova_shared.h calls it, on whichever thread. VFIO has emptied the IOTLB of what
 * was unmapped at each unmap, so there is nothing left to do: where that isn't so it is done here. 1: done. 0 would say
 * that it failed, and then no address that waits for it is given again. */
static int invalidate(void *with) {
    struct driver *driver = with;
    uint64_t number = __atomic_add_fetch(&driver->flushes, 1, __ATOMIC_RELAXED);
    if (driver->log)
        fprintf(driver->log, "begin %" PRIu64 "\nend %" PRIu64 " ok\n", number, number);
    return 1;
}

static int make_domain(struct driver *driver) {
    driver->domain = iova_domain_new();
    uint64_t refused = driver->domain ? reserve(driver) : IOVA_NO_MEMORY;
    if (!refused)
        refused = iova_shared_init(&driver->shared, driver->domain, invalidate, driver);
    for (uint64_t number = 0; number <= driver->threads && !refused; number++) {
        refused = iova_shared_open(&driver->workers[number].cache, &driver->shared, number, 0);
        driver->caches += !refused;
    }
    return refused ? fails("the domain", refused) : 0;
}

/* Once no device reaches anything. */
static void end_domain(struct driver *driver) {
    if (driver->caches > 0) {
        while (driver->caches > 0)
            iova_shared_close(&driver->workers[--driver->caches].cache);
        iova_shared_clear(&driver->shared);
    }
    iova_domain_free(driver->domain);
}

/* What lies in this thread's cache no other finds, so it goes back where one waits, and where this thread is done. */
static void make_room(struct worker *worker) {
    iova_shared_counts counts = iova_shared_counts_of(&worker->cache);
    if (counts.waiting)
        iova_shared_flush(&worker->driver->shared);
    if (counts.waiting + counts.cached)
        iova_shared_give_back(&worker->cache);
}

/* Whether nobody has anything but what stays mapped, nor does anything wait for a flush: nothing will come back. */
static int is_all_back(struct driver *driver) {
    pthread_mutex_lock(&driver->shared.lock);
    iova_counts counts = iova_counts_of(driver->domain);
    pthread_mutex_unlock(&driver->shared.lock);
    return counts.client == driver->fixed && counts.ring == 0;
}

/* An address for a thread, within a mask. Where there is none the thread is the next to get one: the others begin
 * nothing until it has, and give back what they don't use. The log has an address behind its being given. */
static iova_mapping take_address(struct worker *worker, uint64_t bytes, uint64_t mask) {
    struct driver *driver = worker->driver;
    struct worker *first = __atomic_load_n(&driver->waiting, __ATOMIC_RELAXED), *nobody = NULL;
    iova_mapping given = {.refused = IOVA_NO_SPACE};
    if (first && first != worker) {
        make_room(worker);
        return given;
    }
    int never = first && is_all_back(driver);
    given = iova_shared_map(&worker->cache, bytes, mask);
    if (given.refused == IOVA_NO_SPACE && never)
        given.refused = IOVA_TOO_BIG;
    else if (given.refused == IOVA_NO_SPACE)
        worker->waits += __atomic_compare_exchange_n(&driver->waiting, &nobody, worker, 0, __ATOMIC_RELAXED,
                                                     __ATOMIC_RELAXED);
    else if (first)
        __atomic_store_n(&driver->waiting, NULL, __ATOMIC_RELAXED);
    if (!given.refused) {
        note(driver, "map", given.address, bytes);
        worker->mapped++;
    }
    return given;
}

/* Gives addresses back at which nothing is mapped any more: the log has that by now. A flush lets them go; where it
 * isn't made here, the cache makes one where 255 wait. */
static uint64_t give_back(struct worker *worker, struct io **ios, int count) {
    struct driver *driver = worker->driver;
    uint64_t refused = 0;
    for (int at = 0; at < count && !refused; at++) {
        refused = iova_shared_unmap_bytes(&worker->cache, ios[at]->address).refused;
        worker->unmapped += !refused;
    }
    return refused || driver->mode != STRICT ? refused : iova_shared_flush(&driver->shared);
}

/* Maps memory for the device: 1, or 0 where there is no room now, or -1. */
static int map(struct worker *worker, uint8_t *memory, uint64_t bytes, uint64_t mask, struct io *io) {
    iova_mapping given = take_address(worker, bytes, mask);
    if (given.refused)
        return given.refused == IOVA_NO_SPACE ? 0 : -fails("an address", given.refused);
    io->memory = memory;
    io->address = given.address;
    io->room = given.bytes;
    io->bytes = bytes;
    return device_map(&worker->driver->device, memory, given.address, bytes) ? -fails("map", 0) : 1;
}

static int by_address(const void *one, const void *other) {
    uint64_t a = (*(struct io *const *)one)->address, b = (*(struct io *const *)other)->address;
    return (a > b) - (a < b);
}

/* One call for ranges that lie beside each other. It unmaps whatever is mapped there: between two mappings there is
 * nothing but the frames by which libiova rounded the first one up. */
static int unmap_all(struct worker *worker, struct io **ios, int count) {
    struct driver *driver = worker->driver;
    qsort(ios, (size_t)count, sizeof *ios, by_address);
    for (int at = 0, next; at < count; at = next) {
        struct vfio_iommu_type1_dma_unmap unmap = {.argsz = sizeof unmap, .iova = ios[at]->address};
        uint64_t bytes = 0;
        for (next = at; next < count && ios[next]->address == unmap.iova + unmap.size; next++) {
            unmap.size += ios[next]->room;
            bytes += ios[next]->bytes;
        }
        if (ioctl(driver->device.container, VFIO_IOMMU_UNMAP_DMA, &unmap) || unmap.size != bytes)
            return fails("unmap", 0);
        worker->calls++;
    }
    for (int at = 0; at < count; at++)
        note(driver, "unmap", ios[at]->address, ios[at]->bytes);
    return 0;
}

static int give_up_all(struct worker *worker, struct io **ios, int count) {
    uint64_t refused = give_back(worker, ios, count);
    return refused ? fails("give up", refused) : 0;
}

/* Unmapped first, then given up: the other way round an address comes back while the device still reaches it. */
static int take_back(struct worker *worker, struct io **ios, int count) {
    return unmap_all(worker, ios, count) || give_up_all(worker, ios, count);
}

/* The I/Os. */

/* Begins the next I/O: 1, or 0 where none can begin now, or -1. */
static int begin(struct worker *worker) {
    struct driver *driver = worker->driver;
    struct load *load = &worker->load;
    int slot = load_next(load, (int)driver->depth);
    if (slot < 0)
        return 0;
    load->wish.address = driver->pool_at.address + (uint64_t)(load->wish.memory - driver->pool);
    if (driver->mode != STATIC) {
        int mapped = map(worker, load->wish.memory, load->wish.bytes, driver->mask, &load->wish);
        if (mapped <= 0)
            return mapped;
    }
    load_begin(load, slot);
    struct nvme_command command = load_command(load, &driver->nvme, slot, worker->lists, worker->lists_address);
    nvme_push(&worker->queue, &command);
    return 1;
}

/* Takes back what has ended: one by one, or together. */
static int retire(struct worker *worker) {
    struct driver *driver = worker->driver;
    int step = driver->mode == STRICT ? 1 : GATHERED;
    for (int at = 0; at < worker->count; at++)
        note(driver, "use", worker->gathered[at]->address, worker->gathered[at]->bytes);
    for (int at = 0; at < worker->count && driver->mode != STATIC; at += step)
        if (take_back(worker, worker->gathered + at, worker->count - at < step ? worker->count - at : step))
            return 1;
    for (int at = 0; at < worker->count; at++)
        load_retire(&worker->load, worker->gathered[at]);
    worker->count = 0;
    return 0;
}

/* One turn: begin what can be begun, one doorbell for all; take what has ended, one doorbell too. How many that were
 * together, or -1. Where nothing moves, or somebody waits for room, what was gathered is taken back. */
static int turn(struct worker *worker) {
    struct nvme_completion taken;
    int begun = 0, ended = 0, more = 1;
    while (more > 0 && begun < (int)worker->driver->depth) {
        more = begin(worker);
        begun += more > 0;
    }
    if (more < 0)
        return -1;
    if (begun)
        nvme_ring(&worker->queue);
    while (nvme_take(&worker->queue, &taken)) {
        struct io *io = load_end(&worker->load, &taken);
        if (!io)
            return -1;
        worker->gathered[worker->count++] = io;
        ended++;
    }
    if (ended)
        nvme_taken(&worker->queue);
    int due = worker->driver->mode != LAZY || worker->count >= GATHERED || begun + ended == 0;
    due |= __atomic_load_n(&worker->driver->waiting, __ATOMIC_RELAXED) != NULL;
    if (worker->count && due && retire(worker))
        return -1;
    return begun + ended;
}

static void *work(void *given) {
    struct worker *worker = given;
    struct driver *driver = worker->driver;
    uint64_t end = nvme_milliseconds() + NVME_PATIENCE;
    while (load_has_more(&worker->load) && !worker->failed && !__atomic_load_n(&driver->failed, __ATOMIC_RELAXED)) {
        int moved = turn(worker);
        if (moved > 0) {
            end = nvme_milliseconds() + NVME_PATIENCE;
            continue;
        }
        worker->failed = moved < 0;
        if (moved == 0 && nvme_milliseconds() > end)
            worker->failed = nvme_fails("it answers nothing", nvme_get(&driver->nvme, NVME_CSTS));
        sched_yield();
    }
    if (worker->failed)
        __atomic_store_n(&driver->failed, 1, __ATOMIC_RELAXED);
    make_room(worker);
    return NULL;
}

/* The device beside it. */

/* One copy, from a page to the page behind it. Both have an address within 32 bits, wherever the disk's are. */
static int copy(struct worker *worker, uint8_t *memory) {
    struct io at, *all[] = {&at};
    int mapped = map(worker, memory, 2 * FRAME, UINT32_MAX, &at);
    if (mapped <= 0)
        return mapped;
    for (int byte = 0; byte < PIECE; byte++)
        memory[byte] = (uint8_t)(worker->driver->copies + (uint64_t)byte * 7);
    edu_transfer(&worker->driver->beside, at.address, PIECE, 0);
    edu_transfer(&worker->driver->beside, at.address + FRAME, PIECE, 1);
    note(worker->driver, "use", at.address, at.bytes);
    worker->load.wrong += memcmp(memory, memory + FRAME, PIECE) != 0;
    worker->driver->copies++;
    return take_back(worker, all, 1) ? -1 : 1;
}

static void *work_beside(void *given) {
    struct worker *worker = given;
    uint8_t *memory = aligned_alloc(FRAME, 2 * FRAME);
    worker->failed = !memory;
    while (!worker->failed) {
        worker->failed = copy(worker, memory) < 0;
        if (__atomic_load_n(&worker->driver->ended, __ATOMIC_RELAXED))
            break;
        sched_yield();
    }
    free(memory);
    if (worker->failed)
        __atomic_store_n(&worker->driver->failed, 1, __ATOMIC_RELAXED);
    return NULL;
}

/* All together. */

/* Maps memory that stays mapped. */
static int map_fixed(struct driver *driver, uint8_t *memory, uint64_t bytes, struct io *io) {
    int mapped = map(&driver->workers[driver->threads], memory, bytes, driver->mask, io);
    return mapped == 0 ? fails("the driver's own memory", IOVA_NO_SPACE) : mapped < 0;
}

/* The data's memory lies on large pages where the kernel has some, so that there is less to map. */
static int make_memory(struct driver *driver) {
    uint64_t queue = nvme_queue_bytes(DEPTH + 1) + LISTS;
    uint64_t rings = nvme_queue_bytes(NVME_ADMIN_ENTRIES) + NVME_PAGE + driver->threads * queue;
    uint64_t pool = driver->threads * POOL, bytes = pool + rings + HUGE_PAGE;
    uint8_t *memory = mmap(NULL, bytes, PROT_READ | PROT_WRITE, MAP_PRIVATE | MAP_ANONYMOUS, -1, 0);
    if (memory == MAP_FAILED)
        return fails("memory", 0);
    driver->pool = memory + (HUGE_PAGE - (uintptr_t)memory % HUGE_PAGE) % HUGE_PAGE;
    driver->rings = driver->pool + pool;
    madvise(driver->pool, pool, MADV_HUGEPAGE);
    memset(driver->pool, 0, pool);
    return map_fixed(driver, driver->rings, rings, &driver->rings_at) ||
           (driver->mode == STATIC && map_fixed(driver, driver->pool, pool, &driver->pool_at));
}

static int make_worker(struct driver *driver, uint64_t number, uint64_t ios) {
    struct worker *worker = &driver->workers[number];
    struct load *load = &worker->load;
    uint64_t rings = nvme_queue_bytes(DEPTH + 1), all = driver->nvme.blocks / (BLOCK / driver->nvme.block);
    uint64_t at = nvme_queue_bytes(NVME_ADMIN_ENTRIES) + NVME_PAGE + number * (rings + LISTS);
    load_make(load, number, driver->pool + number * POOL);
    load->left = ios * (number + 1) / driver->threads - ios * number / driver->threads;
    load->blocks = all / driver->threads;
    load->first = number * load->blocks;
    load->most = driver->most;
    load->generations = driver->generations;
    load->busy = driver->busy;
    worker->lists = driver->rings + at + rings;
    worker->lists_address = driver->rings_at.address + at + rings;
    uint16_t id = (uint16_t)(number + 1), entries = (uint16_t)(driver->depth + 1);
    worker->queue = nvme_queue_over(&driver->nvme, id, entries, driver->rings + at);
    return nvme_create(&driver->nvme, &worker->queue, driver->rings_at.address + at);
}

static int start(struct driver *driver, uint64_t ios) {
    struct nvme *nvme = &driver->nvme;
    if (nvme_start(nvme, driver->device.registers, driver->rings, driver->rings_at.address) ||
        nvme_ask_queues(nvme, (uint32_t)driver->threads))
        return 1;
    driver->fixed = iova_counts_of(driver->domain).client;
    driver->most = nvme->most < LARGE ? nvme->most : LARGE;
    if (nvme->entries < driver->depth + 1)
        driver->depth = nvme->entries - 1;
    uint64_t blocks = nvme->block > BLOCK ? 0 : nvme->blocks / (BLOCK / nvme->block);
    if (blocks < driver->threads * (LARGE / BLOCK) || blocks > UINT32_MAX)
        return fails("the disk", IOVA_TOO_BIG);
    driver->generations = calloc(blocks, sizeof *driver->generations);
    driver->busy = calloc(blocks, 1);
    int failed = driver->generations && driver->busy ? 0 : fails("memory", IOVA_NO_MEMORY);
    for (uint64_t number = 0; number < driver->threads && !failed; number++)
        failed = make_worker(driver, number, ios);
    return failed;
}

static int run(struct driver *driver) {
    uint64_t started = 0, begin = nvme_milliseconds();
    struct worker *workers = driver->workers, *beside = &workers[driver->threads];
    while (started < driver->threads && !pthread_create(&workers[started].thread, NULL, work, &workers[started]))
        started++;
    int more = driver->beside.registers && !pthread_create(&beside->thread, NULL, work_beside, beside);
    if (started < driver->threads || (driver->beside.registers && !more))
        __atomic_store_n(&driver->failed, fails("a thread", IOVA_NO_MEMORY), __ATOMIC_RELAXED);
    for (uint64_t number = 0; number < started; number++)
        pthread_join(workers[number].thread, NULL);
    driver->milliseconds = nvme_milliseconds() - begin;
    __atomic_store_n(&driver->ended, 1, __ATOMIC_RELAXED);
    if (more)
        pthread_join(beside->thread, NULL);
    return driver->failed;
}

/* The controller is disabled before anything is unmapped: it forgets its queues, and commands that are in flight. */
static int stop(struct driver *driver) {
    struct io *all[] = {&driver->rings_at, &driver->pool_at};
    struct worker *own = &driver->workers[driver->threads];
    return nvme_enable(&driver->nvme, 0) || take_back(own, all, driver->mode == STATIC ? 2 : 1);
}

static int leave_generations(struct driver *driver, const char *path) {
    FILE *file = fopen(path, "w");
    size_t blocks = driver->nvme.blocks / (BLOCK / driver->nvme.block);
    return !file || fwrite(driver->generations, 4, blocks, file) != blocks || fclose(file) ? fails(path, 0) : 0;
}

static void print_counts(struct driver *driver) {
    uint64_t reads = 0, writes = 0, bytes = 0, wrong = 0, mapped = 0, unmapped = 0, calls = 0, waits = 0;
    for (struct worker *worker = driver->workers; worker <= driver->workers + driver->threads; worker++) {
        reads += worker->load.reads;
        writes += worker->load.writes;
        bytes += worker->load.bytes;
        wrong += worker->load.wrong;
        mapped += worker->mapped;
        unmapped += worker->unmapped;
        calls += worker->calls;
        waits += worker->waits;
    }
    printf("reads %" PRIu64 " writes %" PRIu64 " KiB %" PRIu64 " mapped %" PRIu64 " unmapped %" PRIu64 " calls %" PRIu64
           " flushes %" PRIu64 " waits %" PRIu64 " copies %" PRIu64 " wrong %" PRIu64 " milliseconds %" PRIu64 "\n",
           reads, writes, bytes >> 10, mapped, unmapped, calls, driver->flushes, waits, driver->copies, wrong,
           driver->milliseconds);
    driver->failed |= wrong != 0;
}

struct words {
    const char *beside, *generations, *log;
};

static int read_words(struct driver *driver, struct words *said, int argc, char **words) {
    static const struct option options[] = {
        {"lazy", 0, NULL, LAZY},  {"strict", 0, NULL, STRICT}, {"static", 0, NULL, STATIC}, {"threads", 1, NULL, 't'},
        {"depth", 1, NULL, 'd'},  {"mask", 1, NULL, 'm'},      {"window", 1, NULL, 'w'},    {"log", 1, NULL, 'l'},
        {"beside", 1, NULL, 'b'}, {"generations", 1, NULL, 'g'}, {NULL, 0, NULL, 0}};
    char *rest;
    for (int option; (option = getopt_long(argc, words, "", options, NULL)) != -1;) {
        uint64_t number = option > STATIC && option != '?' ? strtoull(optarg, &rest, 0) : 0;
        switch (option) {
        case 't': driver->threads = number; break;
        case 'd': driver->depth = number; break;
        case 'm': driver->mask = number; break;
        case 'w':
            driver->window[0] = number;
            driver->window[1] = *rest == '-' ? strtoull(rest + 1, NULL, 0) : 0;
            break;
        case 'b': said->beside = optarg; break;
        case 'g': said->generations = optarg; break;
        case 'l': said->log = optarg; break;
        case '?': return 1;
        default: driver->mode = (enum mode)option;
        }
    }
    int good = driver->threads - 1 < THREADS && driver->depth - 1 < DEPTH && driver->mask >= 2 * FRAME;
    return !good || argc - optind != 2 || driver->window[0] > driver->window[1];
}

int main(int argc, char **words) {
    static struct driver driver = {
        .threads = THREADS, .depth = DEPTH, .mask = UINT64_MAX, .beside = {.container = -1, .group = -1, .fd = -1}};
    struct words said = {NULL, NULL, NULL};
    if (read_words(&driver, &said, argc, words)) {
        fprintf(stderr, "usage: driver [--lazy | --strict | --static] [--threads 1-4] [--depth 1-256] [--mask M]\n"
                        "              [--window FIRST-LAST] [--beside EDU] [--log FILE] [--generations FILE]\n"
                        "              ADDRESS IOS\n");
        return 2;
    }
    for (uint64_t number = 0; number <= driver.threads; number++)
        driver.workers[number].driver = &driver;
    if (said.log && !(driver.log = fopen(said.log, "w")))
        return fails(said.log, 0);
    int failed = device_open(&driver.device, words[optind]) ||
                 (said.beside && device_open_beside(&driver.beside, &driver.device, said.beside)) ||
                 make_domain(&driver) || make_memory(&driver) ||
                 start(&driver, strtoull(words[optind + 1], NULL, 0)) || run(&driver);
    if (said.generations && !failed)
        failed = leave_generations(&driver, said.generations);
    failed |= driver.nvme.registers && stop(&driver);
    device_close(&driver.beside);
    device_close(&driver.device);
    end_domain(&driver);
    print_counts(&driver);
    failed |= driver.failed;
    free(driver.generations);
    free(driver.busy);
    if (driver.log && fclose(driver.log))
        failed = fails("the log", 0);
    return failed;
}
