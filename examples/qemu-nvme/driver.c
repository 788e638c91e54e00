/* A disk's driver without a machine. The NVMe controller is QEMU's, in a process that has a device and no processor
 * (`-machine x-remote`). This needs no root, no KVM, no VFIO and no IOMMU: QEMU's table of ranges is the IOMMU.
 *
 *     driver QEMU BLOCKS DEPTH IOS LOG
 *
 * `run` starts QEMU and the driver. QEMU is the number of a socket to it, and BLOCKS are the disk's, of 4 KiB. Up to
 * DEPTH commands are in flight, 1 to 6. ios.h of examples/nvme chooses IOS reads and writes, checks the bytes of each
 * read, and reads the whole disk at the end. `iovad check` reads LOG.
 *
 * The driver and QEMU share memory. Accesses to registers are messages with a reply. One message has all ranges that
 * are mapped: up to seven, each with an address, a length, a descriptor and an offset. This message replaces the ranges
 * before it, and has no reply. QEMU takes messages in order. So the reply to the next message says that QEMU reaches
 * nothing that is no longer in the table: the flush has ended. No command may be in flight during this message, since
 * QEMU drops each range and maps it again.
 *
 * So a turn is: wait for all commands, unmap their ranges, give the addresses back, take addresses for the next
 * commands, flush, and ring the doorbell. The flush also maps the new ranges.
 */
#define _GNU_SOURCE
#include "../nvme/ios.h"

#include <inttypes.h>
#include <iova_shared.h>
#include <sys/mman.h>
#include <sys/socket.h>
#include <unistd.h>

enum {
    FRAME = 4096,
    LAST = (1 << 18) - 1, /* the last frame of the domain, which has 1 GiB */
    PLACES = 7,           /* ranges of a table. One has the queues and the PRP lists, and never changes */
    ENTRIES = 8,          /* of each queue */
};

static const uint64_t registers_at = UINT64_C(1) << 40; /* above all addresses of the domain */

/* The messages, as include/hw/remote/mpqemu-link.h of QEMU has them. */
enum kind { SYNC_SYSMEM, RET, CONFIG_WRITE, CONFIG_READ, BAR_WRITE, BAR_READ };

struct message {
    enum kind kind;
    uint64_t size; /* bytes of the part of `data` that is sent */
    union {
        uint64_t value;
        struct { uint32_t address, value; int bytes; } config;
        struct { uint64_t addresses[8], sizes[8]; int64_t offsets[8]; } table;
        struct { uint64_t address, value; unsigned bytes; uint8_t is_memory; } bar;
    } data;
};
enum { HEADER = offsetof(struct message, data) };

struct range { uint64_t address, bytes, offset; }; /* a place of the table, which is free if it has no bytes */

struct driver {
    int qemu, memory_fd; /* the socket, and the memory that QEMU shares */
    uint8_t *memory;     /* queues, PRP lists, and the load's pool */
    struct range table[PLACES];
    iova_domain *domain;
    iova_shared shared;
    iova_shared_cache cache;
    struct nvme_queue admin, queue;
    struct load load;
    struct io *ended[PLACES]; /* commands of the last turn */
    int ended_count, depth;
    uint64_t again, flushes; /* addresses that were mapped before */
    uint32_t known[LAST + 1];
    FILE *log;
};

static int fails(const char *what, uint64_t refused) {
    fprintf(stderr, "driver: %s: %s\n", what, refused ? iova_refusal_name(refused) : strerror(errno));
    return 1;
}

static void note(struct driver *driver, const char *what, uint64_t address, uint64_t bytes) {
    fprintf(driver->log, "%s %" PRIu64 " %" PRIu64 "\n", what, address / FRAME, bytes / FRAME);
}

/* QEMU. */

static int send_message(struct driver *driver, struct message *message, int count) {
    union { struct cmsghdr header; char room[CMSG_SPACE(PLACES * sizeof(int))]; } control = {0};
    struct iovec piece = {message, HEADER};
    struct msghdr head = {.msg_iov = &piece, .msg_iovlen = 1};
    if (count > 0) {
        head.msg_control = &control;
        head.msg_controllen = CMSG_SPACE((size_t)count * sizeof(int));
        control.header = (struct cmsghdr){CMSG_LEN((size_t)count * sizeof(int)), SOL_SOCKET, SCM_RIGHTS};
        for (int at = 0; at < count; at++)
            memcpy(CMSG_DATA(&control.header) + (size_t)at * sizeof(int), &driver->memory_fd, sizeof(int));
    }
    return sendmsg(driver->qemu, &head, MSG_NOSIGNAL) != HEADER ||
           send(driver->qemu, &message->data, message->size, MSG_NOSIGNAL) != (ssize_t)message->size;
}

/* Sends a message, and waits for its reply. A QEMU that has ended gives UINT64_MAX, as an absent device does. */
static uint64_t ask(struct driver *driver, struct message message) {
    struct message reply;
    if (send_message(driver, &message, 0) || recv(driver->qemu, &reply, HEADER, MSG_WAITALL) != HEADER ||
        reply.kind != RET || recv(driver->qemu, &reply.data, 8, MSG_WAITALL) != 8)
        return UINT64_MAX;
    return reply.data.value;
}

static uint64_t access_config(struct driver *driver, enum kind kind, uint32_t address, uint32_t value, int bytes) {
    struct message message = {.kind = kind, .size = sizeof message.data.config, .data.config = {address, value, bytes}};
    return ask(driver, message);
}

static uint64_t access_register(struct driver *driver, enum kind kind, uint64_t at, uint64_t value, unsigned bytes) {
    struct message message = {.kind = kind, .size = sizeof message.data.bar};
    message.data.bar.address = registers_at + at, message.data.bar.value = value;
    message.data.bar.bytes = bytes, message.data.bar.is_memory = 1;
    return ask(driver, message);
}

/* Sends the table, and waits until QEMU uses it: 1, or 0 if QEMU has ended. */
static int tell(struct driver *driver) {
    struct message message = {.kind = SYNC_SYSMEM, .size = sizeof message.data.table};
    int count = 0;
    for (const struct range *range = driver->table; range < driver->table + PLACES; range++) {
        message.data.table.addresses[count] = range->address;
        message.data.table.sizes[count] = range->bytes;
        message.data.table.offsets[count] = (int64_t)range->offset;
        count += range->bytes > 0;
    }
    return !send_message(driver, &message, count) && access_config(driver, CONFIG_READ, 0, 0, 4) != UINT64_MAX;
}

/* Addresses. */

/* The flush, between its begin and its end; iova_shared.h calls this function. */
static int invalidate(void *with) {
    struct driver *driver = with;
    driver->flushes++;
    fprintf(driver->log, "begin %" PRIu64 "\n", driver->flushes);
    int is_done = tell(driver);
    fprintf(driver->log, "end %" PRIu64 " %s\n", driver->flushes, is_done ? "ok" : "fail");
    return is_done;
}

static int flush(struct driver *driver) {
    uint64_t refused = iova_shared_flush(&driver->shared);
    return refused ? fails("a flush", refused) : 0;
}

/* Puts memory into the table at an address of its own. QEMU reaches it from the next flush on. 0 is no address. */
static uint64_t map(struct driver *driver, const uint8_t *memory, uint64_t bytes) {
    struct range *range = driver->table;
    iova_mapping given = iova_shared_map(&driver->cache, bytes, UINT32_MAX);
    if (given.refused && fails("an address", given.refused))
        return 0;
    while (range->bytes > 0)
        range++;
    *range = (struct range){given.address, bytes, (uint64_t)(memory - driver->memory)};
    driver->again += driver->known[given.address / FRAME]++ > 0;
    note(driver, "map", given.address, bytes);
    return given.address;
}

/* Takes what has ended out of the table, and its memory is free. The last command is first, so that memory seldom has
 * the same address again. */
static int unmap_ended(struct driver *driver) {
    for (int at = driver->ended_count; at-- > 0;) {
        struct io *io = driver->ended[at];
        for (struct range *range = driver->table; range < driver->table + PLACES; range++)
            if (range->bytes > 0 && range->offset == (uint64_t)(io->memory - driver->memory))
                range->bytes = 0;
        note(driver, "unmap", io->address, io->bytes);
        load_retire(&driver->load, io);
    }
    return 0;
}

/* The addresses wait in the cache's ring for a flush. */
static int give_back_ended(struct driver *driver) {
    uint64_t refused = 0;
    for (int at = 0; at < driver->ended_count && !refused; at++)
        refused = iova_shared_unmap_bytes(&driver->cache, driver->ended[at]->address).refused;
    return refused ? fails("give back", refused) : 0;
}

/* The disk. */

static void ring(struct driver *driver, struct nvme_queue *queue) {
    access_register(driver, BAR_WRITE, NVME_DOORBELLS + 8u * queue->number, queue->tail, 4);
}

/* Waits for the next completion. */
static int await(struct driver *driver, struct nvme_queue *queue, struct nvme_completion *taken) {
    uint64_t end = nvme_milliseconds() + NVME_PATIENCE;
    while (!nvme_take(queue, taken)) {
        if (recv(driver->qemu, taken, 1, MSG_PEEK | MSG_DONTWAIT) == 0 || nvme_milliseconds() > end)
            return fails("no completion comes", 0);
        sched_yield();
    }
    access_register(driver, BAR_WRITE, NVME_DOORBELLS + 4 + 8u * queue->number, queue->head, 4);
    return 0;
}

static int await_all(struct driver *driver) {
    struct nvme_completion taken;
    driver->ended_count = 0;
    while (driver->load.in_flight > 0) {
        struct io *io = await(driver, &driver->queue, &taken) ? NULL : load_end(&driver->load, &taken);
        if (!io)
            return 1;
        note(driver, "use", io->address, io->bytes);
        driver->ended[driver->ended_count++] = io;
    }
    return 0;
}

/* Chooses and maps the next commands, and writes them into the queue. */
static int begin_next(struct driver *driver) {
    static const struct nvme nvme = {.block = SECTOR};
    const uint64_t lists = nvme_queue_bytes(NVME_ADMIN_ENTRIES) + nvme_queue_bytes(ENTRIES);
    struct load *load = &driver->load;
    struct nvme_command command;
    for (int slot, begun = 0; begun < driver->depth && (slot = load_next(load, PLACES - 1)) >= 0; begun++) {
        load->wish.address = map(driver, load->wish.memory, load->wish.bytes);
        if (!load->wish.address)
            return 1;
        load_begin(load, slot);
        command = load_command(load, &nvme, slot, driver->memory + lists, driver->table[0].address + lists);
        nvme_push(&driver->queue, &command);
    }
    return 0;
}

static int turn(struct driver *driver) {
    if (await_all(driver) || unmap_ended(driver) || give_back_ended(driver) || begin_next(driver) || flush(driver))
        return 1;
    ring(driver, &driver->queue);
    return 0;
}

static int administrate(struct driver *driver, uint8_t opcode, uint64_t address, uint32_t cdw11) {
    struct nvme_command command = {.opcode = opcode, .prp1 = address, .cdw10 = (ENTRIES - 1) << 16 | 1, .cdw11 = cdw11};
    struct nvme_completion taken;
    nvme_push(&driver->admin, &command);
    ring(driver, &driver->admin);
    return await(driver, &driver->admin, &taken) || (taken.status >> 1 && nvme_fails("a queue", taken.status >> 1));
}

/* Makes the memory and the domain, and starts the controller with one queue pair. */
static int start(struct driver *driver, uint64_t blocks) {
    uint64_t admin = nvme_queue_bytes(NVME_ADMIN_ENTRIES), fixed = admin + nvme_queue_bytes(ENTRIES) + LISTS, refused;
    driver->memory_fd = memfd_create("memory", 0);
    driver->memory = mmap(NULL, fixed + POOL, PROT_READ | PROT_WRITE, MAP_SHARED, driver->memory_fd, 0);
    driver->domain = iova_domain_new();
    driver->load.generations = calloc(blocks, sizeof *driver->load.generations);
    driver->load.busy = calloc(blocks, 1);
    if (driver->memory == MAP_FAILED || ftruncate(driver->memory_fd, (off_t)(fixed + POOL)) || !driver->domain ||
        !driver->load.generations || !driver->load.busy)
        return fails("memory", IOVA_NO_MEMORY);
    if ((refused = iova_domain_make(driver->domain, 1, LAST, 1)) ||
        (refused = iova_shared_init(&driver->shared, driver->domain, invalidate, driver)) ||
        (refused = iova_shared_open(&driver->cache, &driver->shared, 0, 0)))
        return fails("the domain", refused);
    load_make(&driver->load, 0, driver->memory + fixed);
    driver->load.blocks = blocks, driver->load.most = 16 * FRAME;
    driver->admin = nvme_rings_over(0, NVME_ADMIN_ENTRIES, driver->memory);
    driver->queue = nvme_rings_over(1, ENTRIES, driver->memory + admin);
    fprintf(driver->log, "iovalog 1 1 %d\n", LAST);
    uint64_t at = map(driver, driver->memory, fixed), end = nvme_milliseconds() + NVME_PATIENCE;
    if (!at || flush(driver))
        return 1;
    access_config(driver, CONFIG_WRITE, 0x10, (uint32_t)registers_at, 4); /* BAR 0, and its upper half */
    access_config(driver, CONFIG_WRITE, 0x14, (uint32_t)(registers_at >> 32), 4);
    access_config(driver, CONFIG_WRITE, 4, 6, 2); /* memory and bus master */
    access_register(driver, BAR_WRITE, NVME_AQA, (NVME_ADMIN_ENTRIES - 1) << 16 | (NVME_ADMIN_ENTRIES - 1), 4);
    access_register(driver, BAR_WRITE, NVME_ASQ, at, 8);
    access_register(driver, BAR_WRITE, NVME_ACQ, at + nvme_ring_bytes(NVME_ADMIN_ENTRIES, 64), 8);
    access_register(driver, BAR_WRITE, NVME_CC, NVME_CC_SIZES | NVME_CC_EN, 4);
    while (!(access_register(driver, BAR_READ, NVME_CSTS, 0, 4) & NVME_CSTS_RDY))
        if (nvme_milliseconds() > end)
            return fails("the controller isn't ready", 0);
    return administrate(driver, NVME_CREATE_CQ, at + admin + nvme_ring_bytes(ENTRIES, 64), 1) ||
           administrate(driver, NVME_CREATE_SQ, at + admin, 1 << 16 | 1);
}

int main(int argc, char **words) {
    static struct driver driver;
    uint64_t begin = nvme_milliseconds();
    if (argc != 6 || (driver.depth = atoi(words[3])) < 1 || driver.depth > PLACES - 1) {
        fprintf(stderr, "usage: driver QEMU BLOCKS DEPTH IOS LOG\n");
        return 2;
    }
    driver.qemu = atoi(words[1]), driver.load.left = strtoull(words[4], NULL, 0);
    driver.log = fopen(words[5], "w");
    int failed = driver.log ? start(&driver, strtoull(words[2], NULL, 0)) : fails(words[5], 0);
    while (!failed && load_has_more(&driver.load))
        failed = turn(&driver);
    printf("reads %" PRIu64 " writes %" PRIu64 " again %" PRIu64 " flushes %" PRIu64 " wrong %" PRIu64 " milliseconds %" PRIu64
           "\n", driver.load.reads, driver.load.writes, driver.again, driver.flushes, driver.load.wrong,
           nvme_milliseconds() - begin);
    failed |= driver.load.wrong != 0;
    return driver.log && fclose(driver.log) ? fails(words[5], 0) : failed;
}
