/* nvme.h: an NVMe controller's registers, commands and queues, named as in the NVM Express Base Specification 1.4, and
 * the few steps that a driver makes with them. driver.c, broker.c and client.c are made of it.
 *
 * A queue pair is two rings in memory. The driver writes commands of 64 bytes into the submission queue and tells the
 * controller by a doorbell how far it came; the controller writes completions of 16 bytes into the completion queue,
 * with a bit, the phase, that changes at each turn round the ring. All addresses in a command are those that the IOMMU
 * translates. Queue 0 is for administration.
 */
#ifndef NVME_H
#define NVME_H

#include <errno.h>
#include <sched.h>
#include <stdint.h>
#include <stdio.h>
#include <string.h>
#include <time.h>

enum { NVME_PAGE = 4096, NVME_ADMIN_ENTRIES = 16, NVME_LIST_BYTES = 2048, NVME_PATIENCE = 300000 /* milliseconds */ };

enum nvme_register {
    NVME_CAP = 0x00,  /* capabilities, 64 bits: MQES, TO, DSTRD, MPSMIN */
    NVME_CC = 0x14,   /* controller configuration */
    NVME_CSTS = 0x1c, /* controller status */
    NVME_AQA = 0x24,  /* entries of the admin queues, less one each */
    NVME_ASQ = 0x28,  /* address of the admin submission queue, 64 bits */
    NVME_ACQ = 0x30,  /* address of the admin completion queue, 64 bits */
    NVME_DOORBELLS = 0x1000,
};

enum {
    NVME_CC_EN = 1,
    NVME_CC_SIZES = 4 << 20 | 6 << 16, /* IOCQES and IOSQES: entries of 2^4 and 2^6 bytes. Pages have 4 KiB (MPS 0) */
    NVME_CSTS_RDY = 1,
    NVME_CSTS_CFS = 2, /* a fatal fault of the controller */
};

enum nvme_admin_opcode {
    NVME_DELETE_SQ = 0x00,
    NVME_CREATE_SQ = 0x01,
    NVME_DELETE_CQ = 0x04,
    NVME_CREATE_CQ = 0x05,
    NVME_IDENTIFY = 0x06,
    NVME_SET_FEATURES = 0x09,
};

enum nvme_opcode { NVME_WRITE = 0x01, NVME_READ = 0x02 };

struct nvme_command {
    uint8_t opcode, flags;
    uint16_t cid; /* the command's number: its completion has it */
    uint32_t nsid, cdw2, cdw3;
    uint64_t mptr, prp1, prp2;
    uint32_t cdw10, cdw11, cdw12, cdw13, cdw14, cdw15;
};

struct nvme_completion {
    uint32_t dw0, dw1;
    uint16_t sqhd, sqid, cid, status; /* of the status bit 0 is the phase */
};

_Static_assert(sizeof(struct nvme_command) == 64 && sizeof(struct nvme_completion) == 16, "as it is specified");

struct nvme_queue {
    uint16_t number, entries, tail, head, phase; /* at most entries - 1 commands may be in it */
    struct nvme_command *commands;
    struct nvme_completion *completions;
    volatile uint32_t *sq_doorbell, *cq_doorbell;
};

struct nvme {
    volatile uint8_t *registers;
    uint32_t entries;      /* MQES: the most entries of a queue */
    uint32_t stride;       /* DSTRD: bytes from a doorbell to the next */
    uint64_t most;         /* MDTS: the most bytes of one command */
    uint64_t block, blocks; /* of namespace 1: the bytes of a logical block, and how many there are */
    struct nvme_queue admin;
    void *page;            /* 4 KiB that the controller may write into, and where it reaches them */
    uint64_t page_address;
};

static inline int nvme_fails(const char *what, unsigned status) {
    fprintf(stderr, "nvme: %s: status 0x%x\n", what, status);
    return 1;
}

/* What was written into memory before a register is written is there for the controller, and what it wrote before a
 * register said so is there for the driver. Registers of 64 bits are written as two of 32, as all controllers take. */
static inline uint32_t nvme_get(struct nvme *nvme, int at) {
    return __atomic_load_n((volatile uint32_t *)(nvme->registers + at), __ATOMIC_ACQUIRE);
}

static inline void nvme_set(struct nvme *nvme, int at, uint64_t value, int bytes) {
    __atomic_store_n((volatile uint32_t *)(nvme->registers + at), (uint32_t)value, __ATOMIC_RELEASE);
    if (bytes == 8)
        nvme_set(nvme, at + 4, value >> 32, 4);
}

static inline uint64_t nvme_milliseconds(void) {
    struct timespec now;
    clock_gettime(CLOCK_MONOTONIC, &now);
    return (uint64_t)now.tv_sec * 1000 + (uint64_t)now.tv_nsec / 1000000;
}

/* Queues. */

/* The bytes of a queue pair's memory: the two rings, each on pages of its own. */
static inline uint64_t nvme_ring_bytes(uint64_t entries, uint64_t size) {
    return (entries * size + NVME_PAGE - 1) / NVME_PAGE * NVME_PAGE;
}

static inline uint64_t nvme_queue_bytes(uint64_t entries) {
    uint64_t commands = nvme_ring_bytes(entries, sizeof(struct nvme_command));
    return commands + nvme_ring_bytes(entries, sizeof(struct nvme_completion));
}

/* A queue pair over memory that is all 0, which the phase of completions begins with. It has no doorbells. */
static inline struct nvme_queue nvme_rings_over(uint16_t number, uint16_t entries, uint8_t *memory) {
    uint8_t *completions = memory + nvme_ring_bytes(entries, sizeof(struct nvme_command));
    return (struct nvme_queue){.number = number,
                               .entries = entries,
                               .phase = 1,
                               .commands = (void *)memory,
                               .completions = (void *)completions};
}

/* The same with its doorbells. */
static inline struct nvme_queue nvme_queue_over(struct nvme *nvme, uint16_t number, uint16_t entries, uint8_t *memory) {
    volatile uint8_t *doorbell = nvme->registers + NVME_DOORBELLS + 2 * number * nvme->stride;
    struct nvme_queue queue = nvme_rings_over(number, entries, memory);
    queue.sq_doorbell = (volatile uint32_t *)doorbell;
    queue.cq_doorbell = (volatile uint32_t *)(doorbell + nvme->stride);
    return queue;
}

/* Writes a command into the ring. The controller hears of it at the next nvme_ring. */
static inline void nvme_push(struct nvme_queue *queue, const struct nvme_command *command) {
    queue->commands[queue->tail] = *command;
    queue->tail = (uint16_t)((queue->tail + 1) % queue->entries);
}

/* The doorbell. */
static inline void nvme_ring(struct nvme_queue *queue) {
    __atomic_store_n(queue->sq_doorbell, queue->tail, __ATOMIC_RELEASE);
}

/* Takes the next completion, if there is one: then what the controller wrote into memory is there. */
static inline int nvme_take(struct nvme_queue *queue, struct nvme_completion *taken) {
    struct nvme_completion *next = &queue->completions[queue->head];
    if ((__atomic_load_n(&next->status, __ATOMIC_ACQUIRE) & 1) != queue->phase)
        return 0;
    *taken = *next;
    queue->head = (uint16_t)((queue->head + 1) % queue->entries);
    queue->phase ^= queue->head == 0;
    return 1;
}

/* Tells the controller how far completions were taken, so that it may write there again. */
static inline void nvme_taken(struct nvme_queue *queue) {
    __atomic_store_n(queue->cq_doorbell, queue->head, __ATOMIC_RELEASE);
}

/* Where the data is, page by page: PRP1 is the first page, PRP2 the second, or the address of the list of all but the
 * first. The list has room for 1 MiB, and its address is a multiple of NVME_LIST_BYTES. */
static inline void nvme_set_data(struct nvme_command *command, uint64_t address, uint64_t bytes, uint64_t *list,
                                 uint64_t list_address) {
    uint64_t pages = bytes / NVME_PAGE;
    command->prp1 = address;
    command->prp2 = pages < 2 ? 0 : pages == 2 ? address + NVME_PAGE : list_address;
    for (uint64_t page = 1; pages > 2 && page < pages; page++)
        list[page - 1] = address + page * NVME_PAGE;
}

/* Administration. */

/* Asks one command of the admin queue, and waits for its end. */
static inline int nvme_ask(struct nvme *nvme, const char *what, struct nvme_command command, uint32_t *answer) {
    struct nvme_completion taken;
    uint64_t end = nvme_milliseconds() + NVME_PATIENCE;
    nvme_push(&nvme->admin, &command);
    nvme_ring(&nvme->admin);
    while (!nvme_take(&nvme->admin, &taken)) {
        if (nvme_milliseconds() > end)
            return nvme_fails(what, nvme_get(nvme, NVME_CSTS));
        sched_yield();
    }
    nvme_taken(&nvme->admin);
    if (answer)
        *answer = taken.dw0;
    return taken.status >> 1 ? nvme_fails(what, taken.status >> 1) : 0;
}

/* Enables or disables the controller. One that is disabled has forgotten all queues, and reaches nothing. */
static inline int nvme_enable(struct nvme *nvme, int enable) {
    uint64_t end = nvme_milliseconds() + NVME_PATIENCE;
    nvme_set(nvme, NVME_CC, enable ? NVME_CC_SIZES | NVME_CC_EN : 0, 4);
    for (;;) {
        uint32_t status = nvme_get(nvme, NVME_CSTS);
        if ((status & NVME_CSTS_RDY) == (enable ? NVME_CSTS_RDY : 0))
            return 0;
        if ((enable && status & NVME_CSTS_CFS) || nvme_milliseconds() > end)
            return nvme_fails(enable ? "enable" : "disable", status);
        sched_yield();
    }
}

/* What the controller and its first namespace are. */
static inline int nvme_identify(struct nvme *nvme) {
    struct nvme_command command = {.opcode = NVME_IDENTIFY, .prp1 = nvme->page_address, .cdw10 = 1};
    const uint8_t *page = nvme->page;
    uint32_t format;
    if (nvme_ask(nvme, "identify the controller", command, NULL))
        return 1;
    uint8_t mdts = page[77]; /* 2^MDTS pages, and 0 is no limit */
    nvme->most = mdts && mdts < 20 ? (uint64_t)NVME_PAGE << mdts : UINT32_MAX;
    command.nsid = 1;
    command.cdw10 = 0;
    if (nvme_ask(nvme, "identify the namespace", command, NULL))
        return 1;
    memcpy(&nvme->blocks, page, sizeof nvme->blocks);             /* NSZE */
    memcpy(&format, page + 128 + 4 * (page[26] & 15), sizeof format); /* FLBAS is the format's number */
    nvme->block = (uint64_t)1 << (format >> 16 & 255);            /* LBADS */
    return 0;
}

/* Disables the controller, and enables it with an admin queue. `memory`, nvme_queue_bytes(NVME_ADMIN_ENTRIES) and a
 * page behind them, is all 0, and mapped at `address`. */
static inline int nvme_start(struct nvme *nvme, volatile uint8_t *registers, uint8_t *memory, uint64_t address) {
    uint64_t commands = nvme_ring_bytes(NVME_ADMIN_ENTRIES, sizeof(struct nvme_command));
    uint64_t page = nvme_queue_bytes(NVME_ADMIN_ENTRIES);
    nvme->registers = registers;
    uint64_t cap = (uint64_t)nvme_get(nvme, NVME_CAP + 4) << 32 | nvme_get(nvme, NVME_CAP);
    nvme->entries = (uint32_t)(cap & 0xffff) + 1;
    nvme->stride = 4u << (cap >> 32 & 15);
    if (cap >> 48 & 15) /* MPSMIN */
        return nvme_fails("it has no pages of 4 KiB", 0);
    if (nvme_enable(nvme, 0))
        return 1;
    nvme->admin = nvme_queue_over(nvme, 0, NVME_ADMIN_ENTRIES, memory);
    nvme->page = memory + page;
    nvme->page_address = address + page;
    nvme_set(nvme, NVME_AQA, (NVME_ADMIN_ENTRIES - 1) << 16 | (NVME_ADMIN_ENTRIES - 1), 4);
    nvme_set(nvme, NVME_ASQ, address, 8);
    nvme_set(nvme, NVME_ACQ, address + commands, 8);
    return nvme_enable(nvme, 1) || nvme_identify(nvme);
}

/* Asks for so many I/O queue pairs. */
static inline int nvme_ask_queues(struct nvme *nvme, uint32_t count) {
    struct nvme_command command = {.opcode = NVME_SET_FEATURES, .cdw10 = 7, .cdw11 = (count - 1) << 16 | (count - 1)};
    uint32_t given = 0;
    if (nvme_ask(nvme, "the number of queues", command, &given))
        return 1;
    return (given & 0xffff) + 1 < count || (given >> 16) + 1 < count ? nvme_fails("too few queues", given) : 0;
}

/* Deletes one queue of a pair. */
static inline int nvme_delete_one(struct nvme *nvme, const char *what, enum nvme_admin_opcode opcode, uint16_t number) {
    struct nvme_command command = {.opcode = (uint8_t)opcode, .cdw10 = number};
    return nvme_ask(nvme, what, command, NULL);
}

/* Creates a queue pair over memory that is mapped at `address`; without interrupts. Both queues, or none. */
static inline int nvme_create(struct nvme *nvme, const struct nvme_queue *queue, uint64_t address) {
    uint32_t numbers = (uint32_t)(queue->entries - 1) << 16 | queue->number;
    struct nvme_command command = {.opcode = NVME_CREATE_CQ, .cdw10 = numbers, .cdw11 = 1};
    command.prp1 = address + nvme_ring_bytes(queue->entries, sizeof(struct nvme_command));
    if (nvme_ask(nvme, "create a completion queue", command, NULL))
        return 1;
    command.opcode = NVME_CREATE_SQ;
    command.prp1 = address;
    command.cdw11 = (uint32_t)queue->number << 16 | 1;
    if (!nvme_ask(nvme, "create a submission queue", command, NULL))
        return 0;
    nvme_delete_one(nvme, "delete a completion queue", NVME_DELETE_CQ, queue->number);
    return 1;
}

/* Deletes a queue pair. When the controller answers it has ended or given up all commands of it, and reaches none of
 * their data any more. */
static inline int nvme_delete(struct nvme *nvme, uint16_t number) {
    return nvme_delete_one(nvme, "delete a submission queue", NVME_DELETE_SQ, number) ||
           nvme_delete_one(nvme, "delete a completion queue", NVME_DELETE_CQ, number);
}

#endif
