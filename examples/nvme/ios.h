/* ios.h: what a disk's driver is asked for here, the memory for it, and how it is seen that the disk did as it was
 * told. driver.c and client.c are made of it; in a driver of one's own I/Os come from elsewhere.
 *
 * A load is so many I/Os, half of them writes, of 4 KiB to 1 MiB: 16 KiB in the mean, and each 500th of 1 MiB, or of
 * what the controller takes at most. They go to places by chance in the load's share of the disk. Each block of 4 KiB
 * that is written says its own number and its generation, how often it was written; each read looks at them, and at the
 * end all of the share is read once more. Two commands for the same block are never in flight together, since a
 * controller may carry them out in any order.
 */
#ifndef IOS_H
#define IOS_H

#include "nvme.h"

enum {
    DEPTH = 256,     /* commands of a queue, each with a slot of memory */
    BLOCK = 4096,    /* bytes of a block of this load's, which is one or more of the disk's */
    SECTOR = 512,    /* each has a mark */
    LARGE = 1 << 20, /* bytes of a large slot, the others have */
    SMALL = 64 << 10,
    LARGES = 16,
    POOL = LARGES * LARGE + (DEPTH - LARGES) * SMALL,
    LISTS = DEPTH * NVME_LIST_BYTES, /* a PRP list for each slot */
    RARE = 500,                      /* one of so many I/Os is of 1 MiB */
};

struct mark {
    uint64_t place, generation;
};

struct io {
    uint8_t *memory;
    uint64_t address, room; /* where the device reaches it; the bytes given there, at least `bytes` */
    uint64_t bytes, block;  /* bytes is 0 where no command has the slot */
    int write, ended;
};

struct load {
    uint64_t left, back;             /* I/Os that are still to begin; the next block to be read back */
    uint64_t first, blocks, most;    /* its share of the disk; the bytes of an I/O at most */
    uint32_t *generations;           /* of each block of the disk */
    uint8_t *busy;                   /* of a block, whether a command has it */
    struct io ios[DEPTH], wish;      /* by the number of the command; and what is to begin next */
    uint16_t free[2][DEPTH];         /* slots that nobody has: small ones, large ones */
    int frees[2], used, in_flight;   /* slots that somebody has, commands that the controller has */
    uint64_t dice, reads, writes, bytes, wrong;
};

/* A load over memory of POOL bytes. Its generations are those of a disk of which nothing is known where they are 0. */
static inline void load_make(struct load *load, uint64_t number, uint8_t *memory) {
    load->dice = number + 1;
    for (int slot = 0; slot < DEPTH; slot++) {
        int large = slot < LARGES;
        load->ios[slot].memory = memory;
        memory += large ? LARGE : SMALL;
        load->free[large][load->frees[large]++] = (uint16_t)slot;
    }
}

static inline int load_has_more(const struct load *load) {
    return load->left || load->wish.bytes || load->back < load->blocks || load->used;
}

static inline uint64_t load_roll(struct load *load, uint64_t sides) {
    load->dice = load->dice * 6364136223846793005u + 1442695040888963407u;
    return (load->dice >> 33) % sides;
}

static inline struct mark load_mark(const struct load *load, const struct io *io, uint64_t at) {
    uint64_t block = io->block + at / BLOCK;
    return (struct mark){block << 8 | at % BLOCK / SECTOR, load->generations[block]};
}

/* Marks the blocks that are to be written, and wipes the marks where blocks are to be read. */
static inline void load_set_marks(const struct load *load, const struct io *io) {
    for (uint64_t at = 0; at < io->bytes; at += SECTOR) {
        struct mark mark = io->write ? load_mark(load, io, at) : (struct mark){0, 0};
        memcpy(io->memory + at, &mark, sizeof mark);
    }
}

/* A block that this load hasn't written may be anything. */
static inline uint64_t load_marks_that_differ(const struct load *load, const struct io *io) {
    uint64_t count = 0;
    for (uint64_t at = 0; at < io->bytes; at += SECTOR) {
        struct mark mark = load_mark(load, io, at);
        count += mark.generation && memcmp(io->memory + at, &mark, sizeof mark) != 0;
    }
    return count;
}

static inline int load_is_busy(const struct load *load, const struct io *io) {
    return memchr(load->busy + io->block, 1, io->bytes / BLOCK) != NULL;
}

/* What is to begin next: as long as I/Os are left one by chance, then all is read back. 0: nothing now. */
static inline int load_choose(struct load *load) {
    struct io *wish = &load->wish;
    uint64_t most = load->most / BLOCK, blocks;
    if (!wish->bytes && load->left > 0) {
        blocks = load_roll(load, 60) == 0 ? 8 + load_roll(load, 57) : 1 + load_roll(load, 5);
        blocks = load->left % RARE == 0 ? LARGE / BLOCK : blocks;
        wish->bytes = (blocks < most ? blocks : most) * BLOCK;
        wish->write = (int)load_roll(load, 2);
        load->left--;
    } else if (!wish->bytes && load->back < load->blocks) {
        blocks = load->blocks - load->back;
        *wish = (struct io){.block = load->first + load->back, .bytes = (blocks < most ? blocks : most) * BLOCK};
        load->back += wish->bytes / BLOCK;
        return !load_is_busy(load, wish);
    } else if (!wish->bytes) {
        return 0;
    }
    if (load->back > 0)
        return !load_is_busy(load, wish);
    for (int tries = 0; tries < 8; tries++) {
        wish->block = load->first + load_roll(load, load->blocks - wish->bytes / BLOCK + 1);
        if (!load_is_busy(load, wish))
            return 1;
    }
    return 0;
}

/* The slot that the next I/O is to have, with that I/O in load->wish; -1 where none can begin now. */
static inline int load_next(struct load *load, int depth) {
    if (load->used >= depth || !load_choose(load))
        return -1;
    int large = load->wish.bytes > SMALL;
    if (load->frees[large] == 0)
        return -1;
    int slot = load->free[large][load->frees[large] - 1];
    load->wish.memory = load->ios[slot].memory;
    return slot;
}

/* The wish is in the slot now, marked, and a command may be made of it. */
static inline void load_begin(struct load *load, int slot) {
    struct io *io = &load->ios[slot];
    load->frees[load->wish.bytes > SMALL]--;
    load->used++;
    load->in_flight++;
    *io = load->wish;
    load->wish.bytes = 0;
    memset(load->busy + io->block, 1, io->bytes / BLOCK);
    for (uint64_t at = 0; io->write && at < io->bytes / BLOCK; at++)
        load->generations[io->block + at]++;
    load_set_marks(load, io);
}

/* The command of a slot. `lists` are the PRP lists' memory, of LISTS bytes, and where the controller reaches it. */
static inline struct nvme_command load_command(struct load *load, const struct nvme *nvme, int slot, uint8_t *lists,
                                               uint64_t lists_address) {
    const struct io *io = &load->ios[slot];
    uint64_t scale = BLOCK / nvme->block, list = (uint64_t)slot * NVME_LIST_BYTES;
    struct nvme_command command = {.opcode = io->write ? NVME_WRITE : NVME_READ, .cid = (uint16_t)slot, .nsid = 1};
    command.cdw10 = (uint32_t)(io->block * scale);
    command.cdw11 = (uint32_t)(io->block * scale >> 32);
    command.cdw12 = (uint32_t)(io->bytes / nvme->block - 1);
    nvme_set_data(&command, io->address, io->bytes, (uint64_t *)(void *)(lists + list), lists_address + list);
    return command;
}

/* A completion: the data is there, but the device still reaches the memory. NULL where it isn't as it should be. */
static inline struct io *load_end(struct load *load, const struct nvme_completion *taken) {
    struct io *io = &load->ios[taken->cid % DEPTH];
    if (taken->cid >= DEPTH || !io->bytes || io->ended) {
        fprintf(stderr, "nvme: a completion of a command that isn't in flight: %u\n", taken->cid);
        return NULL;
    }
    if (taken->status >> 1) {
        nvme_fails(io->write ? "write" : "read", taken->status >> 1);
        return NULL;
    }
    io->ended = 1;
    load->wrong += io->write ? 0 : load_marks_that_differ(load, io);
    load->writes += (uint64_t)io->write;
    load->reads += (uint64_t)!io->write;
    load->bytes += io->bytes;
    memset(load->busy + io->block, 0, io->bytes / BLOCK);
    load->in_flight--;
    return io;
}

/* The slot is nobody's again. */
static inline void load_retire(struct load *load, struct io *io) {
    int slot = (int)(io - load->ios), large = slot < LARGES;
    load->free[large][load->frees[large]++] = (uint16_t)slot;
    io->bytes = 0;
    load->used--;
}

#endif
