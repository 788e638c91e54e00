/* An NVMe controller without a machine, over fake.h: linked into examples/nvme. A thread of its own takes commands as
 * they come, ends them by chance in another order, and reaches memory only then; where an address isn't mapped it
 * counts a fault, and the command fails. The environment says what it is like: DISK is the file of its disk, MDTS its
 * limit, RATE how many commands of a queue end in a second at most, and KEEP how many of a queue it is slow with: where
 * no more are in it, an eighth of that.
 */
#include "fake.h"

#include "nvme.h"

#include <sys/stat.h>

enum { BAR = 1 << 14, QUEUES = 18, PENDING = 1024, SHIFT = 9 };

struct ring {
    uint64_t submissions, completions; /* addresses, 0 where there is no queue */
    uint32_t entries, head, tail, phase;
    struct nvme_command pending[PENDING];
    uint32_t count;
    uint64_t next; /* in microseconds: before that no command ends */
};

static struct {
    uint8_t registers[BAR];
    struct ring rings[QUEUES];
    uint8_t *disk;
    uint64_t disk_bytes, mdts;
    uint32_t dice;
    int ready;
    uint64_t pause, keep; /* microseconds from an end to the next; commands of a queue */
} disk;

static uint32_t roll(uint32_t sides) { return (disk.dice = disk.dice * 1664525 + 1013904223) % 65521 % sides; }

static uint32_t word(int at) { return __atomic_load_n((uint32_t *)(void *)(disk.registers + at), __ATOMIC_ACQUIRE); }

static void set_word(int at, uint32_t value) {
    __atomic_store_n((uint32_t *)(void *)(disk.registers + at), value, __ATOMIC_RELEASE);
}

/* The pages of a command's data: copied from the disk, or to it. A list goes on in another page where its last entry is
 * the page's last; no driver here has one so long. */
static unsigned transfer(const struct nvme_command *command) {
    uint64_t bytes = ((uint64_t)(command->cdw12 & 0xffff) + 1) << SHIFT, pages = (bytes + FRAME - 1) / FRAME;
    uint64_t place = ((uint64_t)command->cdw11 << 32 | command->cdw10) << SHIFT;
    if (command->opcode != NVME_READ && command->opcode != NVME_WRITE)
        return 0x1; /* invalid opcode */
    if (command->nsid != 1 || bytes > (uint64_t)FRAME << disk.mdts)
        return 0x2; /* invalid field */
    if (place + bytes > disk.disk_bytes)
        return 0x80; /* out of range */
    uint64_t *list = pages > 2 ? (void *)fake_reach(command->prp2) : NULL;
    if (pages > 2 && (!list || command->prp2 % FRAME + (pages - 1) * 8 > FRAME))
        return 0x13; /* invalid offset of a list */
    for (uint64_t page = 0; page < pages; page++) {
        uint8_t *memory = fake_reach(page == 0 ? command->prp1 : pages == 2 ? command->prp2 : list[page - 1]);
        uint64_t part = bytes - page * FRAME < FRAME ? bytes - page * FRAME : FRAME;
        if (!memory)
            return 0x4; /* a fault in the transfer of data */
        uint8_t *at = disk.disk + place + page * FRAME;
        memcpy(command->opcode == NVME_READ ? memory : at, command->opcode == NVME_READ ? at : memory, part);
    }
    return 0;
}

static void identify(const struct nvme_command *command, uint8_t *page) {
    uint64_t blocks = disk.disk_bytes >> SHIFT;
    uint32_t format = SHIFT << 16;
    memset(page, 0, FRAME);
    page[77] = (uint8_t)disk.mdts;
    if (command->cdw10 == 0) {
        memcpy(page, &blocks, sizeof blocks);
        memcpy(page + 128, &format, sizeof format);
    }
}

static unsigned administer(const struct nvme_command *command, uint32_t *answer) {
    struct ring *ring = &disk.rings[(command->cdw10 & 0xffff) % QUEUES];
    uint32_t entries = (command->cdw10 >> 16) + 1;
    uint8_t *page = command->opcode == NVME_IDENTIFY ? fake_reach(command->prp1) : NULL;
    switch (command->opcode) {
    case NVME_IDENTIFY:
        if (page)
            identify(command, page);
        return page ? 0 : 0x4;
    case NVME_SET_FEATURES: *answer = (QUEUES - 2) << 16 | (QUEUES - 2); return 0;
    case NVME_CREATE_CQ:
        *ring = (struct ring){.completions = command->prp1, .entries = entries, .phase = 1};
        set_word(NVME_DOORBELLS + 8 * (int)(ring - disk.rings), 0);
        set_word(NVME_DOORBELLS + 8 * (int)(ring - disk.rings) + 4, 0);
        return 0;
    case NVME_CREATE_SQ: ring->submissions = command->prp1; return ring->completions ? 0 : 0x100;
    case NVME_DELETE_SQ: ring->submissions = ring->count = 0; return 0;
    case NVME_DELETE_CQ: ring->completions = 0; return 0;
    default: return 0x1; /* invalid opcode */
    }
}

static int complete(struct ring *ring, uint16_t cid, unsigned status, uint32_t answer) {
    struct nvme_completion *at = (void *)fake_reach(ring->completions + ring->tail * sizeof *at);
    if (!at)
        return 0;
    at->dw0 = answer;
    at->sqhd = (uint16_t)ring->head;
    at->cid = cid;
    __atomic_store_n(&at->status, (uint16_t)(status << 1 | ring->phase), __ATOMIC_RELEASE);
    ring->tail = (ring->tail + 1) % ring->entries;
    ring->phase ^= ring->tail == 0;
    return 1;
}

static uint64_t now(void) {
    struct timespec time;
    clock_gettime(CLOCK_MONOTONIC, &time);
    return (uint64_t)time.tv_sec * 1000000 + (uint64_t)time.tv_nsec / 1000;
}

/* How many commands of a queue may end now. */
static uint32_t due(uint32_t number, struct ring *ring) {
    if (!number || !disk.pause)
        return roll(ring->count + 1);
    if (now() < ring->next || ring->count == 0)
        return 0;
    ring->next = now() + (ring->count > disk.keep ? disk.pause : 8 * disk.pause);
    return 1;
}

/* Takes what the doorbell told. Where there is nothing new it ends some of what it took: so much is in flight. */
static int turn(uint32_t number) {
    struct ring *ring = &disk.rings[number];
    int moved = 0;
    uint32_t tail = word(NVME_DOORBELLS + 8 * (int)number), head = word(NVME_DOORBELLS + 8 * (int)number + 4);
    while (ring->submissions && ring->head != tail % ring->entries && ring->count < PENDING) {
        struct nvme_command *command = (void *)fake_reach(ring->submissions + ring->head * sizeof *command);
        if (!command)
            return 0;
        ring->pending[ring->count++] = *command;
        ring->head = (ring->head + 1) % ring->entries;
        moved = 1;
    }
    uint32_t some = moved ? 0 : due(number, ring);
    for (; some > 0 && (ring->tail + 1) % ring->entries != head; some--) {
        uint32_t which = number ? roll(ring->count) : 0, answer = 0;
        struct nvme_command command = ring->pending[which];
        memmove(&ring->pending[which], &ring->pending[which + 1], (--ring->count - which) * sizeof command);
        unsigned status = number ? transfer(&command) : administer(&command, &answer);
        moved += complete(ring, command.cid, status, answer);
    }
    return moved;
}

static void *fake_work(void *nothing) {
    uint32_t first = 0;
    while (!__atomic_load_n(&fake.stopped, __ATOMIC_ACQUIRE)) {
        int moved = 0, enabled = (int)(word(NVME_CC) & NVME_CC_EN);
        pthread_mutex_lock(&fake.lock);
        if (enabled && !disk.ready)
            disk.rings[0] = (struct ring){.submissions = word(NVME_ASQ) | (uint64_t)word(NVME_ASQ + 4) << 32,
                                          .completions = word(NVME_ACQ) | (uint64_t)word(NVME_ACQ + 4) << 32,
                                          .entries = (word(NVME_AQA) & 0xfff) + 1,
                                          .phase = 1};
        if (!enabled && disk.ready) {
            memset(disk.rings, 0, sizeof disk.rings);
            memset(disk.registers + NVME_DOORBELLS, 0, 8 * QUEUES);
        }
        disk.ready = enabled;
        set_word(NVME_CSTS, enabled ? NVME_CSTS_RDY : 0);
        first = (first + 1) % QUEUES; /* queues have their turns one after another */
        for (uint32_t number = 0; number < QUEUES && enabled; number++)
            moved += turn((first + number) % QUEUES);
        pthread_mutex_unlock(&fake.lock);
        if (!moved)
            usleep(50);
    }
    return nothing;
}

static int fake_open(void) {
    const char *path = getenv("DISK"), *mdts = getenv("MDTS"), *rate = getenv("RATE"), *keep = getenv("KEEP");
    struct stat file;
    int fd = path ? __real_open(path, O_RDWR | O_CLOEXEC) : -1;
    if (fd < 0 || fstat(fd, &file))
        return 1;
    disk.disk_bytes = (uint64_t)file.st_size;
    disk.disk = __real_mmap(NULL, disk.disk_bytes, PROT_READ | PROT_WRITE, MAP_SHARED, fd, 0);
    __real_close(fd);
    disk.pause = rate ? 1000000 / strtoull(rate, NULL, 10) : 0;
    disk.keep = keep ? strtoull(keep, NULL, 10) : 0;
    disk.mdts = mdts ? strtoull(mdts, NULL, 10) : 8;
    set_word(NVME_CAP, 1023);   /* MQES */
    set_word(NVME_CAP + 4, 32); /* DSTRD 0, MPSMIN 0 */
    fake.registers = disk.registers;
    fake.size = BAR;
    return disk.disk == MAP_FAILED;
}

static void fake_close(void) { __real_munmap(disk.disk, disk.disk_bytes); }
