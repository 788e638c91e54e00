/* vhost.h: the driver's side of a vhost-user device that has an IOTLB, and the device's page table. The messages have
 * the names of the vhost-user specification, and their parts are structs of <linux/vhost_types.h>.
 *
 * The device asks by MISS for an address that its IOTLB hasn't. The driver answers by UPDATE from the page table. The
 * device keeps the translation until INVALIDATE. The acknowledgement of INVALIDATE says that the IOTLB hasn't the
 * range, and that no burst of packets uses it: a flush has ended.
 */
#ifndef VHOST_H
#define VHOST_H

#include <errno.h>
#include <inttypes.h>
#include <linux/vhost_types.h>
#include <linux/virtio_config.h>
#include <pthread.h>
#include <stdio.h>
#include <stdlib.h>
#include <string.h>
#include <sys/mman.h>
#include <sys/socket.h>
#include <sys/un.h>
#include <time.h>
#include <unistd.h>

enum {
    FRAME = 4096,
    LAST = 4095,        /* the last frame of the domain */
    FIXED_AT = 1 << 20, /* the first frame of memory that is always mapped: above the domain */
    FIXED = 8,          /* frames of it, at the start of the memory: the rings */
    PAGES = 128,        /* frames after them: packets */
};

enum vhost_request {
    VHOST_USER_GET_FEATURES = 1,
    VHOST_USER_SET_FEATURES = 2,
    VHOST_USER_SET_OWNER = 3,
    VHOST_USER_SET_MEM_TABLE = 5,
    VHOST_USER_SET_VRING_NUM = 8,
    VHOST_USER_SET_VRING_ADDR = 9,
    VHOST_USER_SET_VRING_BASE = 10,
    VHOST_USER_GET_VRING_BASE = 11,
    VHOST_USER_SET_VRING_KICK = 12,
    VHOST_USER_SET_VRING_CALL = 13,
    VHOST_USER_GET_PROTOCOL_FEATURES = 15,
    VHOST_USER_SET_PROTOCOL_FEATURES = 16,
    VHOST_USER_SET_VRING_ENABLE = 18,
    VHOST_USER_SET_BACKEND_REQ_FD = 21,
    VHOST_USER_IOTLB_MSG = 22,
};

enum {
    VHOST_USER_VERSION = 1,    /* of a message's flags */
    VHOST_USER_NEED_REPLY = 8,
    VHOST_USER_F_PROTOCOL_FEATURES = 30,
    VHOST_USER_PROTOCOL_F_REPLY_ACK = 3,
    VHOST_USER_PROTOCOL_F_BACKEND_REQ = 5,
};

struct vhost_header {
    uint32_t request, flags, size;
};

union vhost_payload {
    uint64_t value;
    struct vhost_vring_state state;
    struct vhost_vring_addr addresses;
    struct vhost_iotlb_msg iotlb;
    struct { uint32_t count, padding; uint64_t guest, size, user, offset; } memory;
};

struct vhost {
    int fd, back; /* for requests of the driver, and of the device */
    int memory_fd;
    uint8_t *memory;
    pthread_mutex_t lock;           /* of all below, and of each request with its reply */
    const uint8_t *table[LAST + 1]; /* the page table: the memory of each frame, or NULL */
    uint8_t is_stale[LAST + 1];     /* whether a frame was unmapped since the last flush */
    uint64_t stale;                 /* the number of these frames */
    uint64_t client;                /* of the daemon, who maps here; 0 if there is none, or it is gone */
    int has_daemon;
    uint64_t flushes, messages;     /* messages: INVALIDATE */
    uint64_t microseconds;          /* of all flushes */
    uint64_t misses, faults;        /* faults: misses of what isn't mapped */
    FILE *log;
};

enum vhost_wait { SEND, ANSWER, ACKNOWLEDGE };

static inline void vhost_fails(const char *what) {
    fprintf(stderr, "vhost: %s: %s\n", what, strerror(errno));
    exit(2);
}

static inline uint64_t vhost_microseconds(void) {
    struct timespec now;
    clock_gettime(CLOCK_MONOTONIC, &now);
    return (uint64_t)now.tv_sec * 1000000 + (uint64_t)now.tv_nsec / 1000;
}

static inline void vhost_note(struct vhost *vhost, const char *what, uint64_t address) {
    fprintf(vhost->log, "%s %" PRIu64 " 1\n", what, address / FRAME);
}

static inline void vhost_receive(int fd, union vhost_payload *payload) {
    struct vhost_header header;
    if (recv(fd, &header, sizeof header, MSG_WAITALL) != sizeof header || header.size > sizeof *payload ||
        recv(fd, payload, header.size, MSG_WAITALL) != (ssize_t)header.size)
        vhost_fails("the device has ended");
}

/* Sends a request, with a descriptor if it is 0 or more, and waits for the answer or the acknowledgement. */
static inline uint64_t vhost_ask(struct vhost *vhost, enum vhost_request request, union vhost_payload payload,
                                 size_t size, int passed, enum vhost_wait wait) {
    union {
        struct cmsghdr header;
        char room[CMSG_SPACE(sizeof(int))];
    } control = {{CMSG_LEN(sizeof(int)), SOL_SOCKET, SCM_RIGHTS}};
    uint32_t flags = VHOST_USER_VERSION | (wait == ACKNOWLEDGE ? VHOST_USER_NEED_REPLY : 0);
    struct vhost_header header = {request, flags, (uint32_t)size};
    struct iovec pieces[] = {{&header, sizeof header}, {&payload, size}};
    struct msghdr head = {.msg_iov = pieces, .msg_iovlen = 2};
    if (passed >= 0) {
        memcpy(CMSG_DATA(&control.header), &passed, sizeof passed);
        head.msg_control = &control;
        head.msg_controllen = sizeof control.room;
    }
    if (sendmsg(vhost->fd, &head, MSG_NOSIGNAL) != (ssize_t)(sizeof header + size))
        vhost_fails("the device has ended");
    if (wait == SEND)
        return 0;
    vhost_receive(vhost->fd, &payload);
    if (wait == ACKNOWLEDGE && payload.value)
        vhost_fails("the device refuses a request");
    return payload.value;
}

static inline uint64_t vhost_set(struct vhost *vhost, enum vhost_request request, uint64_t value, int passed) {
    return vhost_ask(vhost, request, (union vhost_payload){.value = value}, 8, passed, SEND);
}

static inline void vhost_set_state(struct vhost *vhost, enum vhost_request request, unsigned index, unsigned number) {
    union vhost_payload payload = {.state = {index, number}};
    vhost_ask(vhost, request, payload, sizeof payload.state, -1, SEND);
}

/* Tells the device a frame's memory. */
static inline void vhost_update(struct vhost *vhost, uint64_t address, const void *memory, enum vhost_wait wait) {
    union vhost_payload payload = {.iotlb = {address, FRAME, (uintptr_t)memory, VHOST_ACCESS_RW, VHOST_IOTLB_UPDATE}};
    vhost_ask(vhost, VHOST_USER_IOTLB_MSG, payload, sizeof payload.iotlb, -1, wait);
}

/* Puts a page into the page table. The device may ask for it from now on. */
static inline void vhost_map(struct vhost *vhost, uint64_t address, const uint8_t *page) {
    pthread_mutex_lock(&vhost->lock);
    if (vhost->has_daemon && !vhost->client)
        vhost_fails("the client is gone, and maps nothing");
    vhost->table[address / FRAME] = page;
    vhost_note(vhost, "map", address);
    pthread_mutex_unlock(&vhost->lock);
}

/* Takes it out. The IOTLB may still have it. The lock is held. */
static inline void vhost_remove(struct vhost *vhost, uint64_t address) {
    if (!vhost->table[address / FRAME])
        return;
    vhost->table[address / FRAME] = NULL;
    vhost->stale += !vhost->is_stale[address / FRAME];
    vhost->is_stale[address / FRAME] = 1;
    vhost_note(vhost, "unmap", address);
}

static inline void vhost_unmap(struct vhost *vhost, uint64_t address) {
    pthread_mutex_lock(&vhost->lock);
    vhost_remove(vhost, address);
    pthread_mutex_unlock(&vhost->lock);
}

/* The flush, between its begin and its end: the IOTLB loses all that was unmapped, with one INVALIDATE for frames in a
 * row. The device takes messages in order, so it acknowledges only the last one. The lock is held.
 * DPDK 22.11 seems to drop the page above too if INVALIDATE has a range to its last byte: packets were lost. So the
 * last byte is left out. */
static inline int vhost_invalidate(struct vhost *vhost, uint64_t number) {
    uint64_t begin = vhost_microseconds();
    fprintf(vhost->log, "begin %" PRIu64 "\n", number);
    for (uint64_t first = 1, next; vhost->stale > 0; first = next + 1) {
        for (next = first; next <= LAST && vhost->is_stale[next]; next++)
            vhost->is_stale[next] = 0;
        if (next == first)
            continue;
        vhost->stale -= next - first;
        vhost->messages++;
        union vhost_payload payload = {.iotlb = {.iova = first * FRAME, .size = (next - first) * FRAME - 1}};
        payload.iotlb.type = VHOST_IOTLB_INVALIDATE;
        vhost_ask(vhost, VHOST_USER_IOTLB_MSG, payload, sizeof payload.iotlb, -1, vhost->stale ? SEND : ACKNOWLEDGE);
    }
    fprintf(vhost->log, "end %" PRIu64 " ok\n", number);
    vhost->microseconds += vhost_microseconds() - begin;
    vhost->flushes++;
    return 1;
}

/* Answers one MISS from the page table. */
static inline void vhost_answer_miss(struct vhost *vhost) {
    union vhost_payload miss;
    vhost_receive(vhost->back, &miss);
    pthread_mutex_lock(&vhost->lock);
    uint64_t frame = miss.iotlb.iova / FRAME;
    const uint8_t *memory = frame <= LAST ? vhost->table[frame] : NULL;
    if (frame >= FIXED_AT && frame < FIXED_AT + FIXED)
        memory = vhost->memory + (frame - FIXED_AT) * FRAME;
    if (memory)
        vhost_update(vhost, frame * FRAME, memory, SEND);
    vhost->misses++;
    vhost->faults += !memory;
    pthread_mutex_unlock(&vhost->lock);
}

/* Connects to the device, and shares the memory with it. */
static inline void vhost_start(struct vhost *vhost, const char *path) {
    const uint64_t wanted = UINT64_C(1) << VIRTIO_F_ACCESS_PLATFORM | UINT64_C(1) << VIRTIO_F_VERSION_1 |
                            UINT64_C(1) << VHOST_USER_F_PROTOCOL_FEATURES;
    const uint64_t protocol = 1 << VHOST_USER_PROTOCOL_F_REPLY_ACK | 1 << VHOST_USER_PROTOCOL_F_BACKEND_REQ;
    const uint64_t bytes = (FIXED + PAGES) * FRAME;
    struct sockaddr_un at = {.sun_family = AF_UNIX};
    union vhost_payload payload = {0};
    int pair[2];
    snprintf(at.sun_path, sizeof at.sun_path, "%s", path);
    pthread_mutex_init(&vhost->lock, NULL);
    vhost->fd = socket(AF_UNIX, SOCK_STREAM, 0);
    vhost->memory_fd = memfd_create("memory", 0);
    if (ftruncate(vhost->memory_fd, (off_t)bytes) || connect(vhost->fd, (void *)&at, sizeof at) ||
        socketpair(AF_UNIX, SOCK_STREAM, 0, pair))
        vhost_fails(path);
    vhost->memory = mmap(NULL, bytes, PROT_READ | PROT_WRITE, MAP_SHARED, vhost->memory_fd, 0);
    if (vhost->memory == MAP_FAILED)
        vhost_fails("memory");
    if ((vhost_ask(vhost, VHOST_USER_GET_FEATURES, payload, 0, -1, ANSWER) & wanted) != wanted)
        vhost_fails("the device has no IOTLB");
    vhost_ask(vhost, VHOST_USER_SET_OWNER, payload, 0, -1, SEND);
    if ((vhost_ask(vhost, VHOST_USER_GET_PROTOCOL_FEATURES, payload, 0, -1, ANSWER) & protocol) != protocol)
        vhost_fails("the device acknowledges nothing");
    vhost_set(vhost, VHOST_USER_SET_PROTOCOL_FEATURES, protocol, -1);
    vhost->back = pair[0];
    vhost_set(vhost, VHOST_USER_SET_BACKEND_REQ_FD, 0, pair[1]);
    vhost_set(vhost, VHOST_USER_SET_FEATURES, wanted, -1);
    payload.memory.count = 1, payload.memory.size = bytes, payload.memory.user = (uintptr_t)vhost->memory;
    vhost_ask(vhost, VHOST_USER_SET_MEM_TABLE, payload, sizeof payload.memory, vhost->memory_fd, ACKNOWLEDGE);
    close(pair[1]);
}

#endif
