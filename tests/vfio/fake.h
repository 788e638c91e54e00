/* fake.h: VFIO without a machine, for the programs of examples/ over a device that is fake too: fake.c has an `edu`,
 * fake_nvme.c a disk's controller. Linked in the place of what they open, so that they can run under valgrind and the
 * sanitizers.
 *
 * It has a page table of 32 bits, by frames, and keeps to VFIO's rules: nothing is mapped twice or into the window
 * where interrupts go, and a mapping is unmapped whole. The device is a thread. It reaches memory by fake_reach, which
 * counts a fault where an address isn't mapped; the count goes to standard error when the device is closed.
 *
 *     cc PROGRAM.c fake.c -Wl,--wrap=open,--wrap=close,--wrap=readlink,--wrap=ioctl,--wrap=mmap,--wrap=munmap
 */
#ifndef FAKE_H
#define FAKE_H

#define _GNU_SOURCE
#include "device.h"

#include <pthread.h>
#include <signal.h>
#include <stdarg.h>
#include <stdlib.h>

enum { FAKE_FRAMES = 1 << 20, FAKE_WINDOW = 0xfee00, FAKE_WINDOW_END = 0xfef00 };

static struct {
    int container, group, fd;
    uint8_t *where[FAKE_FRAMES];  /* of each frame its memory */
    uint32_t frames[FAKE_FRAMES]; /* of a mapping's first frame how many it has */
    uint8_t *registers;
    size_t size;
    int faults, stopped;
    pthread_mutex_t lock;
    pthread_t thread;
} fake = {.container = -1, .group = -1, .fd = -1, .lock = PTHREAD_MUTEX_INITIALIZER};

/* The device's file: its registers, of fake.size bytes, or not where it can't; its thread, until fake.stopped; and its
 * end. */
static int fake_open(void);
static void *fake_work(void *nothing);
static void fake_close(void);

int __real_open(const char *path, int flags, ...);
int __real_close(int fd);
int __real_ioctl(int fd, unsigned long request, ...);
ssize_t __real_readlink(const char *path, char *link, size_t room);
void *__real_mmap(void *at, size_t bytes, int prot, int flags, int fd, off_t offset);
int __real_munmap(void *at, size_t bytes);

/* Where an address is in memory, or NULL. What is asked for doesn't cross a page. Under the lock. */
static uint8_t *fake_reach(uint64_t address) {
    uint8_t *at = address / FRAME < FAKE_FRAMES ? fake.where[address / FRAME] : NULL;
    fake.faults += !at;
    return at ? at + address % FRAME : NULL;
}

static int fake_open_device(void) {
    fake.fd = memfd_create("device", MFD_CLOEXEC);
    if (fake.fd < 0 || fake_open() || ftruncate(fake.fd, (off_t)(fake.size + FRAME)))
        return -1;
    sigset_t all, before; /* signals are for the program's own threads */
    sigfillset(&all);
    pthread_sigmask(SIG_SETMASK, &all, &before);
    int failed = pthread_create(&fake.thread, NULL, fake_work, NULL);
    pthread_sigmask(SIG_SETMASK, &before, NULL);
    return failed ? -1 : fake.fd;
}

int __wrap_open(const char *path, int flags, ...) {
    va_list more;
    va_start(more, flags);
    int mode = flags & O_CREAT ? va_arg(more, int) : 0;
    va_end(more);
    if (strcmp(path, "/dev/vfio/vfio") == 0)
        return fake.container = memfd_create("container", MFD_CLOEXEC);
    if (strcmp(path, "/dev/vfio/7") == 0)
        return fake.group = memfd_create("group", MFD_CLOEXEC);
    return __real_open(path, flags, mode);
}

int __wrap_close(int fd) {
    if (fd >= 0 && fd == fake.fd) {
        __atomic_store_n(&fake.stopped, 1, __ATOMIC_RELEASE);
        pthread_join(fake.thread, NULL);
        fake_close();
        fprintf(stderr, "faults %d\n", fake.faults);
        fake.fd = -1;
    }
    return __real_close(fd);
}

ssize_t __wrap_readlink(const char *path, char *link, size_t room) {
    const char *at = "../../kernel/iommu_groups/7";
    if (!strstr(path, "iommu_group"))
        return __real_readlink(path, link, room);
    memcpy(link, at, strlen(at));
    return (ssize_t)strlen(at);
}

/* The registers are memory that both sides see at the same place. */
void *__wrap_mmap(void *at, size_t bytes, int prot, int flags, int fd, off_t offset) {
    return fd >= 0 && fd == fake.fd ? fake.registers : __real_mmap(at, bytes, prot, flags, fd, offset);
}

int __wrap_munmap(void *at, size_t bytes) {
    return at && at == (void *)fake.registers ? 0 : __real_munmap(at, bytes);
}

static int fake_refuse(int why) {
    errno = why;
    return -1;
}

static int fake_map(const struct vfio_iommu_type1_dma_map *new) {
    uint64_t first = new->iova / FRAME, frames = new->size / FRAME;
    if (first + frames > FAKE_FRAMES || frames == 0 || (first < FAKE_WINDOW_END && first + frames > FAKE_WINDOW))
        return fake_refuse(EINVAL);
    for (uint64_t frame = first; frame < first + frames; frame++)
        if (fake.where[frame])
            return fake_refuse(EEXIST);
    for (uint64_t at = 0; at < frames; at++)
        fake.where[first + at] = (uint8_t *)(uintptr_t)new->vaddr + at * FRAME;
    fake.frames[first] = (uint32_t)frames;
    return 0;
}

/* All mappings that lie in the range. One that lies across its ends is refused. */
static int fake_unmap(struct vfio_iommu_type1_dma_unmap *old) {
    uint64_t first = old->iova / FRAME, end = first + old->size / FRAME, bytes = 0;
    if (end > FAKE_FRAMES)
        return fake_refuse(EINVAL);
    for (uint64_t at = first; at < end; at++) {
        uint64_t frames = fake.frames[at];
        if (frames == 0 && fake.where[at])
            return fake_refuse(EINVAL);
        if (frames == 0)
            continue;
        if (at + frames > end)
            return fake_refuse(EINVAL);
        memset(&fake.where[at], 0, frames * sizeof fake.where[at]);
        fake.frames[at] = 0;
        bytes += frames * FRAME;
        at += frames - 1;
    }
    old->size = bytes;
    return 0;
}

/* The ranges that may be mapped: all but the window. */
static int fake_inform(struct vfio_iommu_type1_info *info) {
    struct vfio_iommu_type1_info_cap_iova_range cap = {.nr_iovas = 2};
    struct vfio_iova_range ranges[] = {{0, (uint64_t)FAKE_WINDOW * FRAME - 1},
                                       {(uint64_t)FAKE_WINDOW_END * FRAME, (uint64_t)FAKE_FRAMES * FRAME - 1}};
    cap.header.id = VFIO_IOMMU_TYPE1_INFO_CAP_IOVA_RANGE;
    info->flags = VFIO_IOMMU_INFO_CAPS;
    info->cap_offset = sizeof *info - 4; /* as the kernel's, at no multiple of 8 */
    memcpy((uint8_t *)info + info->cap_offset, &cap, sizeof cap);
    memcpy((uint8_t *)info + info->cap_offset + sizeof cap, ranges, sizeof ranges);
    return 0;
}

int __wrap_ioctl(int fd, unsigned long request, ...) {
    va_list more;
    va_start(more, request);
    void *word = va_arg(more, void *);
    va_end(more);
    struct vfio_region_info *region = word;
    int answer = 0;
    if (fd != fake.container && fd != fake.group && fd != fake.fd)
        return __real_ioctl(fd, request, word);
    pthread_mutex_lock(&fake.lock);
    if (fd == fake.container && request == VFIO_IOMMU_MAP_DMA)
        answer = fake_map(word);
    else if (fd == fake.container && request == VFIO_IOMMU_UNMAP_DMA)
        answer = fake_unmap(word);
    else if (fd == fake.container && request == VFIO_IOMMU_GET_INFO)
        answer = fake_inform(word);
    else if (fd == fake.group && request == VFIO_GROUP_GET_DEVICE_FD)
        answer = fake_open_device();
    else if (fd == fake.fd && request == VFIO_DEVICE_GET_REGION_INFO) {
        int config = region->index == VFIO_PCI_CONFIG_REGION_INDEX;
        region->size = config ? FRAME : fake.size;
        region->offset = config ? fake.size : 0;
    }
    pthread_mutex_unlock(&fake.lock);
    return answer;
}

#endif
