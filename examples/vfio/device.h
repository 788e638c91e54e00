/* device.h: a PCI device of one's own over VFIO, and the registers of QEMU's `edu`, which copies bytes from and to
 * whatever address it is told. driver.c and broker.c are made of it.
 *
 * Who opens a device opens its container, which is an address space with page tables of the IOMMU, and puts the
 * device's group into it. device_map and device_unmap change these page tables. VFIO chooses no address, and gives
 * none up: that is what iovad is for.
 */
#ifndef DEVICE_H
#define DEVICE_H

#include <errno.h>
#include <fcntl.h>
#include <inttypes.h>
#include <linux/vfio.h>
#include <stdio.h>
#include <string.h>
#include <sys/ioctl.h>
#include <sys/mman.h>
#include <time.h>
#include <unistd.h>

enum { FRAME = 4096 };

struct device {
    int container, group, fd;
    char number[16];             /* the group's, of /dev/vfio and /sys/kernel/iommu_groups */
    volatile uint8_t *registers; /* the device's first region */
    size_t size;
};

static inline int device_fails(const char *what) {
    fprintf(stderr, "device: %s: %s\n", what, strerror(errno));
    return 1;
}

static inline struct vfio_region_info device_region(struct device *device, uint32_t index) {
    struct vfio_region_info region = {.argsz = sizeof region, .index = index};
    if (ioctl(device->fd, VFIO_DEVICE_GET_REGION_INFO, &region))
        region.size = 0;
    return region;
}

/* Ends all: the kernel unmaps what is mapped. */
static inline void device_close(struct device *device) {
    if (device->registers)
        munmap((void *)(uintptr_t)device->registers, device->size);
    for (int which = 0; which < 3; which++) {
        int fd = which == 0 ? device->fd : which == 1 ? device->group : device->container;
        if (fd >= 0)
            close(fd);
    }
    memset(device, 0, sizeof *device);
    device->fd = device->group = device->container = -1;
}

/* The device's group, by its address on the bus. */
static inline int device_find_group(struct device *device, const char *address, char *path, size_t room) {
    char link[256];
    snprintf(path, room, "/sys/bus/pci/devices/%s/iommu_group", address);
    ssize_t length = readlink(path, link, sizeof link - 1);
    link[length < 0 ? 0 : length] = 0;
    const char *last = strrchr(link, '/');
    if (!last || strlen(last) > sizeof device->number)
        return device_fails(path);
    memcpy(device->number, last + 1, strlen(last));
    snprintf(path, room, "/dev/vfio/%s", device->number);
    return 0;
}

/* Puts the group of the device at this address of the PCI bus into a container, takes the device and lets it do DMA. */
static inline int device_join(struct device *device, int container, const char *address) {
    char path[256];
    if (device_find_group(device, address, path, sizeof path))
        return 1;
    device->group = open(path, O_RDWR | O_CLOEXEC);
    if (device->group < 0 || ioctl(device->group, VFIO_GROUP_SET_CONTAINER, &container))
        return device_fails(path);
    if (container == device->container && ioctl(container, VFIO_SET_IOMMU, VFIO_TYPE1v2_IOMMU))
        return device_fails("VFIO_SET_IOMMU");
    device->fd = ioctl(device->group, VFIO_GROUP_GET_DEVICE_FD, address);
    if (device->fd < 0)
        return device_fails(address);
    struct vfio_region_info config = device_region(device, VFIO_PCI_CONFIG_REGION_INDEX);
    struct vfio_region_info bar = device_region(device, VFIO_PCI_BAR0_REGION_INDEX);
    uint16_t command; /* bit 1: it answers at its registers; bit 2: it may reach memory */
    if (!config.size || !bar.size || pread(device->fd, &command, 2, (off_t)config.offset + 4) != 2)
        return device_fails("the device's regions");
    command |= 6;
    if (pwrite(device->fd, &command, 2, (off_t)config.offset + 4) != 2)
        return device_fails("the device's command");
    device->size = bar.size;
    void *at = mmap(NULL, bar.size, PROT_READ | PROT_WRITE, MAP_SHARED, device->fd, (off_t)bar.offset);
    if (at == MAP_FAILED)
        return device_fails("the device's registers");
    device->registers = at;
    return 0;
}

/* Opens a device that vfio-pci has, by its address on the PCI bus, 0000:00:02.0 or so: an address space of its own. */
static inline int device_open(struct device *device, const char *address) {
    memset(device, 0, sizeof *device);
    device->fd = device->group = -1;
    device->container = open("/dev/vfio/vfio", O_RDWR | O_CLOEXEC);
    if (device->container < 0)
        return device_fails("/dev/vfio/vfio");
    return device_join(device, device->container, address);
}

/* Opens a device in the address space of another one, which outlives it: what is mapped for one both reach. */
static inline int device_open_beside(struct device *device, const struct device *other, const char *address) {
    memset(device, 0, sizeof *device);
    device->fd = device->group = device->container = -1;
    return device_join(device, other->container, address);
}

/* Frames that the platform keeps for itself, as those where interrupts go. Both ends are in it. */
struct device_window {
    uint64_t first, last;
};

/* The windows between frame 1 and `last`, which is lowered to the last frame that may be mapped at all. VFIO tells the
 * ranges that may be mapped; what lies between two of them is a window. Answers how many, or -1, also where there is no
 * room for all. */
static inline int device_windows(struct device *device, uint64_t *last, struct device_window *windows, int room) {
    union {
        struct vfio_iommu_type1_info info;
        uint8_t bytes[4 * FRAME];
    } told = {.info.argsz = sizeof told};
    struct vfio_iommu_type1_info_cap_iova_range cap; /* it and what is behind it may lie at any address */
    struct vfio_iova_range range;
    int failed = ioctl(device->container, VFIO_IOMMU_GET_INFO, &told);
    uint32_t at = !failed && told.info.flags & VFIO_IOMMU_INFO_CAPS ? told.info.cap_offset : 0;
    uint64_t next = 1;
    int count = 0;
    for (; at; at = cap.header.next) {
        memcpy(&cap, told.bytes + at, sizeof cap);
        if (cap.header.id == VFIO_IOMMU_TYPE1_INFO_CAP_IOVA_RANGE)
            break;
    }
    for (uint32_t which = 0; at && which < cap.nr_iovas && next <= *last; which++) {
        memcpy(&range, told.bytes + at + sizeof cap + which * sizeof range, sizeof range);
        uint64_t first = (range.start + (FRAME - 1)) / FRAME;
        if (first > next && count == room)
            return -1;
        if (first > next)
            windows[count++] = (struct device_window){next, first - 1 < *last ? first - 1 : *last};
        next = (range.end - (FRAME - 1)) / FRAME + 1;
    }
    *last = next - 1 < *last ? next - 1 : *last;
    return at && *last ? count : -1;
}

/* Maps memory at an address for the device. EEXIST: something is mapped there. */
static inline int device_map(struct device *device, void *memory, uint64_t address, uint64_t bytes) {
    struct vfio_iommu_type1_dma_map map = {.argsz = sizeof map,
                                           .flags = VFIO_DMA_MAP_FLAG_READ | VFIO_DMA_MAP_FLAG_WRITE,
                                           .vaddr = (uintptr_t)memory,
                                           .iova = address,
                                           .size = bytes};
    return ioctl(device->container, VFIO_IOMMU_MAP_DMA, &map);
}

/* Unmaps what was mapped there by one call. VFIO answers once the IOTLB has nothing of it either. */
static inline int device_unmap(struct device *device, uint64_t address, uint64_t bytes) {
    struct vfio_iommu_type1_dma_unmap unmap = {.argsz = sizeof unmap, .iova = address, .size = bytes};
    int failed = ioctl(device->container, VFIO_IOMMU_UNMAP_DMA, &unmap);
    return failed ? failed : unmap.size == bytes ? 0 : -1;
}

/* What `edu` does: it copies up to 4,095 bytes from memory into its own buffer, or from there into memory, which takes
 * it 100 ms. The bytes move at the end of that time. */
enum { EDU_FROM = 0x80, EDU_TO = 0x88, EDU_COUNT = 0x90, EDU_COMMAND = 0x98, EDU_BUFFER = 0x40000 };

static inline volatile uint64_t *edu_register(struct device *device, int which) {
    return (volatile uint64_t *)(uintptr_t)(device->registers + which);
}

static inline void edu_start(struct device *device, uint64_t address, uint64_t bytes, int to_memory) {
    *edu_register(device, EDU_FROM) = to_memory ? EDU_BUFFER : address;
    *edu_register(device, EDU_TO) = to_memory ? address : EDU_BUFFER;
    *edu_register(device, EDU_COUNT) = bytes;
    *edu_register(device, EDU_COMMAND) = to_memory ? 3 : 1;
}

static inline int edu_is_busy(struct device *device) { return (int)(*edu_register(device, EDU_COMMAND) & 1); }

static inline void edu_transfer(struct device *device, uint64_t address, uint64_t bytes, int to_memory) {
    const struct timespec moment = {0, 1000000};
    edu_start(device, address, bytes, to_memory);
    while (edu_is_busy(device))
        nanosleep(&moment, NULL);
}

#endif
