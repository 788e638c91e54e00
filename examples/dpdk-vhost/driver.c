/* A network driver without a machine. The device is DPDK's vhost library, and has an IOTLB. This needs no root, no
 * hugepages, no kernel module and no IOMMU. `dpdk-testpmd` sends each packet back:
 *
 *     dpdk-testpmd .. --vdev net_vhost0,iface=SOCKET,iommu-support=1 -- --forward-mode=io --auto-start
 *     driver SOCKET PACKETS LOG lazy|strict      addresses of libiova, in this process
 *     driver SOCKET PACKETS LOG PEER DAEMON      addresses of `iovad serve`, for which this process is the peer
 *
 * Each packet has a page. The driver maps it at an address of its own before it posts it, and unmaps it when the device
 * has used it. lazy: a flush invalidates the IOTLB when 255 addresses wait. strict: each unmap has its flush. With the
 * daemon, its option --strict chooses. `iovad check` reads LOG.
 */
#define _GNU_SOURCE
#include "broker.h"

#include <iova_shared.h>
#include <iova_client.h>
#include <linux/virtio_ring.h>
#include <poll.h>
#include <sys/eventfd.h>

enum {
    ENTRIES = 64,     /* of a ring */
    POSTED = 48,      /* of them are used */
    BURST = 16,       /* packets on their way */
    HEADER = 12,      /* bytes of virtio's header, and then of a packet: Ethernet's, and all */
    ETHERNET = 20,
    BYTES = 1200,
    PATIENCE = 60000, /* milliseconds */
};

struct ring {
    struct vring_desc *desc;
    struct vring_avail *avail;
    struct vring_used *used;
    uint8_t *pages; /* one for each descriptor */
    uint64_t address[ENTRIES];
    uint16_t taken, posted; /* how far the used entries were taken; posted, and not yet published */
    int kick, call;
};

struct driver {
    struct vhost vhost;
    struct broker broker;
    struct ring in, out;
    uint16_t free[ENTRIES], free_count; /* descriptors of `out` */
    iova_domain *domain;
    iova_shared shared;
    iova_shared_cache cache;
    iovad_session session; /* with the daemon */
    int is_strict;
    uint64_t sent, received, wrong, mapped, again, last;
    uint32_t known[LAST + 1];
};

static void must(uint64_t error, const char *what) {
    if (!error)
        return;
    fprintf(stderr, "driver: %s: %s\n", what, error < 200 ? iovad_error_name(error) : iova_refusal_name(error));
    exit(2);
}

/* Addresses. */

/* The flush, between its begin and its end; iova_shared.h calls this function. */
static int invalidate(void *with) {
    struct vhost *vhost = with;
    pthread_mutex_lock(&vhost->lock);
    int is_done = vhost_invalidate(vhost, vhost->flushes + 1);
    pthread_mutex_unlock(&vhost->lock);
    return is_done;
}

static uint64_t map(struct driver *driver, const uint8_t *page) {
    uint64_t address;
    if (driver->vhost.has_daemon) {
        iovad_range range = iovad_alloc(&driver->session, 1, LAST);
        must(range.error, "an address");
        address = range.lo * FRAME;
    } else {
        iova_mapping given = iova_shared_map(&driver->cache, FRAME, UINT64_MAX);
        must(given.refused, "an address");
        address = given.address;
    }
    driver->mapped++;
    driver->again += driver->known[address / FRAME]++ > 0;
    vhost_map(&driver->vhost, address, page);
    return address;
}

/* Unmapped first, then given back. */
static void unmap(struct driver *driver, uint64_t address) {
    vhost_unmap(&driver->vhost, address);
    if (driver->vhost.has_daemon)
        must(iovad_free(&driver->session, address / FRAME).error, "give back");
    else
        must(iova_shared_unmap_bytes(&driver->cache, address).refused, "give back");
    if (driver->is_strict)
        must(iova_shared_flush(&driver->shared), "a flush");
}

/* The daemon's peer has to listen before the daemon begins, so the daemon may come later than this process. */
static void start_addresses(struct driver *driver, const char *how, const char *daemon) {
    driver->vhost.has_daemon = daemon != NULL;
    if (daemon) {
        iovad_opened opened;
        broker_start(&driver->broker, &driver->vhost, how);
        int tries = PATIENCE;
        while ((opened = iovad_open(&driver->session, daemon, 0, 0)).error == IOVAD_NO_DAEMON && tries-- > 0)
            usleep(1000);
        must(opened.error, daemon);
        pthread_mutex_lock(&driver->vhost.lock);
        driver->vhost.client = opened.number;
        pthread_mutex_unlock(&driver->vhost.lock);
        return;
    }
    driver->is_strict = !strcmp(how, "strict");
    driver->domain = iova_domain_new();
    must(driver->domain ? iova_domain_make(driver->domain, 1, LAST, 1) : IOVA_NO_MEMORY, "the domain");
    must(iova_shared_init(&driver->shared, driver->domain, invalidate, &driver->vhost), "the domain");
    must(iova_shared_open(&driver->cache, &driver->shared, 0, 0), "the domain");
}

/* Rings. */

static void make_ring(struct driver *driver, struct ring *ring, unsigned index) {
    struct vhost *vhost = &driver->vhost;
    uint8_t *memory = vhost->memory + index * 3 * FRAME;
    uint64_t at = (FIXED_AT + index * 3) * (uint64_t)FRAME;
    ring->desc = (void *)memory, ring->avail = (void *)(memory + FRAME), ring->used = (void *)(memory + 2 * FRAME);
    ring->pages = vhost->memory + (FIXED + index * ENTRIES) * FRAME;
    ring->kick = eventfd(0, 0), ring->call = eventfd(0, EFD_NONBLOCK);
    union vhost_payload payload = {.addresses = {index, 0, at, at + 2 * FRAME, at + FRAME, 0}};
    vhost_set_state(vhost, VHOST_USER_SET_VRING_NUM, index, ENTRIES);
    vhost_set_state(vhost, VHOST_USER_SET_VRING_BASE, index, 0);
    vhost_ask(vhost, VHOST_USER_SET_VRING_ADDR, payload, sizeof payload.addresses, -1, SEND);
    vhost_set(vhost, VHOST_USER_SET_VRING_CALL, index, ring->call);
    vhost_set(vhost, VHOST_USER_SET_VRING_KICK, index, ring->kick);
}

static void post(struct driver *driver, struct ring *ring, uint16_t at, uint32_t bytes) {
    uint16_t flags = ring == &driver->in ? VRING_DESC_F_WRITE : 0;
    ring->address[at] = map(driver, ring->pages + at * FRAME);
    ring->desc[at] = (struct vring_desc){ring->address[at], bytes, flags, 0};
    ring->avail->ring[(uint16_t)(ring->avail->idx + ring->posted++) % ENTRIES] = at;
}

/* The device may have what was posted. It drops a packet if it misses the page to write to, so these pages it is told
 * before. */
static void publish(struct driver *driver, struct ring *ring) {
    pthread_mutex_lock(&driver->vhost.lock);
    for (uint16_t at = 0; ring == &driver->in && at < ring->posted; at++) {
        uint16_t slot = ring->avail->ring[(uint16_t)(ring->avail->idx + at) % ENTRIES];
        vhost_update(&driver->vhost, ring->address[slot], ring->pages + slot * FRAME,
                     at + 1 == ring->posted ? ACKNOWLEDGE : SEND);
    }
    pthread_mutex_unlock(&driver->vhost.lock);
    __atomic_store_n(&ring->avail->idx, (uint16_t)(ring->avail->idx + ring->posted), __ATOMIC_RELEASE);
    ring->posted = 0;
}

/* Takes the next descriptor that the device has used, and unmaps its page: the page has no address any more. */
static int take(struct driver *driver, struct ring *ring, uint16_t *at, uint32_t *bytes) {
    if (__atomic_load_n(&ring->used->idx, __ATOMIC_ACQUIRE) == ring->taken)
        return 0;
    struct vring_used_elem *used = &ring->used->ring[ring->taken++ % ENTRIES];
    *at = (uint16_t)used->id, *bytes = used->len;
    vhost_note(&driver->vhost, "use", ring->address[*at]);
    unmap(driver, ring->address[*at]);
    return 1;
}

/* Packets. */

/* All words of a packet are its number. */
static void send_next(struct driver *driver) {
    uint16_t at = driver->free[--driver->free_count];
    uint8_t *page = driver->out.pages + at * FRAME;
    driver->sent++;
    memset(page, 0, HEADER + ETHERNET);
    page[HEADER] = page[HEADER + 6] = 2, page[HEADER + 12] = 0x88, page[HEADER + 13] = 0xB5;
    for (unsigned byte = HEADER + ETHERNET; byte + 8 <= HEADER + BYTES; byte += 8)
        memcpy(page + byte, &driver->sent, 8);
    post(driver, &driver->out, at, HEADER + BYTES);
}

/* A packet that came back is whole, and later than the one before. Then its page is posted again. */
static void receive(struct driver *driver, uint16_t at, uint32_t bytes) {
    uint8_t *page = driver->in.pages + at * FRAME;
    uint64_t number, first;
    memcpy(&first, page + HEADER + ETHERNET, 8);
    int is_wrong = bytes != HEADER + BYTES || first <= driver->last || first > driver->sent;
    for (unsigned byte = HEADER + ETHERNET; byte + 8 <= HEADER + BYTES; byte += 8) {
        memcpy(&number, page + byte, 8);
        is_wrong |= number != first;
    }
    driver->last = is_wrong ? driver->last : first;
    driver->wrong += (uint64_t)is_wrong;
    driver->received++;
    memset(page, 0, HEADER + BYTES);
    post(driver, &driver->in, at, FRAME);
}

/* Waits until the device misses an address, or has used a descriptor. */
static void await(struct driver *driver) {
    struct pollfd fds[] = {{driver->vhost.back, POLLIN, 0}, {driver->in.call, POLLIN, 0},
                           {driver->out.call, POLLIN, 0}};
    uint64_t calls;
    if (poll(fds, 3, PATIENCE) <= 0)
        vhost_fails("a packet is lost");
    if (fds[0].revents)
        vhost_answer_miss(&driver->vhost);
    for (int at = 1; at < 3; at++)
        if (fds[at].revents && read(fds[at].fd, &calls, sizeof calls) < 0)
            vhost_fails("an event");
}

static void run(struct driver *driver, uint64_t packets) {
    uint16_t at;
    uint32_t bytes;
    for (at = 0; at < POSTED; at++) {
        post(driver, &driver->in, at, FRAME);
        driver->free[driver->free_count++] = at;
    }
    publish(driver, &driver->in);
    while (driver->received < packets) {
        while (driver->free_count && driver->sent < packets && driver->sent - driver->received < BURST)
            send_next(driver);
        publish(driver, &driver->out);
        await(driver);
        while (take(driver, &driver->out, &at, &bytes))
            driver->free[driver->free_count++] = at;
        while (take(driver, &driver->in, &at, &bytes))
            receive(driver, at, bytes);
        publish(driver, &driver->in);
    }
}

/* The device's answer to GET_VRING_BASE says that it has stopped the ring. Then what is still posted is unmapped. */
static void stop(struct driver *driver) {
    uint16_t at;
    uint32_t bytes;
    for (unsigned index = 0; index < 2; index++) {
        pthread_mutex_lock(&driver->vhost.lock);
        union vhost_payload payload = {.state = {index, 0}};
        vhost_ask(&driver->vhost, VHOST_USER_GET_VRING_BASE, payload, sizeof payload.state, -1, ANSWER);
        pthread_mutex_unlock(&driver->vhost.lock);
    }
    while (take(driver, &driver->out, &at, &bytes))
        driver->free[driver->free_count++] = at;
    for (at = 0; at < POSTED; at++)
        unmap(driver, driver->in.address[at]);
    if (driver->vhost.has_daemon) {
        /* an earlier driver may have died: the broker stays until the daemon has taken its ranges back */
        for (int tries = 10000; iovad_stat(&driver->session).client > 0 && tries > 0; tries--)
            usleep(1000);
        must(iovad_flush(&driver->session).error, "a flush");
        iovad_bye(&driver->session);
        return;
    }
    must(iova_shared_flush(&driver->shared), "a flush");
    must(iova_shared_close(&driver->cache), "the cache");
    iova_shared_clear(&driver->shared);
    iova_domain_free(driver->domain);
}

int main(int argc, char **words) {
    static struct driver driver;
    struct vhost *vhost = &driver.vhost;
    if (argc != 5 && argc != 6) {
        fprintf(stderr, "usage: driver SOCKET PACKETS LOG lazy|strict\n"
                        "       driver SOCKET PACKETS LOG PEER DAEMON\n");
        return 2;
    }
    vhost->log = fopen(words[3], "w");
    if (!vhost->log)
        vhost_fails(words[3]);
    fprintf(vhost->log, "iovalog 1 1 %d\n", LAST);
    vhost_start(vhost, words[1]);
    start_addresses(&driver, words[4], words[5]);
    pthread_mutex_lock(&vhost->lock);
    make_ring(&driver, &driver.in, 0);
    make_ring(&driver, &driver.out, 1);
    vhost_set_state(vhost, VHOST_USER_SET_VRING_ENABLE, 0, 1);
    vhost_set_state(vhost, VHOST_USER_SET_VRING_ENABLE, 1, 1);
    pthread_mutex_unlock(&vhost->lock);
    uint64_t begin = vhost_microseconds();
    run(&driver, strtoull(words[2], NULL, 0));
    uint64_t took = vhost_microseconds() - begin;
    pthread_mutex_lock(&vhost->lock);
    uint64_t flushes = vhost->flushes, messages = vhost->messages, in_flushes = vhost->microseconds;
    pthread_mutex_unlock(&vhost->lock);
    stop(&driver);
    printf("sent %" PRIu64 " received %" PRIu64 " wrong %" PRIu64 " mapped %" PRIu64 " again %" PRIu64
           " flushes %" PRIu64 " invalidates %" PRIu64 " microseconds_in_flushes %" PRIu64 " misses %" PRIu64
           " faults %" PRIu64 " microseconds %" PRIu64 "\n",
           driver.sent, driver.received, driver.wrong, driver.mapped, driver.again, flushes, messages, in_flushes,
           vhost->misses, vhost->faults, took);
    pthread_mutex_lock(&vhost->lock); /* for good: the daemon may flush once more */
    return fclose(vhost->log) || driver.wrong ? 1 : 0;
}
