/* Four queues of one device, each driven by a thread of its own, over one domain of libiova.
 *
 *     threads [BUFFERS]
 *
 * Each queue maps so many buffers (100,000) of 1 to 32 pages, up to 90 at a time, and unmaps them in random order, but
 * for one in 64, whose completion the next queue's thread sees: that thread unmaps it. Addresses come from a cache for
 * each thread (iova_shared.h). What a page of the device's address space is mapped to stands in a table, as an IOMMU's
 * does: an entry that is taken when a buffer is mapped would be another's. The rate and the flushes go to standard
 * error.
 */
#include <iova.h>
#include <iova_shared.h>

#include <inttypes.h>
#include <stdatomic.h>
#include <stdio.h>
#include <stdlib.h>
#include <time.h>

enum { QUEUES = 4, DEPTH = 90, PAGES = 32, LAST = 1048575, PASSED_ON = 64 };

/* A box holds one address: 0, or that of a buffer which the next queue is to unmap. */
struct queue {
    iova_shared_cache cache;
    pthread_t thread;
    uint64_t number, dice, mapped, unmapped, wrong;
    int count;
    iova_mapping posted[DEPTH];
    _Atomic uint64_t box;
    _Atomic int is_over;
};

static _Atomic uint32_t table[LAST + 1]; /* by page: the queue that has it mapped, and its pages above 8 bits */
static struct queue queues[QUEUES];
static iova_shared shared;
static uint64_t buffers = 100000;
static _Atomic uint64_t flushes;

/* Here the IOTLB is invalidated, and waited for. */
static int invalidate(void *device) {
    atomic_fetch_add(&flushes, 1);
    return device == NULL;
}

static uint64_t roll(struct queue *queue, uint64_t sides) {
    queue->dice = queue->dice * 6364136223846793005u + 1442695040888963407u;
    return (queue->dice >> 33) % sides;
}

static void enter(struct queue *queue, iova_mapping buffer, uint32_t was, uint32_t is) {
    uint64_t page = buffer.address / IOVA_FRAME_BYTES, end = page + buffer.bytes / IOVA_FRAME_BYTES;
    for (; page < end; page++)
        queue->wrong += atomic_exchange_explicit(&table[page], is, memory_order_relaxed) != was;
}

static void fails(const char *what, uint64_t refused) {
    fprintf(stderr, "threads: %s: %s\n", what, iova_refusal_name(refused));
    exit(1);
}

static void post(struct queue *queue) {
    iova_mapping buffer = iova_shared_map(&queue->cache, (1 + roll(queue, PAGES)) * IOVA_FRAME_BYTES, UINT32_MAX);
    if (buffer.refused)
        fails("map", buffer.refused);
    enter(queue, buffer, 0, (uint32_t)queue->number);
    queue->posted[queue->count++] = buffer;
    queue->mapped++;
}

/* The buffer is the device's no more: first the table, then the address. */
static void complete(struct queue *queue) {
    int at = (int)roll(queue, (uint64_t)queue->count);
    iova_mapping buffer = queue->posted[at];
    queue->posted[at] = queue->posted[--queue->count];
    if (roll(queue, PASSED_ON) == 0 && atomic_load(&queue->box) == 0) {
        atomic_store(&queue->box, buffer.address + buffer.bytes / IOVA_FRAME_BYTES);
        return;
    }
    enter(queue, buffer, (uint32_t)queue->number, 0);
    iova_mapping gone = iova_shared_unmap_bytes(&queue->cache, buffer.address);
    if (gone.refused)
        fails("unmap", gone.refused);
    queue->unmapped++;
}

/* Unmaps what another queue has passed on: its own thread gives the address up at its next call. */
static void complete_for(struct queue *queue, struct queue *other) {
    uint64_t word = atomic_load(&other->box);
    iova_mapping buffer = {0, word - word % IOVA_FRAME_BYTES, word % IOVA_FRAME_BYTES * IOVA_FRAME_BYTES};
    if (!word)
        return;
    enter(queue, buffer, (uint32_t)other->number, 0);
    while (iova_shared_unmap_by_other(&other->cache, buffer.address / IOVA_FRAME_BYTES))
        sched_yield(); /* 255 wait for its thread */
    queue->unmapped++;
    atomic_store(&other->box, 0);
}

static void *drive(void *argument) {
    struct queue *queue = argument, *other = &queues[queue->number % QUEUES];
    while (queue->mapped < buffers || queue->count) {
        int has_room = queue->count < DEPTH && queue->mapped < buffers;
        if (queue->count == 0 || (has_room && roll(queue, 2)))
            post(queue);
        else
            complete(queue);
        complete_for(queue, other);
    }
    /* a thread that is idle leaves nothing in its cache; the next one may still have a buffer of this queue to unmap */
    atomic_store(&queue->is_over, 1);
    while (!atomic_load(&other->is_over) || atomic_load(&queue->box) || atomic_load(&other->box)) {
        complete_for(queue, other);
        iova_shared_give_back(&queue->cache);
        sched_yield();
    }
    return NULL;
}

int main(int count, char **words) {
    struct timespec begin, end;
    uint64_t mapped = 0, unmapped = 0, wrong = 0, refused;
    if (count > 1)
        buffers = strtoull(words[1], NULL, 10);
    if (count > 2 || buffers == 0) {
        fprintf(stderr, "usage: threads [BUFFERS]\n");
        return 2;
    }
    iova_domain *domain = iova_domain_new();
    refused = domain ? iova_domain_make(domain, 1, LAST, QUEUES) : (uint64_t)IOVA_NO_MEMORY;
    if (!refused)
        refused = iova_shared_init(&shared, domain, invalidate, NULL);
    for (uint64_t at = 0; at < QUEUES && !refused; at++) {
        queues[at].number = queues[at].dice = at + 1;
        refused = iova_shared_open(&queues[at].cache, &shared, at, 0);
    }
    if (refused)
        fails("the domain", refused);
    timespec_get(&begin, TIME_UTC);
    for (int at = 0; at < QUEUES; at++)
        if (pthread_create(&queues[at].thread, NULL, drive, &queues[at]))
            fails("a thread", IOVA_NO_MEMORY);
    for (int at = 0; at < QUEUES; at++)
        pthread_join(queues[at].thread, NULL);
    timespec_get(&end, TIME_UTC);
    for (int at = 0; at < QUEUES; at++) {
        mapped += queues[at].mapped;
        unmapped += queues[at].unmapped;
        wrong += queues[at].wrong + iova_shared_counts_of(&queues[at].cache).wrong;
        refused = iova_shared_close(&queues[at].cache);
        if (refused)
            fails("close", refused);
    }
    iova_shared_clear(&shared);
    iova_domain_free(domain);
    printf("%d queues, %" PRIu64 " buffers mapped and %" PRIu64 " unmapped, wrong: %" PRIu64 "\n", QUEUES, mapped,
           unmapped, wrong);
    double seconds = (double)(end.tv_sec - begin.tv_sec) + (double)(end.tv_nsec - begin.tv_nsec) * 1e-9;
    fprintf(stderr, "%.0f buffers a second, %" PRIu64 " flushes\n", (double)mapped / seconds, flushes);
    return wrong != 0;
}
