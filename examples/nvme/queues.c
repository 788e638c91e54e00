/* A disk behind the broker (../vfio/broker.c): each driver has a queue pair of its own. The broker alone has the
 * controller's registers and its admin queue. Drivers' requests:
 *
 *     queue CLIENT FIRST ENTRIES     over memory that is mapped from frame FIRST on, and all 0:
 *                                    the two rings (nvme_queue_bytes)            queue MOST BLOCK BLOCKS
 *     ring CLIENT TAIL HEAD          how far commands were written, and how far
 *                                    completions were taken                      rung
 *     delete CLIENT                                                              deleted
 *
 * MOST are the bytes of a command at most, BLOCK those of a logical block, and BLOCKS says how many the disk has. The
 * doorbells of all queues share a page, so it is the broker that rings: a driver that had them mapped could ring for
 * another. What a driver writes into its ring nobody looks at: it may read and write every block of the disk, and name
 * every address that is mapped for the disk. So drivers are trusted not to.
 *
 * A driver that is gone can't take its commands back. Its queue is deleted: then the controller reaches nothing of it
 * any more, and its memory may be unmapped and its addresses given to others.
 */
#include "../vfio/broker.h"
#include "nvme.h"

enum { QUEUES = 15, OWN = 3 /* frames of the admin queue and a page of answers */ };

struct pair {
    uint64_t client, first; /* first is 0 where there is none */
    struct nvme_queue queue;
};

static struct {
    struct nvme nvme;
    struct pair pairs[QUEUES];
    uint8_t *own;
    uint64_t queues, deleted, in_flight, least; /* deleted with commands in flight: how many of these, and the least */
} disk = {.least = UINT64_MAX};

/* The admin queue lies behind the daemon's last frame, where no driver is given anything. */
int work_begin(struct broker *broker) {
    uint64_t address = (broker->last + 1) * FRAME, bytes = nvme_queue_bytes(NVME_ADMIN_ENTRIES) + NVME_PAGE;
    void *own = mmap(NULL, OWN * FRAME, PROT_READ | PROT_WRITE, MAP_PRIVATE | MAP_ANONYMOUS, -1, 0);
    if (own == MAP_FAILED || bytes > OWN * FRAME)
        return device_fails("memory");
    disk.own = own;
    if (device_map(&broker->device, own, address, OWN * FRAME))
        return device_fails("map");
    return nvme_start(&disk.nvme, broker->device.registers, own, address) || nvme_ask_queues(&disk.nvme, QUEUES);
}

static struct pair *find(uint64_t client) {
    for (struct pair *pair = disk.pairs; pair < disk.pairs + QUEUES; pair++)
        if (pair->first && pair->client == client)
            return pair;
    return NULL;
}

/* The rings stay mapped as long as the queue is there. */
int work_wants(struct broker *broker, const struct mapping *mapping) {
    const struct pair *pair = find(mapping->client);
    (void)broker;
    return pair && pair->first >= mapping->first && pair->first < mapping->first + mapping->frames;
}

int work_uses(struct broker *broker, const struct mapping *mapping) {
    (void)broker, (void)mapping;
    return 0;
}

static const char *create(struct broker *broker, uint64_t client, uint64_t first, uint64_t entries) {
    static char text[96];
    struct pair *pair = disk.pairs;
    if (client >= CLIENTS || broker->gone[client] || entries < 2 || entries > disk.nvme.entries || find(client))
        return "no queue";
    struct mapping *mapping = broker_find(broker, client, first * FRAME, nvme_queue_bytes(entries));
    while (pair < disk.pairs + QUEUES && pair->first)
        pair++;
    if (!mapping || pair == disk.pairs + QUEUES)
        return mapping ? "no queue" : "no mapping";
    uint16_t number = (uint16_t)(pair - disk.pairs + 1);
    uint8_t *memory = mapping->memory + (first - mapping->first) * FRAME;
    pair->queue = nvme_queue_over(&disk.nvme, number, (uint16_t)entries, memory);
    if (nvme_create(&disk.nvme, &pair->queue, first * FRAME))
        return "no queue";
    pair->client = client;
    pair->first = first;
    disk.queues++;
    snprintf(text, sizeof text, "queue %" PRIu64 " %" PRIu64 " %" PRIu64, disk.nvme.most, disk.nvme.block,
             disk.nvme.blocks);
    return text;
}

static const char *ring(uint64_t client, uint16_t tail, uint16_t head) {
    struct pair *pair = find(client);
    if (!pair || tail >= pair->queue.entries || head >= pair->queue.entries)
        return "no queue";
    struct nvme_queue *queue = &pair->queue;
    queue->phase ^= head < queue->head;
    if (head != queue->head) {
        queue->head = head;
        nvme_taken(queue);
    }
    if (tail != queue->tail) {
        queue->tail = tail;
        nvme_ring(queue);
    }
    return "rung";
}

/* How many commands have no completion yet. */
static uint64_t in_flight(struct nvme_queue queue) {
    struct nvme_completion taken;
    uint64_t count = (uint64_t)(queue.tail + queue.entries - queue.head) % queue.entries;
    while (count > 0 && nvme_take(&queue, &taken))
        count--;
    return count;
}

static int delete(struct pair *pair) {
    if (nvme_delete(&disk.nvme, pair->queue.number))
        return 1;
    pair->first = 0;
    return 0;
}

const char *work_meet(struct broker *broker, struct connection *connection, const char *text) {
    uint64_t client, first, entries;
    uint16_t tail, head;
    (void)connection;
    if (sscanf(text, "queue %" SCNu64 " %" SCNu64 " %" SCNu64, &client, &first, &entries) == 3)
        return create(broker, client, first, entries);
    if (sscanf(text, "ring %" SCNu64 " %" SCNu16 " %" SCNu16, &client, &tail, &head) == 3)
        return ring(client, tail, head);
    if (sscanf(text, "delete %" SCNu64, &client) == 1)
        return find(client) && !delete(find(client)) ? "deleted" : "no queue";
    return "no request";
}

/* The controller answers once it has ended or given up all that was in the queue. */
int work_stop(struct broker *broker, uint64_t client) {
    (void)broker;
    for (struct pair *pair = disk.pairs; pair < disk.pairs + QUEUES; pair++) {
        if (!pair->first || (client != NO_CLIENT && pair->client != client))
            continue;
        uint64_t count = in_flight(pair->queue);
        if (delete(pair))
            return -1;
        disk.deleted++;
        disk.in_flight += count;
        disk.least = count < disk.least ? count : disk.least;
    }
    return 0;
}

int work_turn(struct broker *broker) {
    (void)broker;
    return 0;
}

void work_leave(struct broker *broker, const struct connection *connection) { (void)broker, (void)connection; }

void work_end(struct broker *broker) {
    nvme_enable(&disk.nvme, 0);
    device_unmap(&broker->device, (broker->last + 1) * FRAME, OWN * FRAME);
    munmap(disk.own, OWN * FRAME);
}

void work_print(void) {
    printf("queues %" PRIu64 " deleted %" PRIu64 " in_flight %" PRIu64 " least %" PRIu64 "\n", disk.queues,
           disk.deleted, disk.in_flight, disk.deleted ? disk.least : 0);
}
