/* Two domains in two threads, which share nothing; and then one domain from two threads, under a lock of the program's own. */
#include "iova.h"

#include <pthread.h>
#include <stdio.h>

enum { ROUNDS = 20000 };

static pthread_mutex_t lock = PTHREAD_MUTEX_INITIALIZER;

struct part {
    iova_domain *domain;
    uint64_t worker, client;
    int is_shared, bad;
};

static void *work(void *argument) {
    struct part *part = (struct part *)argument;
    iova_domain *domain = part->domain;
    for (int round = 0; round < ROUNDS && !part->bad; round++) {
        if (part->is_shared)
            pthread_mutex_lock(&lock);
        iova_range range = iova_alloc(domain, part->worker, part->client, 1 + round % 40, IOVA_NO_LIMIT);
        part->bad = range.refused || iova_unmap(domain, part->worker, part->client, range.lo).refused;
        if (round % 128 == 127)
            part->bad |= iova_end(domain, iova_begin(domain).number, 1) != 0;
        if (part->is_shared)
            pthread_mutex_unlock(&lock);
    }
    return NULL;
}

static int run(struct part *parts) {
    pthread_t threads[2];
    for (int at = 0; at < 2; at++)
        if (pthread_create(&threads[at], NULL, work, &parts[at]))
            return 1;
    for (int at = 0; at < 2; at++)
        pthread_join(threads[at], NULL);
    return parts[0].bad || parts[1].bad;
}

int main(void) {
    struct part parts[2] = {{0}, {0}};
    for (int at = 0; at < 2; at++) {
        iova_domain *domain = iova_domain_new();
        if (domain == NULL || iova_domain_make(domain, 1, 1048575, 1))
            return 2;
        parts[at].domain = domain;
        parts[at].client = iova_open(domain, 0, 0).number;
    }
    int bad = run(parts);
    /* what was one thread's goes to another */
    iova_domain *shared = parts[0].domain;
    iova_domain_free(parts[1].domain);
    bad |= iova_domain_make(shared, 1, 1048575, 2) != 0;
    for (uint64_t at = 0; at < 2; at++) {
        parts[at].domain = shared;
        parts[at].worker = at;
        parts[at].client = iova_open(shared, at, 0).number;
        parts[at].is_shared = 1;
    }
    bad |= run(parts);
    iova_counts counts = iova_counts_of(shared);
    bad |= counts.free + counts.magazine + counts.depot + counts.ring != 1048575;
    iova_domain_free(shared);
    if (bad)
        puts("threads: a call was refused, or frames are lost");
    return bad;
}
