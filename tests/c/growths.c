/* Each growth is refused in turn, by a malloc and a realloc that count: then the call is refused by IOVA_NO_MEMORY or does without,
 * no frame is lost, the same call succeeds once there is memory, and at the end nothing is left. */
#include "iova.h"
#include "iova_shared.h"
#include "refusing.h"

#include <inttypes.h>
#include <stdio.h>

static long refusals;

static int fails(const char *what, uint64_t refused) {
    printf("growths: growth %ld: %s: %" PRIu64 "\n", refuse_at, what, refused);
    return 1;
}

/* A call again, where it was refused memory: `refused` of what it answers. */
#define AGAIN(answer, call)                                                                                                    \
    do {                                                                                                                       \
        answer = call;                                                                                                         \
        if (answer.refused == IOVA_NO_MEMORY) {                                                                                \
            refusals++;                                                                                                        \
            answer = call;                                                                                                     \
        }                                                                                                                      \
        if (answer.refused)                                                                                                    \
            return fails(#call, answer.refused);                                                                               \
    } while (0)

static int run(iova_domain *domain) {
    enum { LAST = 4095 };
    uint64_t made = iova_domain_make(domain, 1, LAST, 3);
    if (made == IOVA_NO_MEMORY) {
        refusals++;
        if (iova_counts_of(domain).refused != IOVA_NO_DOMAIN)
            return fails("a domain that wasn't made", made);
        made = iova_domain_make(domain, 1, LAST, 3);
    }
    if (made)
        return fails("make", made);
    iova_number client, flush;
    iova_range range, window;
    uint64_t held[60];
    AGAIN(window, iova_reserve(domain, 100, 109));
    for (uint64_t worker = 0; worker < 3; worker++) {
        AGAIN(client, iova_open(domain, worker, worker == 1));
        for (int at = 0; at < 60; at++) {
            AGAIN(range, iova_alloc(domain, worker, client.number, 1 + at % 9, IOVA_NO_LIMIT));
            held[at] = range.lo;
            iova_counts counts = iova_counts_of(domain);
            if (counts.free + counts.reserved + counts.client + counts.magazine + counts.depot + counts.ring != LAST)
                return fails("frames that are lost", counts.free);
        }
        AGAIN(window, iova_reserve(domain, 200 + 20 * worker, 209 + 20 * worker));
        for (int at = 0; at < 60; at += 2)
            AGAIN(range, iova_unmap(domain, worker, client.number, held[at]));
        AGAIN(flush, iova_begin(domain));
        if (iova_end(domain, flush.number, 1))
            return fails("end", flush.number);
        AGAIN(flush, iova_drain(domain, worker, (worker + 1) % 3));
    }
    /* in the room of a domain that there is: where it is refused, that one stays */
    made = iova_domain_make_second(domain, 1, LAST, 2, 8);
    if (made == IOVA_NO_MEMORY) {
        refusals++;
        if (iova_bounds_of(domain).magazine != 128 || iova_counts_of(domain).clients != 3)
            return fails("a domain that stays", made);
        made = iova_domain_make_second(domain, 1, LAST, 2, 8);
    }
    if (made || iova_bounds_of(domain).magazine != 127 || iova_counts_of(domain).clients != 0)
        return fails("make again", made);
    return 0;
}

static int is_whole(iova_domain *domain, iova_cache *cache, uint64_t client) {
    iova_cache_counts counts = iova_cache_counts_of(cache);
    uint64_t ranges = counts.held + counts.waiting;
    for (int order = 0; order < 6; order++)
        ranges += counts.magazines[order];
    return !counts.refused && iova_client_of(domain, client).holdings == ranges;
}

/* The calls of a cache that may be refused memory, and how often each was. */
enum { MAKE, REFILL, ALLOC, MAP, ALLOC_BY, APART, MAKE_ROOM, KEEP, SHARED_OPEN, SHARED_ALLOC, SHARED_MAP, CALLS };
static const char *const names[CALLS] = {"make", "refill", "alloc", "map", "alloc_by", "apart",
                                    "make_room", "keep", "open of a thread", "alloc of a thread", "map of a thread"};
static long refused_of[CALLS];

#define AGAIN_OF(which, answer, call)                                                                                          \
    do {                                                                                                                       \
        long before_it = refusals;                                                                                             \
        AGAIN(answer, call);                                                                                                   \
        refused_of[which] += refusals - before_it;                                                                             \
    } while (0)

/* A cache of the domain, whose user takes ranges by one of its calls and gives all of them up. */
static int run_cache(iova_domain *domain, int by) {
    enum { HELD = 300 };
    iova_cache cache;
    iova_number client, count;
    iova_range range;
    iova_mapping mapping;
    uint64_t held[HELD];
    iova_cache_init(&cache);
    uint64_t clients = iova_counts_of(domain).clients;
    AGAIN_OF(MAKE, client, iova_cache_make(domain, &cache, 0, 0));
    if (iova_counts_of(domain).clients != clients + 1)
        return fails("a client of a cache that wasn't made", iova_counts_of(domain).clients);
    for (int at = 0; at < HELD; at++) {
        int order = at % 4;
        uint64_t frames = 1u << order;
        if (by != ALLOC_BY && iova_cache_counts_of(&cache).magazines[order] == 0)
            AGAIN_OF(REFILL, count, iova_cache_refill(domain, &cache, frames, IOVA_NO_LIMIT, 8));
        if (by == MAP) {
            AGAIN_OF(MAP, mapping, iova_cache_map(&cache, 4096 * frames, UINT64_MAX));
            held[at] = mapping.address / 4096;
        } else {
            if (by == ALLOC)
                AGAIN_OF(ALLOC, range, iova_cache_alloc(&cache, frames, IOVA_NO_LIMIT));
            else
                AGAIN_OF(ALLOC_BY, range, iova_cache_alloc_by(domain, &cache, frames, IOVA_NO_LIMIT));
            held[at] = range.lo;
        }
        if (!is_whole(domain, &cache, client.number))
            return fails("ranges that are lost", (uint64_t)at);
    }
    long before = growths;
    for (int at = 0; at < HELD; at++) {
        range = iova_cache_unmap(&cache, held[at], iova_flushes_of(domain).start);
        if (range.refused == IOVA_RING_FULL) {
            iova_end(domain, iova_begin(domain).number, 1);
            count = iova_cache_settle(&cache, iova_flushes_of(domain).newest);
            range = iova_cache_unmap(&cache, held[at], iova_flushes_of(domain).start);
        }
        if (range.refused || range.lo != held[at])
            return fails("unmap", range.refused);
    }
    count = iova_cache_spill(domain, &cache, 0, 64);
    if (count.refused || growths != before || !is_whole(domain, &cache, client.number))
        return fails("a call that takes no memory", count.refused);
    count = iova_cache_end(domain, &cache);
    if (count.refused)
        return fails("end", count.refused);
    while (iova_client_of(domain, client.number).refused == 0) {
        range = iova_close_one(domain, 0, client.number);
        if (range.refused == IOVA_RING_FULL) {
            iova_end(domain, iova_begin(domain).number, 1);
            iova_drain(domain, 0, 0);
        } else if (range.refused)
            return fails("close", range.refused);
    }
    return 0;
}

/* A call that answers a refusal alone, again where it was refused memory. */
#define AGAIN_ALONE(which, call)                                                                                               \
    do {                                                                                                                       \
        uint64_t refused_first = call;                                                                                         \
        if (refused_first == IOVA_NO_MEMORY) {                                                                                 \
            refusals++;                                                                                                        \
            refused_of[which]++;                                                                                               \
            refused_first = call;                                                                                              \
        }                                                                                                                      \
        if (refused_first)                                                                                                     \
            return fails(#call, refused_first);                                                                                \
    } while (0)

/* A cache whose domain is elsewhere, which makes room for each range first, or not. */
static int run_apart(int by) {
    enum { HELD = 300 };
    iova_cache cache;
    iova_cache_init(&cache);
    AGAIN_ALONE(APART, iova_cache_apart(&cache, 0));
    for (uint64_t at = 0; at < HELD; at++) {
        if (by == MAKE_ROOM) {
            AGAIN_ALONE(MAKE_ROOM, iova_cache_make_room(&cache));
            long before = growths;
            if (iova_cache_keep(&cache, 64 * at, 40) || growths != before)
                return fails("a range that there is room for", at);
        } else
            AGAIN_ALONE(KEEP, iova_cache_keep(&cache, 64 * at, 40));
        if (iova_cache_counts_of(&cache).held != at + 1)
            return fails("what is kept", iova_cache_counts_of(&cache).held);
    }
    iova_cache_clear(&cache);
    return 0;
}

static int ends_well(void *with) { return with != NULL; }

/* A thread's cache of a shared domain, whose user takes ranges by one of its calls and gives all of them up. */
static int run_shared(iova_domain *domain, int by) {
    enum { HELD = 300 };
    static iova_shared shared;
    static iova_shared_cache cache;
    uint64_t held[HELD], clients = iova_counts_of(domain).clients, refused;
    iova_range range;
    iova_mapping mapping;
    iova_shared_counts counts;
    if (iova_shared_init(&shared, domain, ends_well, domain))
        return fails("shared_init", 0);
    refused = iova_shared_open(&cache, &shared, 0, 0);
    if (refused == IOVA_NO_MEMORY) {
        refusals++;
        refused_of[SHARED_OPEN]++;
        if (shared.caches || iova_counts_of(domain).clients != clients)
            return fails("a thread's cache that wasn't opened", clients);
        refused = iova_shared_open(&cache, &shared, 0, 0);
    }
    if (refused || shared.caches != &cache || iova_counts_of(domain).clients != clients + 1)
        return fails("shared_open", refused);
    for (int at = 0; at < HELD; at++) {
        uint64_t frames = at % 10 ? 1u << at % 4 : 33;
        if (by == SHARED_ALLOC) {
            AGAIN_OF(SHARED_ALLOC, range, iova_shared_alloc(&cache, frames, IOVA_NO_LIMIT));
            held[at] = range.lo;
        } else {
            AGAIN_OF(SHARED_MAP, mapping, iova_shared_map(&cache, 4096 * frames, UINT64_MAX));
            held[at] = mapping.address / 4096;
        }
        counts = iova_shared_counts_of(&cache);
        if (counts.held != (uint64_t)at + 1 || !is_whole(domain, &cache.cache, cache.client))
            return fails("ranges of a thread that are lost", (uint64_t)at);
    }
    for (int at = 0; at < HELD; at++) {
        range = iova_shared_unmap(&cache, held[at]);
        if (range.refused || range.lo != held[at] || !is_whole(domain, &cache.cache, cache.client))
            return fails("shared_unmap", range.refused);
    }
    if (iova_shared_flush(&shared) || iova_shared_give_back(&cache) || !is_whole(domain, &cache.cache, cache.client))
        return fails("shared_give_back", 0);
    refused = iova_shared_close(&cache);
    if (refused || shared.caches || iova_counts_of(domain).clients != clients)
        return fails("shared_close", refused);
    iova_shared_clear(&shared);
    return 0;
}

int main(void) {
    for (refuse_at = 1;; refuse_at++) {
        growths = 0;
        iova_domain *domain = iova_domain_new();
        if (domain == NULL)
            continue;
        int failed = run(domain) || run_cache(domain, ALLOC) || run_cache(domain, MAP) || run_cache(domain, ALLOC_BY) || run_apart(MAKE_ROOM) ||
                     run_apart(KEEP) || run_shared(domain, SHARED_ALLOC) || run_shared(domain, SHARED_MAP);
        iova_domain_free(domain);
        if (failed)
            return 1;
        if (blocks) {
            printf("growths: growth %ld: %ld blocks are left\n", refuse_at, blocks);
            return 1;
        }
        if (growths < refuse_at)
            break;
    }
    for (int call = 0; call < CALLS; call++)
        if (refused_of[call] == 0) {
            printf("growths: no growth was refused in %s of a cache\n", names[call]);
            return 1;
        }
    if (refusals < 20) {
        printf("growths: only %ld refusals\n", refusals);
        return 1;
    }
    return 0;
}
