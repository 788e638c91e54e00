/* Caches at their edges, in one thread: those of iova.h over a domain and apart, and those of iova_shared.h, whose
 * domain is full, whose ledger is, whose flushes fail and overlap, and whose ranges another thread gives up. */
#define _GNU_SOURCE
#include "iova_shared.h"
#include "shadow.h"

static iova_domain *domain;
static iova_cache one;
static uint64_t lo[5000];

/* Whether ranges are asked for and given up by the calls that answer in two registers. */
static int packed;

static iova_range unpacked(iova_packed_range answer) {
    iova_range range = {answer.len ? 0 : answer.lo, answer.len ? answer.lo : 0, answer.len};
    return range;
}

static iova_range alloc(iova_cache *cache, uint64_t frames, uint64_t limit) {
    return packed ? unpacked(iova_cache_alloc_packed(cache, frames, limit)) : iova_cache_alloc(cache, frames, limit);
}

static iova_range unmap(iova_cache *cache, uint64_t first, uint64_t start) {
    return packed ? unpacked(iova_cache_unmap_packed(cache, first, start)) : iova_cache_unmap(cache, first, start);
}

static void make(uint64_t last, uint64_t workers) {
    domain = iova_domain_new();
    MUST(domain && !iova_domain_make(domain, 1, last, workers));
}

static uint64_t cached(const iova_cache_counts *counts) {
    uint64_t sum = 0;
    for (int order = 0; order < 6; order++)
        sum += counts->magazines[order];
    return sum;
}

/* What the domain holds of a client is what its cache has at its three places. */
static void want_counts(uint64_t client, uint64_t held, uint64_t waiting, uint64_t in_magazines) {
    iova_cache_counts counts = iova_cache_counts_of(&one);
    MUST(!counts.refused && counts.held == held && counts.waiting == waiting && cached(&counts) == in_magazines);
    MUST(iova_client_of(domain, client).holdings == held + waiting + in_magazines);
}

static uint64_t flushed(int went_well) {
    uint64_t number = iova_begin(domain).number;
    MUST(number && !iova_end(domain, number, (uint64_t)went_well));
    return iova_flushes_of(domain).newest;
}

static void nothing_without_a_cache(void) {
    make(1000, 1);
    iova_cache_init(&one);
    MUST(alloc(&one, 1, IOVA_NO_LIMIT).refused == IOVA_NO_CACHE);
    MUST(unmap(&one, 1, 0).refused == IOVA_NO_CACHE);
    MUST(iova_cache_map(&one, 1, IOVA_NO_MASK).refused == IOVA_NO_CACHE);
    MUST(iova_cache_unmap_bytes(&one, 4096, 0).refused == IOVA_NO_CACHE);
    MUST(iova_cache_settle(&one, 1).refused == IOVA_NO_CACHE);
    MUST(iova_cache_refill(domain, &one, 1, IOVA_NO_LIMIT, 1).refused == IOVA_NO_CACHE);
    MUST(iova_cache_spill(domain, &one, 0, 1).refused == IOVA_NO_CACHE);
    MUST(iova_cache_alloc_by(domain, &one, 1, IOVA_NO_LIMIT).refused == IOVA_NO_CACHE);
    MUST(iova_cache_unmap_by(domain, &one, 1).refused == IOVA_NO_CACHE);
    MUST(iova_cache_end(domain, &one).refused == IOVA_NO_CACHE);
    MUST(iova_cache_counts_of(&one).refused == IOVA_NO_CACHE);
    MUST(iova_cache_put(&one, 1, 1) == IOVA_NO_CACHE && iova_cache_keep(&one, 1, 1) == IOVA_NO_CACHE);
    MUST(iova_cache_take(&one, 0).refused == IOVA_NO_CACHE && iova_cache_release(&one, 1).refused == IOVA_NO_CACHE);
    MUST(iova_cache_any(&one).refused == IOVA_NO_CACHE && iova_cache_make_room(&one) == IOVA_NO_CACHE);
    MUST(iova_cache_make(domain, &one, 1, 0).refused == IOVA_NO_WORKER);
    MUST(alloc(&one, 1, IOVA_NO_LIMIT).refused == IOVA_NO_CACHE);
    iova_cache_clear(&one);
    MUST(iova_cache_size() <= sizeof one);
    iova_domain_clear(domain);
    MUST(iova_cache_make(domain, &one, 0, 0).refused == IOVA_NO_DOMAIN);
    iova_domain_free(domain);
}

static void goes_round(void) {
    make(1 << 20, 1);
    iova_cache_init(&one);
    uint64_t client = iova_cache_make(domain, &one, 0, 0).number;
    MUST(client == 1 && alloc(&one, 3, IOVA_NO_LIMIT).refused == IOVA_DRY);
    MUST(alloc(&one, 0, IOVA_NO_LIMIT).refused == IOVA_NO_ORDER);
    MUST(alloc(&one, 33, IOVA_NO_LIMIT).refused == IOVA_NO_ORDER);
    MUST(iova_cache_refill(domain, &one, 0, IOVA_NO_LIMIT, 1).refused == IOVA_ZERO);
    MUST(iova_cache_refill(domain, &one, 33, IOVA_NO_LIMIT, 1).refused == IOVA_TOO_BIG);
    MUST(iova_cache_spill(domain, &one, 6, 1).refused == IOVA_NO_ORDER);
    MUST(iova_cache_refill(domain, &one, 3, IOVA_NO_LIMIT, 0).number == 0);
    MUST(iova_cache_refill(domain, &one, 3, IOVA_NO_LIMIT, 1000).number == 64);
    want_counts(client, 0, 0, 64);
    MUST(alloc(&one, 3, 9000).refused == IOVA_MISS);
    iova_range first = alloc(&one, 3, IOVA_NO_LIMIT), second = alloc(&one, 4, IOVA_NO_LIMIT);
    MUST(!first.refused && first.len == 4 && second.len == 4 && first.lo != second.lo);
    MUST(unmap(&one, first.lo + 1, 0).refused == IOVA_NOT_HELD);
    MUST(unmap(&one, first.lo, 0).lo == first.lo);
    MUST(unmap(&one, first.lo, 0).refused == IOVA_NOT_HELD);
    want_counts(client, 1, 1, 62);
    /* a flush that failed covers nothing, and one that begins later does */
    MUST(flushed(0) == 0 && iova_cache_settle(&one, 0).number == 0);
    MUST(unmap(&one, second.lo, 1).lo == second.lo);
    MUST(iova_cache_settle(&one, 1).number == 1 && iova_cache_settle(&one, 1).number == 0);
    MUST(flushed(1) == 2 && iova_cache_settle(&one, 2).number == 1);
    MUST(alloc(&one, 4, IOVA_NO_LIMIT).lo == second.lo);
    MUST(alloc(&one, 4, IOVA_NO_LIMIT).lo == first.lo);
    /* in bytes */
    iova_mapping buffer = iova_cache_map(&one, 16383, IOVA_NO_MASK);
    MUST(!buffer.refused && buffer.bytes == 16384 && buffer.address % 16384 == 0);
    MUST(iova_cache_map(&one, 16383, 8190).refused == IOVA_MISS && iova_cache_map(&one, 1, 8190).refused == IOVA_DRY);
    MUST(iova_cache_map(&one, 0, IOVA_NO_MASK).refused == IOVA_NO_ORDER);
    MUST(iova_cache_map(&one, UINT64_MAX, IOVA_NO_MASK).refused == IOVA_NO_ORDER);
    MUST(iova_cache_unmap_bytes(&one, buffer.address + 4096, 2).refused == IOVA_NOT_HELD);
    MUST(iova_cache_unmap_bytes(&one, buffer.address + 4095, 2).bytes == 16384);
    /* what no magazine has goes by the domain */
    iova_range large = iova_cache_alloc_by(domain, &one, 33, IOVA_NO_LIMIT);
    MUST(large.len == 33 && unmap(&one, large.lo, 2).refused == IOVA_NO_ORDER);
    MUST(iova_cache_unmap_by(domain, &one, large.lo + 1).refused == IOVA_NOT_HELD);
    MUST(iova_cache_alloc_by(domain, &one, 0, IOVA_NO_LIMIT).refused == IOVA_ZERO);
    MUST(iova_cache_alloc_by(domain, &one, 1048577, IOVA_NO_LIMIT).refused == IOVA_TOO_BIG);
    MUST(iova_cache_alloc_by(domain, &one, 2, 1).refused == IOVA_NO_SPACE);
    want_counts(client, 3, 1, 61);
    MUST(iova_cache_unmap_by(domain, &one, large.lo).lo == large.lo);
    MUST(iova_cache_spill(domain, &one, 2, 5).number == 5 && iova_cache_spill(domain, &one, 3, 5).number == 0);
    want_counts(client, 2, 1, 56);
    MUST(iova_cache_spill(domain, &one, 2, 1000).number == 56);
    want_counts(client, 2, 1, 0);
    MUST(iova_cache_end(domain, &one).number == 3);
    MUST(alloc(&one, 1, IOVA_NO_LIMIT).refused == IOVA_NO_CACHE);
    MUST(iova_client_of(domain, client).closing == 1);
    while (iova_close_one(domain, 0, client).len)
        ;
    MUST(iova_client_of(domain, client).refused == IOVA_NO_CLIENT);
    iova_domain_free(domain);
}

static void is_full(void) {
    make(1 << 20, 1);
    iova_cache_init(&one);
    uint64_t client = iova_cache_make(domain, &one, 0, 0).number;
    for (int k = 0; k < 4; k++)
        MUST(iova_cache_refill(domain, &one, 1, IOVA_NO_LIMIT, 64).number == 64);
    MUST(iova_cache_refill(domain, &one, 1, IOVA_NO_LIMIT, 64).number == 0);
    for (int k = 0; k < 256; k++)
        MUST((lo[k] = alloc(&one, 1, IOVA_NO_LIMIT).lo) != 0);
    for (int k = 0; k < 255; k++)
        MUST(!unmap(&one, lo[k], 0).refused);
    MUST(unmap(&one, lo[255], 0).refused == IOVA_RING_FULL);
    want_counts(client, 1, 255, 0);
    MUST(iova_cache_refill(domain, &one, 1, IOVA_NO_LIMIT, 64).number == 64);
    MUST(iova_cache_settle(&one, flushed(1)).number == 192); /* the oldest stay where there is no room */
    want_counts(client, 1, 63, 256);
    MUST(iova_cache_settle(&one, 1).number == 0 && iova_cache_spill(domain, &one, 0, 1).number == 1);
    MUST(iova_cache_settle(&one, 1).number == 1);
    MUST(iova_cache_end(domain, &one).number == 1 + 62 + 256);
    /* a small domain: a refill is as long as there is space */
    iova_domain_free(domain);
    make(10, 1);
    client = iova_cache_make(domain, &one, 0, 0).number;
    MUST(iova_cache_refill(domain, &one, 1, IOVA_NO_LIMIT, 64).number == 10);
    MUST(iova_cache_refill(domain, &one, 1, IOVA_NO_LIMIT, 64).refused == IOVA_NO_SPACE);
    MUST(iova_cache_end(domain, &one).number == 10);
    iova_domain_free(domain);
}

static void is_sac(void) {
    make((1 << 20) + 4095, 1);
    iova_cache_init(&one);
    iova_cache_make(domain, &one, 0, 1);
    MUST(iova_cache_refill(domain, &one, 1, IOVA_NO_LIMIT, 1).number == 1);
    MUST(alloc(&one, 1, IOVA_NO_LIMIT).lo == (1 << 20) - 1);
    MUST(!iova_cache_put(&one, 1 << 20, 1) && alloc(&one, 1, IOVA_NO_LIMIT).refused == IOVA_MISS);
    iova_cache_clear(&one);
    iova_domain_free(domain);
}

static void is_apart(void) {
    make(1000, 1);
    iova_cache_init(&one);
    MUST(!iova_cache_apart(&one, 0));
    MUST(iova_cache_refill(domain, &one, 1, IOVA_NO_LIMIT, 1).refused == IOVA_NO_CLIENT);
    MUST(iova_cache_alloc_by(domain, &one, 1, IOVA_NO_LIMIT).refused == IOVA_NO_CLIENT);
    MUST(iova_cache_any(&one).len == 0 && iova_cache_take(&one, 0).refused == IOVA_DRY);
    MUST(iova_cache_take(&one, 6).refused == IOVA_NO_ORDER && iova_cache_put(&one, 1, 3) == IOVA_NO_ORDER);
    MUST(iova_cache_put(&one, UINT64_C(1) << 40, 1) == IOVA_BAD_WINDOW);
    MUST(iova_cache_keep(&one, UINT64_C(1) << 40, 1) == IOVA_BAD_WINDOW);
    MUST(iova_cache_keep(&one, 1, 0) == IOVA_BAD_WINDOW && iova_cache_keep(&one, 1, 1048577) == IOVA_BAD_WINDOW);
    for (uint64_t k = 0; k < 256; k++)
        MUST(!iova_cache_put(&one, 8 * k, 8));
    MUST(iova_cache_put(&one, 8 * 256, 8) == IOVA_FULL && iova_cache_take(&one, 3).lo == 8 * 255);
    MUST(alloc(&one, 5, IOVA_NO_LIMIT).lo == 8 * 254);
    MUST(!iova_cache_keep(&one, 4000, 1048576) && unmap(&one, 4000, 0).refused == IOVA_NO_ORDER);
    MUST(iova_cache_release(&one, 4001).refused == IOVA_NOT_HELD && iova_cache_release(&one, 4000).len == 1048576);
    MUST(iova_cache_any(&one).lo == 8 * 254 && iova_cache_any(&one).len == 0);
    MUST(!iova_cache_keep(&one, 4096, 4) && unmap(&one, 4096, 0).len == 4 && iova_cache_any(&one).len == 0);
    iova_cache_counts counts = iova_cache_counts_of(&one);
    MUST(counts.held == 0 && counts.waiting == 1 && counts.magazines[3] == 254 && cached(&counts) == 254);
    for (uint64_t k = 254; k-- > 0;)
        MUST(iova_cache_take(&one, 3).lo == 8 * k);
    MUST(iova_cache_take(&one, 3).refused == IOVA_DRY);
    /* a table that grows finds what it had */
    for (uint64_t k = 0; k < 5000; k++)
        MUST(!iova_cache_keep(&one, k * 7919 % 65536 * 64, k + 33));
    MUST(iova_cache_counts_of(&one).held == 5000);
    for (uint64_t k = 5000; k-- > 0;)
        MUST(iova_cache_release(&one, k * 7919 % 65536 * 64).len == k + 33);
    iova_cache_clear(&one);
    iova_domain_free(domain);
}

/* The caches of threads. */

static int works = 1, calls;
static iova_shared shared;
static iova_shared_cache a, b;

static int invalidate(void *with) {
    MUST(with == &works);
    calls++;
    return works;
}

static void share(uint64_t last, uint64_t workers) {
    make(last, workers);
    works = 1, calls = 0;
    MUST(!iova_shared_init(&shared, domain, invalidate, &works));
}

static void share_no_more(void) {
    MUST(iova_totals_of(domain).count == 0 && iova_counts_of(domain).clients == 0);
    iova_shared_clear(&shared);
    iova_domain_free(domain);
}

static void reclaims(void) {
    share(300, 2);
    MUST(iova_shared_open(&b, &shared, 2, 0) == IOVA_NO_WORKER);
    MUST(!iova_shared_open(&a, &shared, 0, 0) && !iova_shared_open(&b, &shared, 1, 0));
    for (int k = 0; k < 300; k++)
        MUST(!iova_shared_alloc(&a, 1, IOVA_NO_LIMIT).refused);
    MUST(iova_shared_alloc(&a, 1, IOVA_NO_LIMIT).refused == IOVA_NO_SPACE);
    for (uint64_t f = 1; f <= 300; f++)
        MUST(!iova_shared_unmap(&a, f).refused);
    MUST(calls > 0 && iova_shared_counts_of(&a).cached > 0);
    MUST(iova_shared_alloc(&b, 1, IOVA_NO_LIMIT).refused == IOVA_NO_SPACE); /* a has all, and is told */
    MUST(!iova_shared_alloc(&a, 1, IOVA_NO_LIMIT).refused);                 /* at its next call it gives back */
    MUST(!iova_shared_alloc(&b, 1, IOVA_NO_LIMIT).refused && !iova_shared_alloc(&b, 64, IOVA_NO_LIMIT).refused);
    MUST(!iova_shared_close(&a) && !iova_shared_close(&b));
    share_no_more();
}

static void fills_the_ledger(void) {
    share(1 << 20, 1);
    MUST(!iova_shared_open(&a, &shared, 0, 0));
    for (int order = 0; order < 6; order++) { /* magazines of all orders are filled first */
        for (int k = 0; k < 100; k++)
            MUST((lo[k] = iova_shared_alloc(&a, 1u << order, IOVA_NO_LIMIT).lo) != 0);
        for (int k = 0; k < 100; k++)
            MUST(!iova_shared_unmap(&a, lo[k]).refused);
    }
    for (int k = 0; k < 4096; k++) {
        iova_range range = iova_shared_alloc(&a, 3, IOVA_NO_LIMIT);
        MUST(!range.refused && range.len == 4);
        lo[k] = range.lo;
    }
    MUST(iova_shared_alloc(&a, 3, IOVA_NO_LIMIT).refused == IOVA_HOLDINGS_FULL);
    calls = 0;
    for (int k = 0; k < 4096; k++)
        MUST(!iova_shared_unmap(&a, lo[k]).refused && iova_shared_unmap(&a, lo[k]).refused == IOVA_NOT_HELD);
    MUST(calls < 100);
    MUST(!iova_shared_close(&a));
    share_no_more();
}

static void keeps_limits(void) {
    share((1 << 21) - 1, 1);
    MUST(!iova_shared_open(&a, &shared, 0, 1) && !iova_shared_open(&b, &shared, 0, 0));
    MUST(iova_shared_alloc(&b, 1, IOVA_NO_LIMIT).lo > 1 << 20 && iova_shared_alloc(&a, 1, IOVA_NO_LIMIT).lo < 1 << 20);
    MUST(iova_shared_alloc(&b, 1, 5000).lo == 5000 && iova_shared_alloc(&b, 16, 15).refused == IOVA_NO_SPACE);
    MUST(iova_shared_alloc(&b, 0, 5000).refused == IOVA_ZERO);
    MUST(iova_shared_alloc(&b, (1 << 20) + 1, IOVA_NO_LIMIT).refused == IOVA_TOO_BIG);
    iova_range large = iova_shared_alloc(&b, 33, IOVA_NO_LIMIT);
    MUST(!large.refused && large.len == 33 && iova_shared_unmap(&b, large.lo + 1).refused == IOVA_NOT_HELD);
    MUST(!iova_shared_unmap(&b, large.lo).refused);
    for (int k = 0; k < 600; k++) /* those of more than 32 frames wait in the domain's ring */
        MUST((lo[k] = iova_shared_alloc(&b, 40, IOVA_NO_LIMIT).lo) != 0);
    for (int k = 0; k < 600; k++)
        MUST(iova_shared_unmap(&b, lo[k]).len == 40);
    MUST(iova_shared_map(&b, 0, IOVA_NO_MASK).refused == IOVA_ZERO);
    MUST(iova_shared_map(&b, UINT64_MAX, IOVA_NO_MASK).refused == IOVA_TOO_BIG);
    MUST(iova_shared_map(&b, 1, 8190).refused == IOVA_NO_SPACE);
    iova_mapping buffer = iova_shared_map(&b, 10000, UINT32_MAX);
    MUST(!buffer.refused && buffer.bytes == 16384 && buffer.address + buffer.bytes - 1 <= UINT32_MAX);
    MUST(iova_shared_unmap_bytes(&b, buffer.address + 4096).refused == IOVA_NOT_HELD);
    MUST(iova_shared_unmap_bytes(&b, buffer.address).bytes == 16384);
    /* above 4 GiB only where there is no place below: 1 GiB is given below, and then none is left there */
    MUST(iova_shared_alloc(&a, 1 << 18, IOVA_NO_LIMIT).lo < 1 << 20);
    for (uint64_t frames = 1 << 18; frames > 0; frames /= 2)
        while (!iova_shared_alloc(&b, frames, (1 << 20) - 1).refused && iova_shared_counts_of(&b).held < 2000)
            ;
    MUST(iova_shared_alloc(&a, 16, IOVA_NO_LIMIT).lo >= 1 << 20);
    MUST(!iova_shared_close(&a) && !iova_shared_close(&b));
    share_no_more();
}

static void fails(void) {
    share(1 << 20, 1);
    MUST(!iova_shared_open(&a, &shared, 0, 0));
    for (int k = 0; k < 256; k++)
        lo[k] = iova_shared_alloc(&a, 1, IOVA_NO_LIMIT).lo;
    works = 0;
    for (int k = 0; k < 255; k++)
        MUST(!iova_shared_unmap(&a, lo[k]).refused);
    MUST(iova_shared_unmap(&a, lo[255]).refused == IOVA_RING_FULL && iova_shared_counts_of(&a).held == 1);
    MUST(iova_shared_flush(&shared) == IOVA_SINK_FAULT);
    works = 1;
    MUST(!iova_shared_unmap(&a, lo[255]).refused && iova_shared_counts_of(&a).waiting == 1);
    works = 0;
    for (int k = 0; k < 64; k++)
        MUST(!iova_shared_alloc(&a, 8, IOVA_NO_LIMIT).refused);
    MUST(iova_shared_close(&a) == IOVA_RING_FULL); /* more than 255 ranges, and no flush helps */
    MUST(iova_shared_alloc(&a, 1, IOVA_NO_LIMIT).refused == IOVA_CLOSING);
    MUST(iova_shared_unmap(&a, 1).refused == IOVA_CLOSING && iova_shared_give_back(&a) == IOVA_CLOSING);
    MUST(iova_shared_counts_of(&a).refused == IOVA_CLOSING);
    works = 1;
    MUST(!iova_shared_close(&a));
    share_no_more();
}

/* A slow flush is in flight; a later one ends well: `newest` is past the number at once, `finish` isn't. */
static void overlaps(void) {
    share(1 << 20, 1);
    MUST(!iova_shared_open(&a, &shared, 0, 0));
    uint64_t slow = iova_begin(domain).number;
    shared.begun = slow;
    for (int k = 0; k < 256; k++)
        lo[k] = iova_shared_alloc(&a, 1, IOVA_NO_LIMIT).lo;
    for (int k = 0; k < 256; k++)
        MUST(!iova_shared_unmap(&a, lo[k]).refused);
    iova_flushes flushes = iova_flushes_of(domain);
    MUST(flushes.finish == 1 && flushes.newest == 2 && iova_shared_counts_of(&a).waiting == 1);
    MUST(!iova_shared_give_back(&a));
    /* what was given up since isn't covered by the slow one's end */
    iova_end(domain, slow, 1);
    shared.ended = iova_flushes_of(domain).newest;
    MUST(!iova_shared_give_back(&a) && iova_flushes_of(domain).finish == 2 && iova_shared_counts_of(&a).waiting == 1);
    MUST(!iova_shared_flush(&shared) && !iova_shared_give_back(&a) && iova_shared_counts_of(&a).waiting == 0);
    MUST(!iova_shared_close(&a));
    share_no_more();
}

static void is_left_by_others(void) {
    share(1 << 20, 1);
    MUST(!iova_shared_open(&a, &shared, 0, 0));
    for (int k = 0; k < 300; k++)
        lo[k] = iova_shared_alloc(&a, k % 2 ? 64 : 1, IOVA_NO_LIMIT).lo;
    for (int k = 0; k < 254; k++)
        MUST(!iova_shared_unmap_by_other(&a, lo[k]));
    MUST(!iova_shared_unmap_by_other(&a, lo[0] + 1) && iova_shared_unmap_by_other(&a, lo[254]) == IOVA_RING_FULL);
    iova_shared_counts counts = iova_shared_counts_of(&a);
    MUST(counts.held == 300 && counts.left == 255 && counts.wrong == 0);
    MUST(!iova_shared_alloc(&a, 1, IOVA_NO_LIMIT).refused);
    counts = iova_shared_counts_of(&a);
    MUST(counts.held == 47 && counts.left == 0 && counts.wrong == 1);
    MUST(iova_shared_unmap(&a, lo[0]).refused == IOVA_NOT_HELD);
    /* what its rings have no room for stays left, until a flush goes well */
    for (int k = 0; k < 300; k++)
        lo[k] = iova_shared_alloc(&a, 2, IOVA_NO_LIMIT).lo;
    works = 0;
    for (int k = 0; k < 255; k++)
        MUST(!iova_shared_unmap_by_other(&a, lo[k]));
    MUST(!iova_shared_unmap(&a, lo[299]).refused || iova_shared_counts_of(&a).left > 0);
    works = 1;
    MUST(!iova_shared_give_back(&a) && iova_shared_counts_of(&a).left == 0);
    MUST(!iova_shared_close(&a));
    share_no_more();
}

int main(void) {
    ends_within(600);
    for (packed = 0; packed < 2; packed++) {
        nothing_without_a_cache();
        goes_round();
        is_full();
        is_sac();
        is_apart();
    }
    reclaims();
    fills_the_ledger();
    keeps_limits();
    fails();
    overlaps();
    is_left_by_others();
    return 0;
}
