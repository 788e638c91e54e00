/* Domains of frames that have another size than 4,096 bytes: calls in bytes round by it, frames are as ever, and what is no size of a
 * frame is refused with nothing changed. */
#include "iova.h"
#include "iova_shared.h"

#include <inttypes.h>
#include <stdio.h>
#include <string.h>

static int bad;

static void want(const char *what, uint64_t granule, uint64_t got, uint64_t is) {
    if (got != is) {
        printf("granules: %s by %" PRIu64 ": 0x%" PRIx64 ", wanted 0x%" PRIx64 "\n", what, granule, got, is);
        bad = 1;
    }
}

static int invalidate(void *with) {
    (void)with;
    return 1;
}

/* Calls in bytes beside the same in frames, on two domains that are made alike. */
static void in_bytes(uint64_t granule) {
    iova_domain domain, frames;
    iova_domain_init(&domain);
    iova_domain_init(&frames);
    want("make", granule, iova_domain_make_granule(&domain, 1, (1 << 20) - 1, 2, granule), 0);
    want("make in frames", granule, iova_domain_make(&frames, 1, (1 << 20) - 1, 2), 0);
    want("its granule", granule, iova_granule_of(&domain).number, granule);
    want("that of the other", granule, iova_granule_of(&frames).number, 4096);
    want("bounds are in frames", granule, iova_bounds_of(&domain).last, (1 << 20) - 1);
    uint64_t client = iova_open(&domain, 1, 0).number;
    want("client", granule, iova_open(&frames, 1, 0).number, client);

    static const uint64_t times[] = {1, 2, 3, 4, 5, 31, 32, 33, 100, 1000};
    iova_mapping given[4 * sizeof times / sizeof times[0]];
    size_t count = 0;
    for (size_t at = 0; at < sizeof times / sizeof times[0]; at++)
        /* a whole number of frames, a byte less and more, and half of one more */
        for (int part = 0; part < 4; part++) {
            uint64_t whole = times[at] * granule;
            uint64_t bytes = part == 0 ? whole : part == 1 ? whole - 1 : part == 2 ? whole + 1 : whole + granule / 2;
            uint64_t mask = part == 3 ? granule * 65536 - 1 : IOVA_NO_MASK;
            iova_mapping one = iova_map(&domain, 1, client, bytes, mask);
            iova_range other = iova_alloc(&frames, 1, client, times[at] + (part >= 2), part == 3 ? 65535 : IOVA_NO_LIMIT);
            want("map", granule, one.refused, 0);
            want("where", granule, one.address, other.lo * granule);
            want("how many bytes", granule, one.bytes, other.len * granule);
            want("not fewer than were asked for", granule, one.bytes >= bytes, 1);
            want("below the mask", granule, one.address + one.bytes - 1 <= mask, 1);
            given[count++] = one;
        }
    for (size_t at = 0; at < count; at++) {
        want("behind the first frame", granule,
             given[at].bytes > granule ? iova_unmap_bytes(&domain, 1, client, given[at].address + granule).refused : IOVA_NOT_HELD,
             IOVA_NOT_HELD);
        iova_mapping gone = iova_unmap_bytes(&domain, 1, client, given[at].address + granule - 1);
        want("unmap", granule, gone.refused, 0);
        want("unmap: where", granule, gone.address, given[at].address);
        want("unmap: how many", granule, gone.bytes, given[at].bytes);
    }
    /* masks at the end of a frame, and a byte below */
    uint64_t low = iova_open(&domain, 0, 0).number;
    want("frame 0", granule, iova_map(&domain, 0, low, 1, granule - 1).refused, IOVA_NO_SPACE);
    want("no frame", granule, iova_map(&domain, 0, low, 1, 2 * granule - 2).refused, IOVA_NO_SPACE);
    want("frame 1", granule, iova_map(&domain, 0, low, 1, 2 * granule - 1).address, granule);
    want("no bytes", granule, iova_map(&domain, 0, low, 0, IOVA_NO_MASK).refused, IOVA_ZERO);
    want("as many frames as one may ask for", granule, iova_map(&domain, 0, low, (granule << 20) + 1, IOVA_NO_MASK).refused, IOVA_TOO_BIG);
    want("all bytes that there are", granule, iova_map(&domain, 0, low, UINT64_MAX, IOVA_NO_MASK).refused, IOVA_TOO_BIG);

    /* single address cycles are of frames of 4,096 bytes */
    iova_counts before = iova_counts_of(&domain);
    want("sac", granule, iova_open(&domain, 0, 1).refused, granule == 4096 ? 0 : IOVA_BAD_PROFILE);
    want("sac leaves all", granule, iova_counts_of(&domain).clients, before.clients + (granule == 4096));
    iova_cache cache;
    iova_cache_init(&cache);
    want("a cache for sac", granule, iova_cache_make(&domain, &cache, 0, 1).refused, granule == 4096 ? 0 : IOVA_BAD_PROFILE);
    if (granule != 4096)
        want("it leaves the room", granule, iova_cache_counts_of(&cache).refused, IOVA_NO_CACHE);

    /* a cache has the granule of its domain */
    want("a cache", granule, iova_cache_make(&domain, &cache, 0, 0).refused, 0);
    want("refill", granule, iova_cache_refill(&domain, &cache, 4, IOVA_NO_LIMIT, 2).number, 2);
    iova_mapping buffer = iova_cache_map(&cache, 3 * granule + 1, IOVA_NO_MASK);
    want("cached map", granule, buffer.bytes, 4 * granule);
    want("cached map: where", granule, buffer.address % (4 * granule), 0);
    want("cached mask", granule, iova_cache_map(&cache, 3 * granule + 1, buffer.address - 4 * granule - 1).refused, IOVA_MISS);
    want("cached unmap", granule, iova_cache_unmap_bytes(&cache, buffer.address + granule, 7).refused, IOVA_NOT_HELD);
    want("cached unmap", granule, iova_cache_unmap_bytes(&cache, buffer.address + granule - 1, 7).bytes, 4 * granule);
    want("the end", granule, iova_cache_end(&domain, &cache).refused, 0);

    /* so has a thread's, by iova_shared.h */
    iova_shared shared;
    iova_shared_cache thread;
    want("shared", granule, iova_shared_init(&shared, &domain, invalidate, NULL), 0);
    want("a thread's cache", granule, iova_shared_open(&thread, &shared, 1, 0), 0);
    buffer = iova_shared_map(&thread, 2 * granule - 1, granule * 65536 - 1);
    want("shared map", granule, buffer.bytes, 2 * granule);
    want("shared map: where", granule, buffer.address % (2 * granule), 0);
    want("shared map: below the mask", granule, buffer.address + buffer.bytes <= granule * 65536, 1);
    want("shared map of nothing", granule, iova_shared_map(&thread, 0, IOVA_NO_MASK).refused, IOVA_ZERO);
    want("shared unmap", granule, iova_shared_unmap_bytes(&thread, buffer.address + granule - 1).bytes, 2 * granule);
    want("its end", granule, iova_shared_close(&thread), 0);
    iova_shared_clear(&shared);
    iova_domain_clear(&domain);
    iova_domain_clear(&frames);
}

/* The highest frames of both profiles have addresses below 2^64 with the largest granule. */
static void high(void) {
    iova_domain domain;
    iova_domain_init(&domain);
    for (int second = 0; second < 2; second++) {
        uint64_t last = second ? (UINT64_C(1) << 40) - 1 : (UINT64_C(1) << 36) - 1;
        want("make", IOVA_MOST_GRANULE,
             second ? iova_domain_make_second_granule(&domain, 1, last, 1, 32, IOVA_MOST_GRANULE)
                    : iova_domain_make_granule(&domain, 1, last, 1, IOVA_MOST_GRANULE),
             0);
        uint64_t client = iova_open(&domain, 0, 0).number;
        want("the highest frame", last, iova_map(&domain, 0, client, 1, IOVA_NO_MASK).address, last << 21);
        iova_mapping most = iova_map(&domain, 0, client, UINT64_C(1) << 41, IOVA_NO_MASK);
        want("the longest range", last, most.bytes, UINT64_C(1) << 41);
        want("its unmap", last, iova_unmap_bytes(&domain, 0, client, most.address).bytes, UINT64_C(1) << 41);
        want("no such address", last, iova_unmap_bytes(&domain, 0, client, UINT64_MAX).refused, IOVA_NOT_HELD);
    }
    iova_domain_clear(&domain);
}

/* What is no granule is refused, before all else, and the domain that is there stays. */
static void refused(void) {
    static const uint64_t none[] = {0, 1, 2048, 4095, 4097, 12288, 16383, 65537, 2097151, 2097153, 4194304, UINT64_C(1) << 32,
                                    (UINT64_C(1) << 32) + 4096, UINT64_C(1) << 63, UINT64_MAX};
    iova_domain domain;
    iova_domain_init(&domain);
    want("no domain", 0, iova_granule_of(&domain).refused, IOVA_NO_DOMAIN);
    want("make", 16384, iova_domain_make_granule(&domain, 1, 1023, 1, 16384), 0);
    uint64_t client = iova_open(&domain, 0, 0).number;
    iova_mapping buffer = iova_map(&domain, 0, client, 20000, IOVA_NO_MASK);
    for (size_t at = 0; at < sizeof none / sizeof none[0]; at++) {
        want("make", none[at], iova_domain_make_granule(&domain, 1, 1023, 1, none[at]), IOVA_BAD_PROFILE);
        want("make of nothing", none[at], iova_domain_make_granule(&domain, 0, 0, 0, none[at]), IOVA_BAD_PROFILE);
        want("make second", none[at], iova_domain_make_second_granule(&domain, 1, 1023, 1, 8, none[at]), IOVA_BAD_PROFILE);
    }
    want("a depot", 65536, iova_domain_make_second_granule(&domain, 1, 1023, 1, 33, 65536), IOVA_BAD_PROFILE);
    want("bounds", 65536, iova_domain_make_granule(&domain, 0, 1023, 1, 65536), IOVA_BAD_WINDOW);
    want("a worker", 65536, iova_domain_make_granule(&domain, 1, 1023, 17, 65536), IOVA_NO_WORKER);
    want("the granule stays", 16384, iova_granule_of(&domain).number, 16384);
    want("the client stays", 16384, iova_client_of(&domain, client).holdings, 1);
    want("its bytes stay", 16384, iova_unmap_bytes(&domain, 0, client, buffer.address).bytes, 32768);
    for (unsigned shift = 12; shift <= 21; shift++) {
        want("make", shift, iova_domain_make_granule(&domain, 1, 1023, 1, UINT64_C(1) << shift), 0);
        want("granule", shift, iova_granule_of(&domain).number, UINT64_C(1) << shift);
    }
    want("made anew", 4096, iova_domain_make(&domain, 1, 1023, 1), 0);
    want("as ever", 4096, iova_granule_of(&domain).number, 4096);
    iova_domain_clear(&domain);
    want("cleared", 0, iova_granule_of(&domain).refused, IOVA_NO_DOMAIN);
}

int main(void) {
    in_bytes(4096);
    in_bytes(16384);
    in_bytes(65536);
    in_bytes(IOVA_MOST_GRANULE);
    high();
    refused();
    return bad;
}
