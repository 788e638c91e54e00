/* All headers together, as C and as C++: a round of a cache of threads, and a cache over a daemon that isn't there. */
#include "iova.h"
#include "iova_client.h"
#include "iova_shared.h"

#include <stdio.h>

static int invalidate(void *with) { return with != NULL; }

static int rounds(void) {
    static iova_shared shared;
    static iova_shared_cache cache;
    iova_domain *domain = iova_domain_new();
    int is_good = domain && !iova_domain_make(domain, 1, 1048575, 1);
    is_good = is_good && !iova_shared_init(&shared, domain, invalidate, domain) && !iova_shared_open(&cache, &shared, 0, 0);
    for (int round = 0; is_good && round < 1000; round++) {
        iova_mapping buffer = iova_shared_map(&cache, 10000, UINT32_MAX);
        is_good = !buffer.refused && buffer.bytes == 16384 &&
                  (round % 3 ? !iova_shared_unmap_bytes(&cache, buffer.address).refused
                             : !iova_shared_unmap_by_other(&cache, buffer.address / IOVA_FRAME_BYTES));
    }
    is_good = is_good && !iova_shared_flush(&shared) && !iova_shared_give_back(&cache);
    is_good = is_good && iova_shared_counts_of(&cache).wrong == 0 && !iova_shared_close(&cache);
    iova_shared_clear(&shared);
    iova_domain_free(domain);
    return is_good;
}

static int has_no_daemon(void) {
    static iovad_cache cache;
    static iovad_listed list[1];
    int is_good = iovad_cache_open_within(&cache, "/nobody-listens-here", 0, 0, 100).error == IOVAD_NO_DAEMON;
    is_good = is_good && iovad_cache_open(&cache, "", 0, 0).error == IOVAD_BAD_PATH;
    is_good = is_good && iovad_cache_alloc(&cache, 1, UINT64_MAX).error && iovad_cache_free(&cache, 1).error;
    is_good = is_good && iovad_cache_flush(&cache) && iovad_cache_give_back(&cache);
    is_good = is_good && iovad_cache_counts_of(&cache).error == IOVA_NO_CACHE;
    return is_good && iovad_cache_reopen(&cache, list, 1).error && iovad_cache_close(&cache);
}

int main(void) {
    int is_good = rounds() && has_no_daemon();
    if (!is_good)
        puts("headers: not as it should be");
    return !is_good;
}
