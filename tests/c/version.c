/* A program that says which version it was built for, and is served. With -DBUILT= and a version that the library doesn't serve, or
 * with -DLARGE and a library whose domain doesn't fit (--wrap=iova_domain_size), it is refused. */
#if defined(BUILT) || defined(LARGE)
#define REFUSAL IOVA_OTHER_VERSION
#else
#define REFUSAL 0
#endif
#ifndef BUILT
#define BUILT IOVA_VERSION
#endif
#define IOVA_BUILT_FOR BUILT
#include "iova.h"

#include <inttypes.h>
#include <stdio.h>
#include <string.h>

#ifdef LARGE
size_t __wrap_iova_domain_size(void);
size_t __wrap_iova_domain_size(void) { return sizeof(iova_domain) + 8; }
#endif

static int bad;

static void want(const char *what, uint64_t got, uint64_t is) {
    if (got != is) {
        printf("version: %s: %" PRIu64 ", wanted %" PRIu64 "\n", what, got, is);
        bad = 1;
    }
}

int main(void) {
    static iova_domain domain;
    uint8_t room[sizeof domain];
    memset(&domain, 0x5a, sizeof domain);
    memcpy(room, &domain, sizeof domain);
    iova_domain_init(&domain);
    want("whether init wrote into the room", memcmp(room, &domain, sizeof domain) != 0, REFUSAL == 0);
    /* it comes before the refusals of the library */
    want("make of nothing", iova_domain_make(&domain, 0, 0, 0), REFUSAL ? REFUSAL : IOVA_BAD_WINDOW);
    want("make", iova_domain_make(&domain, 1, 1023, 1), REFUSAL);
    want("make second", iova_domain_make_second(&domain, 1, 1023, 1, 33), REFUSAL ? REFUSAL : IOVA_BAD_PROFILE);
    want("make by a granule", iova_domain_make_granule(&domain, 1, 1023, 1, 65536), REFUSAL);
    want("make by none", iova_domain_make_granule(&domain, 1, 1023, 1, 0), REFUSAL ? REFUSAL : IOVA_BAD_PROFILE);
    want("make second by a granule", iova_domain_make_second_granule(&domain, 1, 1023, 1, 8, 65536), REFUSAL);
    iova_domain *other = iova_domain_new();
    if (!other)
        return 2;
    want("make in room by malloc", iova_domain_make(other, 1, 1023, 1), REFUSAL);
    iova_domain_free(other);
    if (!REFUSAL)
        iova_domain_clear(&domain);
    return bad;
}
