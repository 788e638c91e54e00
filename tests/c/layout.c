/* What the header says of sizes, offsets, numbers and names is what the library says. */
#include "iova.h"

#include <stdio.h>
#include <string.h>

#ifdef __cplusplus
#define SAME(what) static_assert(what, #what)
#else
#define SAME(what) _Static_assert(what, #what)
#endif

/* All fields of an answer are numbers of 8 bytes, one behind the other. */
#define AT(type, field, place) SAME(offsetof(type, field) == 8 * (place))
SAME(sizeof(iova_domain) == IOVA_DOMAIN_BYTES);
SAME(sizeof(iova_range) == 24);
AT(iova_range, refused, 0);
AT(iova_range, lo, 1);
AT(iova_range, len, 2);
SAME(sizeof(iova_number) == 16);
AT(iova_number, refused, 0);
AT(iova_number, number, 1);
SAME(sizeof(iova_mapping) == 24);
AT(iova_mapping, address, 1);
AT(iova_mapping, bytes, 2);
SAME(sizeof(iova_place) == 24);
AT(iova_place, kind, 1);
AT(iova_place, number, 2);
SAME(sizeof(iova_counts) == 72);
AT(iova_counts, free, 1);
AT(iova_counts, ring, 6);
AT(iova_counts, clients, 7);
AT(iova_counts, windows, 8);
SAME(sizeof(iova_totals) == 32);
AT(iova_totals, count, 1);
AT(iova_totals, sum_lo, 3);
SAME(sizeof(iova_client) == 32);
AT(iova_client, worker, 1);
AT(iova_client, closing, 2);
AT(iova_client, holdings, 3);
SAME(sizeof(iova_bounds) == 48);
AT(iova_bounds, start, 1);
AT(iova_bounds, workers, 5);
SAME(sizeof(iova_flushes) == 56);
AT(iova_flushes, start, 1);
AT(iova_flushes, in_flight, 6);
SAME(sizeof(iova_listed) == 16);
AT(iova_listed, lo, 0);
AT(iova_listed, len, 1);
SAME(sizeof(iova_cache) == IOVA_CACHE_BYTES);
SAME(sizeof(iova_cache_counts) == 72);
AT(iova_cache_counts, held, 1);
AT(iova_cache_counts, waiting, 2);
AT(iova_cache_counts, magazines, 3);
SAME(sizeof(iova_packed_range) == 16);
AT(iova_packed_range, lo, 0);
AT(iova_packed_range, len, 1);

static int bad;

static void check(const char *what, int is_so) {
    if (!is_so) {
        printf("layout: %s\n", what);
        bad = 1;
    }
}

int main(void) {
    static const size_t sizes[] = {sizeof(iova_domain), sizeof(iova_range),  sizeof(iova_number), sizeof(iova_mapping),
                                   sizeof(iova_place),  sizeof(iova_counts), sizeof(iova_totals), sizeof(iova_client),
                                   sizeof(iova_bounds), sizeof(iova_flushes), sizeof(iova_listed), sizeof(iova_cache),
                                   sizeof(iova_cache_counts), sizeof(iova_packed_range)};
    const uint64_t types = sizeof sizes / sizeof sizes[0];
    check("the size of a domain", iova_domain_size() <= sizes[0] && iova_type_size(0) == iova_domain_size());
    check("the size of a cache", iova_cache_size() <= sizeof(iova_cache) && iova_type_size(11) == iova_cache_size());
    for (uint64_t type = 1; type < types; type++)
        check("the size of a type", type == 11 || iova_type_size(type) == sizes[type]);
    check("no type more", iova_type_size(types) == 0 && iova_type_size(UINT64_MAX) == 0);

    /* the version, and which versions of a program it serves */
    check("the version", iova_version() == IOVA_VERSION);
    check("it serves its own", iova_serves(IOVA_VERSION) && iova_serves(0));
    check("and none that is newer, or has another first number",
          !iova_serves(IOVA_VERSION + 1) && !iova_serves(IOVA_VERSION + 1000000) && !iova_serves(UINT64_MAX));
    check("the refusal", strcmp(iova_refusal_name(IOVA_OTHER_VERSION), "OtherVersion") == 0);

    /* each name of a number that the library knows, and none beside them but the header's own */
    for (uint64_t number = 0; number < 1000; number++) {
        uint8_t text[16];
        if (number >= IOVA_OTHER_VERSION && number <= IOVA_FULL) { /* the header's, and perhaps the library's */
            const char *own = iova_refusal_name(number);
            uint64_t told = iova_refusal_text(number, text, sizeof text);
            check("a name of the header's own", told == 0 || (told == strlen(own) && !memcmp(text, own, told)));
            continue;
        }
        memset(text, 'x', sizeof text);
        const char *name = iova_refusal_name(number);
        size_t length = strlen(name);
        check("the length of a name", iova_refusal_text(number, text, sizeof text) == length);
        check("a name", memcmp(text, name, length) == 0 && text[length] == 'x');
        check("which numbers have names", (length > 0) == (number >= 1 && number <= 25));
    }
    uint8_t front[4] = {'x', 'x', 'x', 'x'};
    check("a name that has no room", iova_refusal_text(IOVA_NO_SPACE, front, 3) == 7 && memcmp(front, "NoSx", 4) == 0);
    check("names are at their numbers", strcmp(iova_refusal_name(IOVA_NO_SPACE), "NoSpace") == 0 &&
                                            strcmp(iova_refusal_name(IOVA_BAD_PROFILE), "BadProfile") == 0 &&
                                            strcmp(iova_refusal_name(IOVA_DRY), "Dry") == 0);

    /* each place has its kind, and each refusal that a domain of one frame can answer its number */
    static iova_domain domain;
    iova_domain_init(&domain);
    check("no domain", iova_place_of(&domain, 1).refused == IOVA_NO_DOMAIN);
    check("bad window", iova_domain_make(&domain, 0, 1, 1) == IOVA_BAD_WINDOW);
    check("no worker", iova_domain_make(&domain, 1, 1, 17) == IOVA_NO_WORKER);
    check("bad profile", iova_domain_make_second(&domain, 1, 1, 1, 33) == IOVA_BAD_PROFILE);
    check("made", iova_domain_make(&domain, 1, 2, 1) == 0);
    check("outside", iova_place_of(&domain, 3).kind == IOVA_OUTSIDE);
    check("free", iova_place_of(&domain, 1).kind == IOVA_FREE);
    check("reserve", iova_reserve(&domain, 1, 1).refused == 0);
    check("reserved", iova_place_of(&domain, 1).kind == IOVA_RESERVED);
    uint64_t client = iova_open(&domain, 0, 0).number;
    check("alloc", iova_alloc(&domain, 0, client, 1, IOVA_NO_LIMIT).lo == 2);
    check("client", iova_place_of(&domain, 2).kind == IOVA_AT_CLIENT && iova_place_of(&domain, 2).number == client);
    check("unmap", iova_unmap(&domain, 0, client, 2).refused == 0);
    check("ring", iova_place_of(&domain, 2).kind == IOVA_AT_RING);
    check("no space", iova_alloc(&domain, 0, client, 1, IOVA_NO_LIMIT).refused == IOVA_NO_SPACE);
    check("a flush", iova_end(&domain, iova_begin(&domain).number, 1) == 0 && iova_drain(&domain, 0, 0).number == 1);
    check("magazine", iova_place_of(&domain, 2).kind == IOVA_AT_MAGAZINE);
    check("zero", iova_alloc(&domain, 0, client, 0, IOVA_NO_LIMIT).refused == IOVA_ZERO);
    check("too big", iova_alloc(&domain, 0, client, 1048577, IOVA_NO_LIMIT).refused == IOVA_TOO_BIG);
    check("no client", iova_alloc(&domain, 0, client + 1, 1, IOVA_NO_LIMIT).refused == IOVA_NO_CLIENT);
    check("not held", iova_unmap(&domain, 0, client, 2).refused == IOVA_NOT_HELD);
    check("taken", iova_reserve(&domain, 1, 2).refused == IOVA_TAKEN);
    check("no flight", iova_end(&domain, 7, 1) == IOVA_NO_FLIGHT);
    check("closing", iova_close(&domain, 0, client).refused == 0 &&
                         iova_alloc(&domain, 0, client, 1, IOVA_NO_LIMIT).refused == IOVA_CLOSING);
    iova_domain_clear(&domain);
    check("cleared", iova_begin(&domain).refused == IOVA_NO_DOMAIN);
    return bad;
}
