/* Mappings in bytes and masks, and all that a domain tells. The expected values are worked out by hand. */
#include "iova.h"

#include <inttypes.h>
#include <stdio.h>

static int bad;

static void want(const char *what, uint64_t got, uint64_t is) {
    if (got != is) {
        printf("bytes: %s: %" PRIu64 ", wanted %" PRIu64 "\n", what, got, is);
        bad = 1;
    }
}

int main(void) {
    iova_domain *domain = iova_domain_new();
    if (!domain)
        return 2;
    want("map without a domain", iova_map(domain, 0, 1, 1, IOVA_NO_MASK).refused, IOVA_NO_DOMAIN);
    want("make", iova_domain_make_second(domain, 1, 0xffffffffff, 2, 4), 0);
    uint64_t client = iova_open(domain, 1, 0).number;

    /* a byte takes a frame, 4,097 bytes take two, and three frames are given four */
    iova_mapping one = iova_map(domain, 1, client, 1, IOVA_NO_MASK);
    want("one byte: the address", one.address, UINT64_C(0xffffffffff) << 12);
    want("one byte: the bytes", one.bytes, 4096);
    want("4,096 bytes", iova_map(domain, 1, client, 4096, UINT32_MAX).bytes, 4096);
    want("4,097 bytes", iova_map(domain, 1, client, 4097, UINT32_MAX).bytes, 8192);
    want("8,193 bytes", iova_map(domain, 1, client, 8193, UINT32_MAX).bytes, 16384);

    /* the mask's last whole frame: 2^32 - 1 has frame 0xfffff, which is given; 2^20 - 2 hasn't frame 255 */
    want("the last frame of 20 bits", iova_map(domain, 1, client, 1, 0xfffff).address, 0xff000);
    want("one byte less than 20 bits", iova_map(domain, 1, client, 1, 0xffffe).address, 0xfe000);
    want("one byte more than 20 bits", iova_map(domain, 1, client, 1, 0x100000).address, 0xfd000);
    want("frame 1 alone", iova_map(domain, 1, client, 1, 0x1fff).address, 0x1000);
    want("not even frame 1", iova_map(domain, 1, client, 1, 0x1ffe).refused, IOVA_NO_SPACE);
    want("frame 0 alone", iova_map(domain, 1, client, 1, 0xfff).refused, IOVA_NO_SPACE);
    want("no frame", iova_map(domain, 1, client, 1, 0).refused, IOVA_NO_SPACE);

    /* what is too much */
    want("no bytes", iova_map(domain, 1, client, 0, IOVA_NO_MASK).refused, IOVA_ZERO);
    iova_mapping most = iova_map(domain, 1, client, UINT64_C(1) << 32, IOVA_NO_MASK);
    want("4 GiB: the bytes", most.bytes, UINT64_C(1) << 32);
    want("4 GiB: aligned", most.address % (UINT64_C(1) << 32), 0);
    want("4 GiB and a byte", iova_map(domain, 1, client, (UINT64_C(1) << 32) + 1, IOVA_NO_MASK).refused, IOVA_TOO_BIG);
    want("all but a frame", iova_map(domain, 1, client, UINT64_MAX - 4095, IOVA_NO_MASK).refused, IOVA_TOO_BIG);
    want("all", iova_map(domain, 1, client, UINT64_MAX, IOVA_NO_MASK).refused, IOVA_TOO_BIG);
    want("another worker", iova_map(domain, 0, client, 1, IOVA_NO_MASK).refused, IOVA_NO_CLIENT);
    want("no such worker", iova_map(domain, 2, client, 1, IOVA_NO_MASK).refused, IOVA_NO_WORKER);

    /* an address inside the first frame names the range, one behind it doesn't */
    want("unmap behind the first frame", iova_unmap_bytes(domain, 1, client, most.address + 4096).refused, IOVA_NOT_HELD);
    iova_mapping gone = iova_unmap_bytes(domain, 1, client, most.address + 4095);
    want("unmap in the first frame: the address", gone.address, most.address);
    want("unmap in the first frame: the bytes", gone.bytes, most.bytes);
    want("unmap again", iova_unmap_bytes(domain, 1, client, most.address).refused, IOVA_NOT_HELD);
    want("unmap at the end", iova_unmap_bytes(domain, 1, client, UINT64_MAX).refused, IOVA_NOT_HELD);

    /* what the domain tells */
    iova_bounds bounds = iova_bounds_of(domain);
    want("start", bounds.start, 1);
    want("last", bounds.last, 0xffffffffff);
    want("magazine", bounds.magazine, 127);
    want("depot", bounds.depot, 4);
    want("workers", bounds.workers, 2);
    iova_counts counts = iova_counts_of(domain);
    want("counts: client", counts.client, 1 + 1 + 2 + 4 + 1 + 1 + 1 + 1);
    want("counts: ring", counts.ring, 1048576);
    want("counts: free", counts.free, 0xffffffffff - 12 - 1048576);
    want("counts: the rest", counts.reserved + counts.magazine + counts.depot, 0);
    want("counts: clients", counts.clients, 1);
    want("counts: windows", counts.windows, 0);
    iova_totals share = iova_share_of(domain, 1), none = iova_share_of(domain, 0), totals = iova_totals_of(domain);
    want("share: count", share.count, 8);
    want("share: frames", share.frames, 12);
    want("share: the same as all", share.sum_lo, totals.sum_lo);
    want("share: of the other worker", none.count + none.frames + none.sum_lo + none.refused, 0);
    want("share: no such worker", iova_share_of(domain, 2).refused, IOVA_NO_WORKER);
    iova_client who = iova_client_of(domain, client);
    want("client: worker", who.worker, 1);
    want("client: closing", who.closing, 0);
    want("client: holdings", who.holdings, 8);
    want("client: no such", iova_client_of(domain, client + 1).refused, IOVA_NO_CLIENT);

    /* lists: with less room than there is, exactly as much, and more */
    iova_listed list[10];
    for (int at = 0; at < 10; at++)
        list[at].lo = list[at].len = 77;
    want("holdings with no room", iova_holdings_of(domain, client, list, 0).number, 8);
    want("holdings with no room: nothing written", list[0].lo, 77);
    want("holdings with room for two", iova_holdings_of(domain, client, list, 2).number, 8);
    want("holdings with room for two: the first", list[0].lo, 1);
    want("holdings with room for two: the second", list[1].lo, 0xfd);
    want("holdings with room for two: no third", list[2].lo, 77);
    want("holdings", iova_holdings_of(domain, client, list, 10).number, 8);
    uint64_t frames = 0;
    for (int at = 0; at < 8; at++)
        frames += list[at].len;
    want("holdings: frames", frames, 12);
    want("holdings: the last", list[7].lo, 0xffffffffff);
    want("holdings: no ninth", list[8].lo, 77);
    want("holdings: no such client", iova_holdings_of(domain, client + 1, list, 10).refused, IOVA_NO_CLIENT);
    want("a window", iova_reserve(domain, 0x10, 0x1f).refused, 0);
    want("another window", iova_reserve(domain, 0x18, 0x2f).len, 0x20);
    want("windows", iova_windows_of(domain, list, 10).number, 1);
    want("windows: lo", list[0].lo, 0x10);
    want("windows: len", list[0].len, 0x20);

    /* flushes */
    uint64_t first = iova_begin(domain).number, second = iova_begin(domain).number;
    want("the flush ends badly", iova_end(domain, second, 0), 0);
    want("the flush ends well", iova_end(domain, first, 1), 0);
    iova_flushes flushes = iova_flushes_of(domain);
    want("flushes: start", flushes.start, 2);
    want("flushes: finish", flushes.finish, 1);
    want("flushes: owed", flushes.owed, 1);
    want("flushes: newest", flushes.newest, 1);
    want("flushes: good", flushes.good, 1);
    want("flushes: in flight", flushes.in_flight, 0);

    want("closing", iova_close(domain, 1, client).number, 8);
    want("closing is told", iova_client_of(domain, client).closing, 1);
    iova_domain_free(domain);
    iova_domain_free(NULL);
    return bad;
}
