/* iova.h: the allocator of iovad in a program's own process.
 *
 * Hands out I/O virtual addresses (IOVAs) as the Linux 5.15 kernel does for its DMA layer: the highest place that fits in a
 * tree, magazines for each worker, and a flush queue. An address that was given up is handed out again only after a flush of
 * the IOTLB that began later and ended well.
 *
 *   iova_domain *domain = iova_domain_new();
 *   iova_domain_make(domain, 1, (1 << 20) - 1, 1);                    frames 1 to 2^20 - 1, one worker
 *   uint64_t client = iova_open(domain, 0, 0).number;
 *   iova_mapping buffer = iova_map(domain, 0, client, 65536, 0xffffffff);
 *   .. the device uses buffer.address ..
 *   iova_unmap_bytes(domain, 0, client, buffer.address);              it waits for a flush
 *   uint64_t flush = iova_begin(domain).number;
 *   int went_well = invalidate_the_iotlb();
 *   iova_end(domain, flush, went_well);                               now it may be given again
 *   iova_domain_free(domain);
 *
 * Link with -liova: it needs the C library alone, of which it calls malloc, realloc and free. docs/C.md, which is man 3 iova, says
 * which versions of the library a program runs with.
 *
 * Frames are pages of 4,096 bytes, or of the domain's granule (iova_domain_make_granule), numbered by their address divided by
 * it. A call takes frames, not bytes, where its name has no `map` or `bytes` in it. Workers are numbered from 0, clients and
 * flushes as the library numbers them, from 1.
 *
 * What a program owes:
 *  - a domain lies in room of at least iova_domain_size() bytes, aligned to 8, and iova_domain_init comes before all other
 *    calls on that room. Between calls the program may move it as bytes (memcpy, realloc), and writes it in no other way;
 *  - one call at a time works on a domain. Different domains may be worked on by different threads at the same time, and a
 *    domain may go from thread to thread where the program orders that (by a lock, by starting or joining a thread);
 *  - no call from a signal handler, nor in the forked child of a process that has threads;
 *  - pointers that are passed aren't NULL, and a list has room for as many entries as is said.
 * All other arguments may be any numbers: what can't be done is refused.
 */
#ifndef IOVA_H
#define IOVA_H

#include <stddef.h>
#include <stdint.h>
#include <stdlib.h>

#ifdef __cplusplus
extern "C" {
#endif

/* The version of this header, as iova_version has that of the library: 0.2.0. */
#define IOVA_VERSION 2000

/* The bytes of a frame where a domain has no other granule, and the most that a granule may be. */
#define IOVA_FRAME_BYTES 4096
#define IOVA_MOST_GRANULE 2097152

/* A limit that no frame is above, and a mask that every address is within. */
#define IOVA_NO_LIMIT UINT64_MAX
#define IOVA_NO_MASK UINT64_MAX

/* Why a call is refused: what `refused` of an answer is. The library answers IOVA_ZERO to IOVA_NO_MEMORY, IOVA_NO_DOMAIN and
 * IOVA_BAD_PROFILE, and of a cache IOVA_NO_CACHE to IOVA_FULL; the other numbers below 100 are those of the service's sessions,
 * and IOVA_OTHER_VERSION is this header's. A call that is refused has changed nothing, but for what is said at iova_alloc,
 * iova_close_one and iova_cache_end. */
enum iova_refusal {
    IOVA_NOT_REFUSED = 0,
    IOVA_ZERO = 1,          /* no frame was asked for */
    IOVA_TOO_BIG = 2,       /* more than 1,048,576 frames (4 GiB of 4,096 bytes) were asked for */
    IOVA_NO_CLIENT = 3,     /* the worker has no such client */
    IOVA_CLOSING = 4,       /* the client is closing */
    IOVA_HOLDINGS_FULL = 5, /* the client has 4,096 holdings */
    IOVA_NO_SPACE = 6,      /* nothing fits, with all caches emptied */
    IOVA_RING_FULL = 7,     /* the worker's ring has 255 ranges that no flush has covered: flush, and try again */
    IOVA_NOT_HELD = 8,      /* no holding of the client begins there */
    IOVA_TAKEN = 9,         /* the window meets a frame that is a client's, cached or in a ring */
    IOVA_BAD_WINDOW = 10,   /* the window or the bounds are out of order or out of range */
    IOVA_WINDOWS_FULL = 11, /* there would be more than 64 windows */
    IOVA_NO_WORKER = 12,    /* there is no such worker, or the number of workers isn't 1 to 16 */
    IOVA_FLIGHTS_FULL = 13, /* 32 flushes are in flight */
    IOVA_NO_FLIGHT = 14,    /* no flush of that number is in flight */
    IOVA_WORN = 15,         /* the numbers of clients or flushes are used up, after 2^63 - 1 of them */
    IOVA_CLIENTS_FULL = 16, /* there are 1,024 clients */
    IOVA_NO_MEMORY = 17,    /* malloc or realloc gave none */
    IOVA_SINK_FAULT = 18,   /* sessions: the sink failed */
    IOVA_LINK_FAULT = 19,   /* sessions: the link failed */
    IOVA_BAD_LINE = 20,     /* sessions: not a line of the protocol */
    IOVA_TOO_MANY = 21,     /* sessions: a limit was passed */
    IOVA_BAD_TRACE = 22,    /* sessions: not a line of a trace */
    IOVA_NO_DOMAIN = 23,    /* no domain was made in this room, or it was cleared */
    IOVA_TWICE = 24,        /* sessions: a second hello */
    IOVA_BAD_PROFILE = 25,  /* a depot of more than 32, bytes that are no granule, or `sac` with another granule than 4,096 */
    IOVA_OTHER_VERSION = 200, /* with IOVA_BUILT_FOR: the library doesn't serve a program of that version */
    IOVA_NO_CACHE = 201,      /* caches: no cache was made in this room, or it was ended or cleared */
    IOVA_NO_ORDER = 202,      /* caches: not a length of magazines, which have ranges of 1, 2, 4, 8, 16 and 32 frames */
    IOVA_DRY = 203,           /* caches: the magazine of that length is empty */
    IOVA_MISS = 204,          /* caches: they have ranges, and the newest has a frame above the limit */
    IOVA_FULL = 205           /* caches: the magazine of that length is full */
};

/* The refusal's name as iovad prints it, one word: "NoSpace" for IOVA_NO_SPACE; "" for 0 and for numbers that none has. */
static inline const char *iova_refusal_name(uint64_t refused) {
    static const char *const names[] = {
        "",           "Zero",        "TooBig",    "NoClient",    "Closing",  "HoldingsFull", "NoSpace",
        "RingFull",   "NotHeld",     "Taken",     "BadWindow",   "WindowsFull", "NoWorker", "FlightsFull",
        "NoFlight",   "Worn",        "ClientsFull", "NoMemory",  "SinkFault", "LinkFault",  "BadLine",
        "TooMany",    "BadTrace",    "NoDomain",  "Twice",       "BadProfile",
    };
    static const char *const more[] = {"OtherVersion", "NoCache", "NoOrder", "Dry", "Miss", "Full"};
    if (refused >= IOVA_OTHER_VERSION && refused <= IOVA_FULL)
        return more[refused - IOVA_OTHER_VERSION];
    return refused < sizeof names / sizeof names[0] ? names[refused] : "";
}

/* The same for callers that have no header: writes the name's first bytes, as many as `room` says at most, into `text`, with no
 * NUL behind them, and answers how many bytes the name has: 4 to 12, or 0 where no refusal of the library has the number. */
uint64_t iova_refusal_text(uint64_t refused, uint8_t *text, size_t room);

/* Answers. `refused` is 0 or one of enum iova_refusal, and then all the rest is 0. */

/* Frames in a row: the first, and how many. */
typedef struct iova_range {
    uint64_t refused, lo, len;
} iova_range;

/* A number: what it counts is said at the call. */
typedef struct iova_number {
    uint64_t refused, number;
} iova_number;

/* Bytes in a row: the address of the first, and how many. Both are multiples of the domain's granule. */
typedef struct iova_mapping {
    uint64_t refused, address, bytes;
} iova_mapping;

/* Where a frame is: `number` is the client's at IOVA_AT_CLIENT, the worker's at IOVA_AT_MAGAZINE and IOVA_AT_RING, else 0. */
typedef struct iova_place {
    uint64_t refused, kind, number;
} iova_place;

enum iova_place_kind {
    IOVA_OUTSIDE = 0,     /* not inside the bounds */
    IOVA_FREE = 1,        /* nobody's */
    IOVA_RESERVED = 2,    /* in a window */
    IOVA_AT_CLIENT = 3,   /* in a holding of a client, a closing client's too */
    IOVA_AT_MAGAZINE = 4, /* in a magazine of a worker */
    IOVA_AT_DEPOT = 5,    /* in the depot */
    IOVA_AT_RING = 6      /* in the ring of a worker, where it waits for a flush */
};

/* How many frames are at each kind of place, together all frames of the bounds; and how many clients, closing ones too, and
 * windows there are. */
typedef struct iova_counts {
    uint64_t refused, free, reserved, client, magazine, depot, ring, clients, windows;
} iova_counts;

/* What some clients hold: how many ranges, how many frames these have, and the sum of their first frames. */
typedef struct iova_totals {
    uint64_t refused, count, frames, sum_lo;
} iova_totals;

/* A client: its worker, 1 where it is closing, and how many ranges it holds. */
typedef struct iova_client {
    uint64_t refused, worker, closing, holdings;
} iova_client;

/* What a domain was made with: the first and the last frame, the entries of a magazine (128 or 127), the most magazines of a
 * size in the depot, and the workers. */
typedef struct iova_bounds {
    uint64_t refused, start, last, magazine, depot, workers;
} iova_bounds;

/* The flushes: how many have begun, how many are accounted for, the failed ones for which the next one to begin makes up, the
 * greatest number of one that ended well, how many ended well, and how many are in flight. */
typedef struct iova_flushes {
    uint64_t refused, start, finish, owed, newest, good, in_flight;
} iova_flushes;

/* A range in a list: its first frame, and how many frames it has. */
typedef struct iova_listed {
    uint64_t lo, len;
} iova_listed;

/* Room for one domain, in a program's own struct, on its stack or static. What is in it is the library's. */
#define IOVA_DOMAIN_BYTES 1536
typedef struct iova_domain {
    uint64_t opaque[IOVA_DOMAIN_BYTES / 8];
} iova_domain;

/* How many bytes a domain needs: at most IOVA_DOMAIN_BYTES. What it holds grows by malloc beside it. */
size_t iova_domain_size(void);

/* The library's version: 1,000,000 times its first number, 1,000 times its second, and its third. */
uint64_t iova_version(void);

/* Whether the library serves a program that was built for this version: they have the same first number, the library isn't
 * older, and its domain fits into an iova_domain. */
static inline int iova_serves(uint64_t version) {
    uint64_t library = iova_version();
    return library / 1000000 == version / 1000000 && library >= version && iova_domain_size() <= sizeof(iova_domain);
}

/* Makes the room ready: there is no domain in it yet, and every other call on it is refused by IOVA_NO_DOMAIN. Takes no memory.
 * In room that has a domain, call iova_domain_clear first. */
void iova_domain_init(iova_domain *domain);

/* Makes a domain in the room, in place of one that is there: frames `start` to `last`, 1 <= start <= last <= 2^36 - 1, and 1 to
 * 16 workers; magazines of 128 entries and a depot of 32, as the kernel has them. Answers 0, or the refusal, and then what was
 * there stays: IOVA_BAD_WINDOW, IOVA_NO_WORKER, IOVA_NO_MEMORY, the first that applies. */
uint64_t iova_domain_make(iova_domain *domain, uint64_t start, uint64_t last, uint64_t workers);

/* The same with frames up to 2^40 - 1, magazines of 127 entries and a depot of at most `depot` magazines for each size, 0 to
 * 32. IOVA_BAD_PROFILE comes before the other refusals. */
uint64_t iova_domain_make_second(iova_domain *domain, uint64_t start, uint64_t last, uint64_t workers, uint64_t depot);

/* The same two of frames that have `granule` bytes: a power of two from 4,096 to 2,097,152, as the page size of the machine or
 * of the IOMMU's large pages. Calls in bytes round by it; all numbers of frames, and all bounds and limits on them, are as ever.
 * Refusals: IOVA_BAD_PROFILE first, where it is no such power too. */
uint64_t iova_domain_make_granule(iova_domain *domain, uint64_t start, uint64_t last, uint64_t workers, uint64_t granule);
uint64_t iova_domain_make_second_granule(iova_domain *domain, uint64_t start, uint64_t last, uint64_t workers, uint64_t depot,
                                         uint64_t granule);

/* Ends the domain and gives back all memory that it took. The room is as after iova_domain_init: it may be used for another
 * domain, or left. */
void iova_domain_clear(iova_domain *domain);

/* A domain's room by malloc, made ready; NULL where malloc gives none. */
static inline iova_domain *iova_domain_new(void) {
    iova_domain *domain = (iova_domain *)malloc(iova_domain_size());
    if (domain)
        iova_domain_init(domain);
    return domain;
}

/* Ends the domain, and frees room that iova_domain_new made. NULL may be passed. */
static inline void iova_domain_free(iova_domain *domain) {
    if (domain) {
        iova_domain_clear(domain);
        free(domain);
    }
}

/* What drivers call. */

/* Gives the client a range for so many bytes, whose every byte has an address up to `dma_mask`, as UINT32_MAX for a device of
 * 32 bits. The bytes are rounded up to frames of the domain's granule, and as iova_alloc says; `bytes` of the answer is what was
 * given. Refusals: those of iova_alloc; for 0 bytes IOVA_ZERO, for more than 1,048,576 frames (4 GiB of 4,096 bytes)
 * IOVA_TOO_BIG, and for a mask in which two frames don't end (below 8,191) IOVA_NO_SPACE, since frame 0 is never given. */
iova_mapping iova_map(iova_domain *domain, uint64_t worker, uint64_t client, uint64_t bytes, uint64_t dma_mask);

/* Gives up the range in whose first frame `address` is: the client no longer holds it, and it waits in the worker's ring for a
 * flush that begins later and ends well. The answer is the whole range. Refusals: those of iova_unmap. */
iova_mapping iova_unmap_bytes(iova_domain *domain, uint64_t worker, uint64_t client, uint64_t address);

/* The steps. */

/* Makes one window of the frames `lo` to `hi`, both inside, and of all windows that overlap them: frames that nobody is given.
 * Answers the window. Refusals, the first that applies: IOVA_BAD_WINDOW, IOVA_TAKEN, IOVA_WINDOWS_FULL, IOVA_NO_MEMORY. */
iova_range iova_reserve(iova_domain *domain, uint64_t lo, uint64_t hi);

/* Opens a client of the worker, and answers its number. Where `sac` isn't 0 (single address cycle), it is first sought a place
 * below 4 GiB, in frames of 4,096 bytes. IOVA_BAD_PROFILE where `sac` isn't 0 and the domain has another granule;
 * IOVA_NO_WORKER, IOVA_WORN, IOVA_CLIENTS_FULL, IOVA_NO_MEMORY. */
iova_number iova_open(iova_domain *domain, uint64_t worker, uint64_t sac);

/* Gives the client the highest range that fits, none of its frames above frame `limit`. Fewer than 32 frames are rounded up to
 * a power of two, and the range begins at a multiple of the least power of two that isn't below its length. IOVA_NO_WORKER,
 * IOVA_ZERO, IOVA_TOO_BIG, IOVA_NO_CLIENT, IOVA_CLOSING, IOVA_HOLDINGS_FULL, IOVA_NO_MEMORY, IOVA_NO_SPACE. IOVA_NO_SPACE has
 * emptied all caches, and IOVA_NO_MEMORY may have. */
iova_range iova_alloc(iova_domain *domain, uint64_t worker, uint64_t client, uint64_t frames, uint64_t limit);

/* Puts the client's holding that begins at frame `lo` into the worker's ring, where it waits for a flush, and answers it. Takes
 * no memory. IOVA_NO_WORKER, IOVA_NO_CLIENT, IOVA_CLOSING, IOVA_NOT_HELD, IOVA_RING_FULL. */
iova_range iova_unmap(iova_domain *domain, uint64_t worker, uint64_t client, uint64_t lo);

/* Begins a flush, and answers its number: now invalidate the IOTLB. Several may be in flight, and end in any order.
 * IOVA_FLIGHTS_FULL, IOVA_WORN. */
iova_number iova_begin(iova_domain *domain);

/* Ends the flush of this number: `ok` isn't 0 where the invalidation was done. A failed flush frees nothing. Answers 0, or
 * IOVA_NO_FLIGHT, or IOVA_NO_DOMAIN. */
uint64_t iova_end(iova_domain *domain, uint64_t number, uint64_t ok);

/* Takes what flushes have covered out of the ring of worker `ring` into the magazines of worker `by`, and answers how many
 * ranges. A worker's own ring is drained at each of its unmaps too. IOVA_NO_WORKER. */
iova_number iova_drain(iova_domain *domain, uint64_t ring, uint64_t by);

/* Marks the client closing: it is given nothing more. Answers how many ranges it holds. IOVA_NO_WORKER, IOVA_NO_CLIENT. */
iova_number iova_close(iova_domain *domain, uint64_t worker, uint64_t client);

/* Marks the client closing, and puts its lowest holding into the worker's ring; answers it. Without a holding the client is
 * gone, and the range is empty (len is 0). IOVA_NO_WORKER, IOVA_NO_CLIENT; IOVA_RING_FULL, and then the client is marked. */
iova_range iova_close_one(iova_domain *domain, uint64_t worker, uint64_t client);

/* What a domain holds. These change nothing, and are refused by IOVA_NO_DOMAIN and as is said. */

/* Where the frame is. */
iova_place iova_place_of(iova_domain *domain, uint64_t frame);

/* How many frames are where, without a walk over them. */
iova_counts iova_counts_of(iova_domain *domain);

/* What all clients hold. */
iova_totals iova_totals_of(iova_domain *domain);

/* What the clients of the worker hold. IOVA_NO_WORKER. */
iova_totals iova_share_of(iova_domain *domain, uint64_t worker);

/* A client, whichever worker's. IOVA_NO_CLIENT. */
iova_client iova_client_of(iova_domain *domain, uint64_t client);

/* The bounds, the sizes of the caches and the workers. */
iova_bounds iova_bounds_of(iova_domain *domain);

/* How many bytes a frame has: 4,096, or the granule that the domain was made with. */
iova_number iova_granule_of(iova_domain *domain);

/* The numbers of the flushes. */
iova_flushes iova_flushes_of(iova_domain *domain);

/* Writes the client's ranges, rising by first frame, into `list`: as many as `room` says at most. Answers how many it holds,
 * which may be more. What is behind them in the list stays. IOVA_NO_CLIENT. */
iova_number iova_holdings_of(iova_domain *domain, uint64_t client, iova_listed *list, size_t room);

/* The same of the windows, of which there are at most 64. */
iova_number iova_windows_of(iova_domain *domain, iova_listed *list, size_t room);

/* A cache of ranges in front of a domain, for one thread at a time: most of what the thread takes and gives up it does here,
 * without the domain and without a lock. To its domain a cache is one client, and all its ranges are that client's. Each is at
 * one of three places: in a magazine, where nobody has it; with the user; or in the cache's ring, where it waits for a flush
 * that began after it was given up and ended well. So a range goes
 *
 *   domain -> (refill) magazine -> (alloc) user -> (unmap) ring -> (settle) magazine -> (spill) domain
 *
 * There are magazines of six orders: order 0 has ranges of 1 frame, order 5 those of 32, each 256 at most. The ring has 255.
 *
 *   iova_cache cache;
 *   iova_cache_init(&cache);
 *   iova_cache_make(domain, &cache, 0, 0);                            under the domain's lock, as all that takes both
 *   iova_range range = iova_cache_alloc(&cache, 4, IOVA_NO_LIMIT);    IOVA_DRY: settle, then refill, and again
 *   .. map, let the device use it, unmap ..
 *   iova_cache_unmap(&cache, range.lo, start);                        IOVA_RING_FULL: flush, then settle, and again
 *   iova_cache_settle(&cache, newest);
 *
 * What a program owes, beside what it owes for a domain, of which the rules on room and moving hold for a cache:
 *  - one call at a time works on a cache, and with a domain it's a call on that domain too: under the domain's lock;
 *  - `domain` is the one that the cache was made with;
 *  - `start` is no less than the number of any flush that had begun when the device's mapping was cleared for all to see; so it
 *    is read behind that and behind a full fence, of what iova_flushes_of calls `start`. A number that is read late is sound;
 *  - `newest` is the number of a flush that ended well, or 0: of what iova_flushes_of calls `newest`, or an older one;
 *  - the client's ranges are given up through the cache, and no other cache or call has them.
 * iova_shared.h has a lock and the two numbers for the threads of a process, and iova_client.h a cache over the daemon. */

/* Room for one cache, as iova_domain is for a domain. */
#define IOVA_CACHE_BYTES 512
typedef struct iova_cache {
    uint64_t opaque[IOVA_CACHE_BYTES / 8];
} iova_cache;

/* A range, or a refusal, in two registers. */
typedef struct iova_packed_range {
    uint64_t lo, len;
} iova_packed_range;

/* How many ranges of a cache are where: with the user, in the ring, and in the magazines of each order. */
typedef struct iova_cache_counts {
    uint64_t refused, held, waiting, magazines[6];
} iova_cache_counts;

/* How many bytes a cache needs: at most IOVA_CACHE_BYTES. What it holds grows by malloc beside it. */
size_t iova_cache_size(void);

/* Makes the room ready: there is no cache in it yet, and every other call on it is refused by IOVA_NO_CACHE. Takes no memory. In
 * room that has a cache, call iova_cache_end or iova_cache_clear first. */
void iova_cache_init(iova_cache *cache);

/* Makes a cache with no range in the room, of a new client of the worker, and answers the client's number. It has the domain's
 * granule. `sac` as for iova_open: frames above 4 GiB are given only by the domain, where it has none below. Refusals, and then
 * what was there stays: IOVA_NO_DOMAIN, and those of iova_open. A cache that is there is dropped, and its client keeps what it
 * has. */
iova_number iova_cache_make(iova_domain *domain, iova_cache *cache, uint64_t worker, uint64_t sac);

/* Makes a cache whose domain is elsewhere, as that of a client of the daemon: its ranges come by iova_cache_put and
 * iova_cache_keep, and go by iova_cache_take and iova_cache_release. In bytes its frames have 4,096. Calls that take a domain
 * are refused by IOVA_NO_CLIENT.
 * Answers 0, or IOVA_NO_MEMORY, and then what was there stays. */
uint64_t iova_cache_apart(iova_cache *cache, uint64_t sac);

/* Drops the cache and gives its memory back, whatever it has. The room is as after iova_cache_init. */
void iova_cache_clear(iova_cache *cache);

/* Gives the user the newest range of the magazines, for 1 to 32 frames, rounded up to a power of two: none of its frames is
 * above frame `limit`. Takes memory only where what the user holds has to grow. Refusals: IOVA_NO_ORDER (0 frames, or more than
 * 32: iova_cache_alloc_by), IOVA_MISS, IOVA_DRY, IOVA_NO_MEMORY. */
iova_range iova_cache_alloc(iova_cache *cache, uint64_t frames, uint64_t limit);

/* The user gives up the range that begins at frame `lo`: the device has stopped using it, and its mapping is gone. It goes last
 * into the ring, with the number `start` of the last flush that had begun. Takes no memory. Refusals: IOVA_NOT_HELD exactly where
 * the user holds no range that begins there; then IOVA_NO_ORDER exactly where that range has no magazines, and goes by
 * iova_cache_unmap_by; then IOVA_RING_FULL exactly where 255 wait. */
iova_range iova_cache_unmap(iova_cache *cache, uint64_t lo, uint64_t start);

/* The two in fewer instructions: the answer comes in two registers. Where `len` is 0 the call was refused, and `lo` is the
 * number of the refusal. iova_shared.h and iova_client.h call them. */
iova_packed_range iova_cache_alloc_packed(iova_cache *cache, uint64_t frames, uint64_t limit);
iova_packed_range iova_cache_unmap_packed(iova_cache *cache, uint64_t lo, uint64_t start);

/* iova_cache_alloc in bytes, as iova_map is iova_alloc. The same refusals; a mask in which two frames don't end (below 8,191) is
 * IOVA_MISS, if not IOVA_DRY. */
iova_mapping iova_cache_map(iova_cache *cache, uint64_t bytes, uint64_t dma_mask);

/* iova_cache_unmap of the range in whose first frame `address` is. The answer is the whole range. */
iova_mapping iova_cache_unmap_bytes(iova_cache *cache, uint64_t address, uint64_t start);

/* Takes what a flush has covered out of the ring into the magazines, oldest first, and answers how many ranges: each whose
 * number is below `newest`, until one finds its magazines full, which stays as do those behind it. */
iova_number iova_cache_settle(iova_cache *cache, uint64_t newest);

/* Gives the magazines ranges of the domain for 1 to 32 frames, none with a frame above `limit`: up to `most`, 64 and what there
 * is room for, each by one iova_alloc. Answers how many; 0 only where `most` is 0 or there is no room. Where the domain refuses
 * one, that ends it: the first one's refusal is the answer, and behind the first it's how many came. IOVA_NO_DOMAIN, IOVA_ZERO,
 * IOVA_TOO_BIG (more than 32 frames), and those of iova_alloc. */
iova_number iova_cache_refill(iova_domain *domain, iova_cache *cache, uint64_t frames, uint64_t limit, uint64_t most);

/* Gives ranges of the magazines of an order back to the domain, in whose ring they wait for a flush: the newest, up to `most`, 64
 * and what there are, each by one iova_unmap. Answers how many; 0 only where `most` is 0 or there is none. One that the domain
 * refuses is back in its magazine, and that ends it: as for iova_cache_refill. Takes no memory. IOVA_NO_DOMAIN, IOVA_NO_ORDER
 * (more than 5), and those of iova_unmap. */
iova_number iova_cache_spill(iova_domain *domain, iova_cache *cache, uint64_t order, uint64_t most);

/* Gives the user a range of the domain: of more than 32 frames, or one that the magazines don't have. IOVA_NO_DOMAIN, and those
 * of iova_alloc. */
iova_range iova_cache_alloc_by(iova_domain *domain, iova_cache *cache, uint64_t frames, uint64_t limit);

/* The user gives up the range that begins at frame `lo`, of any length, and it waits in the ring of the domain, not the cache's.
 * IOVA_NO_DOMAIN, IOVA_NOT_HELD as for iova_cache_unmap, and those of iova_unmap. */
iova_range iova_cache_unmap_by(iova_domain *domain, iova_cache *cache, uint64_t lo);

/* Ends the cache, whatever is answered: the room is as after iova_cache_init. Its client is marked closing, and holds all that
 * the cache had and all that the user held; call iova_close_one until it is gone. Answers how many ranges that are.
 * IOVA_NO_DOMAIN, and those of iova_close. */
iova_number iova_cache_end(iova_domain *domain, iova_cache *cache);

/* How many ranges are where. It walks over what the user holds. */
iova_cache_counts iova_cache_counts_of(iova_cache *cache);

/* For a cache whose domain is elsewhere. */

/* A range of its domain goes into the magazines, as the newest. Answers 0, or a refusal: IOVA_NO_ORDER, IOVA_BAD_WINDOW where
 * `lo` is 2^40 or more, IOVA_FULL. */
uint64_t iova_cache_put(iova_cache *cache, uint64_t lo, uint64_t len);

/* The newest range of the magazines of an order goes out of the cache. IOVA_NO_ORDER (more than 5), IOVA_DRY. */
iova_range iova_cache_take(iova_cache *cache, uint64_t order);

/* Makes room for one range more of the user's, so that the next iova_cache_keep takes no memory. It is called before the domain
 * is asked for that range: one that is given and can't be kept would be in no place. Answers 0, or IOVA_NO_MEMORY. */
uint64_t iova_cache_make_room(iova_cache *cache);

/* A range of its domain goes to the user. Answers 0, or a refusal: IOVA_BAD_WINDOW where `lo` is 2^40 or more, or `len` isn't what
 * a domain gives: 1 to 1,048,576 frames, and up to 32 a power of two; IOVA_NO_MEMORY. */
uint64_t iova_cache_keep(iova_cache *cache, uint64_t lo, uint64_t len);

/* The range that begins at frame `lo` goes from the user out of the cache. IOVA_NOT_HELD. */
iova_range iova_cache_release(iova_cache *cache, uint64_t lo);

/* Some range of the user goes out of the cache. `len` is 0 exactly where the user holds none. So it lists what a lost session
 * takes from the user; what is in magazines and ring goes by iova_cache_clear. */
iova_range iova_cache_any(iova_cache *cache);

/* The bytes of a type of this header in the library, by its place here: 0 iova_domain at most, 1 iova_range, 2 iova_number, 3
 * iova_mapping, 4 iova_place, 5 iova_counts, 6 iova_totals, 7 iova_client, 8 iova_bounds, 9 iova_flushes, 10 iova_listed, 11
 * iova_cache at most, 12 iova_cache_counts, 13 iova_packed_range; else 0. */
uint64_t iova_type_size(uint64_t type);

/* A program that says which version it was built for, by
 *
 *   #define IOVA_BUILT_FOR IOVA_VERSION
 *
 * before this header, or by -DIOVA_BUILT_FOR=2000, has its iova_domain_make, iova_domain_make_second and their kin with a
 * granule refused by IOVA_OTHER_VERSION, before all other refusals, where iova_serves says no. Its iova_domain_init then writes
 * nothing into the room, so no other call is made on it. */
static inline void iova_domain_init_for(uint64_t version, iova_domain *domain) {
    if (iova_serves(version))
        iova_domain_init(domain);
}

static inline uint64_t iova_domain_make_for(uint64_t version, iova_domain *domain, uint64_t start, uint64_t last,
                                            uint64_t workers) {
    return iova_serves(version) ? iova_domain_make(domain, start, last, workers) : (uint64_t)IOVA_OTHER_VERSION;
}

static inline uint64_t iova_domain_make_second_for(uint64_t version, iova_domain *domain, uint64_t start, uint64_t last,
                                                   uint64_t workers, uint64_t depot) {
    return iova_serves(version) ? iova_domain_make_second(domain, start, last, workers, depot) : (uint64_t)IOVA_OTHER_VERSION;
}

static inline uint64_t iova_domain_make_granule_for(uint64_t version, iova_domain *domain, uint64_t start, uint64_t last,
                                                    uint64_t workers, uint64_t granule) {
    return iova_serves(version) ? iova_domain_make_granule(domain, start, last, workers, granule) : (uint64_t)IOVA_OTHER_VERSION;
}

static inline uint64_t iova_domain_make_second_granule_for(uint64_t version, iova_domain *domain, uint64_t start, uint64_t last,
                                                           uint64_t workers, uint64_t depot, uint64_t granule) {
    return iova_serves(version) ? iova_domain_make_second_granule(domain, start, last, workers, depot, granule)
                                : (uint64_t)IOVA_OTHER_VERSION;
}

#ifdef IOVA_BUILT_FOR
#define iova_domain_init(domain) iova_domain_init_for(IOVA_BUILT_FOR, domain)
#define iova_domain_make(domain, start, last, workers) iova_domain_make_for(IOVA_BUILT_FOR, domain, start, last, workers)
#define iova_domain_make_second(domain, start, last, workers, depot) \
    iova_domain_make_second_for(IOVA_BUILT_FOR, domain, start, last, workers, depot)
#define iova_domain_make_granule(domain, start, last, workers, granule) \
    iova_domain_make_granule_for(IOVA_BUILT_FOR, domain, start, last, workers, granule)
#define iova_domain_make_second_granule(domain, start, last, workers, depot, granule) \
    iova_domain_make_second_granule_for(IOVA_BUILT_FOR, domain, start, last, workers, depot, granule)
#endif

#ifdef __cplusplus
}
#endif

#endif
