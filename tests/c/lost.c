/* A cache over the daemon whose session is lost, and one that a daemon doesn't suit.
 *
 *     lost IOVAD FOLDER
 *
 * The daemon is killed, ends the session, or answers too late: each call tells it, what the user held is kept, and
 * iovad_cache_reopen lists it. A strict domain is refused, one with no frame to give or with a full ring is not. Each
 * growth is refused in turn, also where the daemon takes nothing back, and no range is lost. It is linked as refusing.h
 * says. */
#define _GNU_SOURCE
#include <iova.h>
#include <iova_client.h>

#include "daemon.h"
#include "refusing.h"

enum { SECONDS = 600, MOST = 2000 };

static char path[100], sink[100];
static iovad_cache cache;
static iovad_listed held[MOST], list[MOST];
static uint64_t count;

static pid_t serve(const char *last, const char *word, const char *value) {
    unlink(sink);
    return daemon_start(path, SECONDS, "--sink", sink, "--workers", "1", "--clients", "4", "--start", "1", "--last", last,
                        word, value, NULL);
}

static int by_first(const void *one, const void *other) {
    uint64_t a = ((const iovad_listed *)one)->lo, b = ((const iovad_listed *)other)->lo;
    return (a > b) - (a < b);
}

static void take(uint64_t ranges) {
    for (uint64_t k = 0; k < ranges; k++) {
        iovad_range range = iovad_cache_alloc(&cache, 1 + k % 40, UINT64_MAX);
        MUST(!range.error && range.len >= 1 + k % 40 && !range.freed);
        held[count].lo = range.lo;
        held[count++].len = range.len;
    }
}

static void give_up(uint64_t ranges) {
    while (ranges-- > 0) {
        iovad_range range = iovad_cache_free(&cache, held[--count].lo);
        MUST(!range.error && range.lo == held[count].lo && range.len == held[count].len);
    }
}

static void want_counts(void) {
    iovad_cached counts = iovad_cache_counts_of(&cache);
    MUST(!counts.error && counts.held == count);
    iovad_own_flushed(&cache);
    iovad_held all = iovad_list(&cache.session, list, MOST);
    MUST(!all.error && all.count == counts.held + counts.waiting + counts.cached);
}

/* Each call answers why there is no session. */
static void want_lost(uint64_t error) {
    uint64_t lo = held[0].lo;
    MUST(iovad_cache_alloc(&cache, 1, UINT64_MAX).error == error && iovad_cache_free(&cache, lo).error == error);
    MUST(iovad_cache_alloc(&cache, 99, UINT64_MAX).error == error && iovad_cache_flush(&cache) == error);
    MUST(iovad_cache_give_back(&cache) == error && iovad_cache_alloc(&cache, 1, 5).error == error);
    MUST(iovad_cache_counts_of(&cache).held == count);
}

/* A new client, which is told what the user of the old one held. */
static void reopen(void) {
    uint64_t lo = held[0].lo;
    MUST(count > 0 && iovad_cache_reopen(&cache, list, count - 1).error == IOVAD_NO_ROOM);
    MUST(iovad_cache_counts_of(&cache).held == count);
    iovad_held lost = iovad_cache_reopen(&cache, list, count);
    MUST(!lost.error && lost.count == count);
    qsort(list, count, sizeof *list, by_first);
    qsort(held, count, sizeof *held, by_first);
    MUST(memcmp(list, held, count * sizeof *list) == 0);
    count = 0;
    MUST(iovad_cache_free(&cache, lo).error == IOVA_NOT_HELD);
    take(20);
    want_counts();
    give_up(20);
    MUST(!iovad_cache_flush(&cache) && iovad_cache_counts_of(&cache).waiting == 0);
}

static void daemon_is_killed(void) {
    pid_t served = serve("1048575", "--session-requests", "0");
    MUST(!iovad_cache_open(&cache, path, 0, 0).error);
    take(300);
    give_up(150);
    want_counts();
    daemon_end(served, SIGKILL);
    uint64_t error = iovad_cache_flush(&cache);
    MUST(error == IOVAD_BROKEN || error == IOVAD_ENDED);
    want_lost(error);
    MUST(iovad_cache_reopen(&cache, list, MOST).error == IOVAD_NO_DAEMON);
    want_lost(IOVAD_ENDED);
    served = serve("1048575", "--session-requests", "0");
    reopen();
    take(10);
    MUST(!iovad_cache_close(&cache));
    count = 0;
    MUST(iovad_cache_alloc(&cache, 1, UINT64_MAX).error == IOVAD_ENDED);
    daemon_end(served, SIGKILL);
}

/* Without --session-requests 0 a session ends, also in the middle of a refill. */
static void daemon_ends_it(void) {
    pid_t served = serve("1048575", "--session-requests", "1000");
    uint64_t error = 0;
    MUST(!iovad_cache_open(&cache, path, 0, 0).error);
    while (!error) {
        iovad_range range = iovad_cache_alloc(&cache, 1, UINT64_MAX);
        error = range.error;
        count = iovad_cache_counts_of(&cache).held;
    }
    MUST(count > 900 && (cache.session.lost || iovad_cache_flush(&cache)));
    MUST(iovad_cache_alloc(&cache, 1, UINT64_MAX).error == cache.session.lost);
    iovad_held lost = iovad_cache_reopen(&cache, list, MOST);
    MUST(!lost.error && lost.count == count);
    count = 0;
    take(20);
    want_counts();
    MUST(!iovad_cache_close(&cache));
    count = 0;
    daemon_end(served, SIGKILL);
}

static void daemon_is_late(void) {
    int status;
    pid_t served = serve("1048575", "--session-requests", "0");
    MUST(!iovad_cache_open_within(&cache, path, 0, 0, 60000).error);
    take(50);
    iovad_within(&cache.session, 100);
    kill(served, SIGSTOP);
    MUST(waitpid(served, &status, WUNTRACED) == served && WIFSTOPPED(status));
    MUST(iovad_cache_flush(&cache) == IOVAD_TIMED_OUT);
    want_lost(IOVAD_TIMED_OUT);
    kill(served, SIGCONT);
    reopen();
    MUST(!iovad_cache_close(&cache));
    daemon_end(served, SIGKILL);
}

static void domain_is_strict(void) {
    pid_t served = serve("1048575", "--strict", NULL);
    iovad_opened opened = iovad_cache_open(&cache, path, 0, 0);
    MUST(opened.error == IOVAD_STRICT && opened.number == 0);
    MUST(iovad_cache_alloc(&cache, 1, UINT64_MAX).error == IOVAD_ENDED);
    daemon_end(served, SIGKILL);
    /* a daemon that was another one when the session began */
    served = serve("1048575", "--session-requests", "0");
    MUST(!iovad_cache_open(&cache, path, 0, 0).error);
    take(5);
    daemon_end(served, SIGKILL);
    served = serve("1048575", "--strict", NULL);
    MUST(iovad_cache_flush(&cache) != 0 && iovad_cache_reopen(&cache, list, MOST).error == IOVAD_STRICT);
    want_lost(IOVAD_ENDED);
    MUST(iovad_cache_close(&cache) == IOVAD_ENDED);
    count = 0;
    daemon_end(served, SIGKILL);
}

static void domain_has_nothing(void) {
    iovad_session other;
    pid_t served = serve("1", "--session-requests", "0");
    MUST(!iovad_open(&other, path, 0, 0).error && iovad_alloc(&other, 1, UINT64_MAX).lo == 1);
    MUST(!iovad_cache_open(&cache, path, 0, 0).error);
    MUST(iovad_cache_alloc(&cache, 1, UINT64_MAX).error == IOVA_NO_SPACE);
    MUST(!iovad_free(&other, 1).error && iovad_cache_alloc(&cache, 1, UINT64_MAX).lo == 1);
    MUST(iovad_alloc(&other, 1, UINT64_MAX).error == IOVA_NO_SPACE && !iovad_cache_free(&cache, 1).error);
    /* what others want is given back by whoever is told */
    MUST(!iovad_cache_flush(&cache) && iovad_alloc(&other, 1, UINT64_MAX).error == IOVA_NO_SPACE);
    MUST(!iovad_cache_give_back(&cache) && !iovad_flush(&other).error && iovad_alloc(&other, 1, UINT64_MAX).lo == 1);
    MUST(!iovad_cache_close(&cache));
    iovad_bye(&other);
    daemon_end(served, SIGKILL);
}

/* Where no record is written no flush goes well: the daemon's ring stays full. */
static pid_t serve_with_full_ring(iovad_session *other) {
    uint64_t lo[255];
    pid_t served = daemon_start(path, SECONDS, "--sink", "/dev/full", "--workers", "1", "--clients", "4", "--start", "1",
                                "--last", "1048575", "--session-requests", "0", NULL);
    MUST(!iovad_open(other, path, 0, 0).error);
    for (int k = 0; k < 255; k++)
        MUST((lo[k] = iovad_alloc(other, 1, UINT64_MAX).lo) != 0);
    for (int k = 0; k < 255; k++)
        MUST(!iovad_free(other, lo[k]).error);
    return served;
}

/* The range that a cache begins with can't be freed then. */
static void ring_is_full(void) {
    iovad_session other;
    pid_t served = serve_with_full_ring(&other);
    MUST(!iovad_cache_open(&cache, path, 0, 0).error && iovad_cache_counts_of(&cache).cached == 1);
    take(290);
    want_counts();
    while (count > 290 - 255) { /* those of up to 32 frames wait here, and the others' ring is full */
        iovad_range range = iovad_cache_free(&cache, held[--count].lo);
        MUST(range.len == held[count].len || (range.error == IOVA_RING_FULL && held[count].len > 32));
    }
    MUST(iovad_cache_flush(&cache) != 0 && iovad_cache_counts_of(&cache).waiting > 200);
    while (!iovad_cache_free(&cache, iovad_cache_alloc(&cache, 1, UINT64_MAX).lo).error)
        ;
    MUST(iovad_cache_counts_of(&cache).waiting == 255 && !cache.session.lost);
    MUST(!iovad_cache_close(&cache));
    iovad_bye(&other);
    count = 0;
    daemon_end(served, SIGKILL);
}

/* Each growth of a call is refused in turn; then the call is made again. A cache has what the daemon lists for it. */
static void memory_is_refused(void) {
    iovad_session other;
    uint64_t opens = 0, gives = 0, reopens = 0, error = IOVA_NO_MEMORY;
    pid_t served = serve_with_full_ring(&other);
    for (long which = 1; error; which++) {
        refuse_at = growths + which;
        error = iovad_cache_open(&cache, path, 0, 0).error;
        refuse_at = 0;
        MUST(!error || (error == IOVA_NO_MEMORY && iovad_cache_alloc(&cache, 1, UINT64_MAX).error == IOVAD_ENDED));
        opens += error != 0;
    }
    for (count = 0; count < 700; count++) {
        uint64_t frames = count % 3 ? 1 + count % 32 : 33 + count % 32;
        uint64_t limit = count % 5 ? UINT64_MAX : 1048575 - count;
        refuse_at = growths + 1;
        iovad_range range = iovad_cache_alloc(&cache, frames, limit);
        refuse_at = 0;
        if (range.error == IOVA_NO_MEMORY) {
            gives++;
            want_counts();
            range = iovad_cache_alloc(&cache, frames, limit);
        }
        MUST(!range.error && range.len >= frames);
        held[count].lo = range.lo;
        held[count].len = range.len;
    }
    want_counts();
    for (long which = 1; error || which == 1; which++) {
        refuse_at = growths + which;
        iovad_held lost = iovad_cache_reopen(&cache, list, MOST);
        refuse_at = 0;
        error = lost.error;
        MUST(error ? error == IOVA_NO_MEMORY && !cache.session.lost : lost.count == count);
        if (error)
            want_counts();
        reopens += error != 0;
    }
    MUST(opens && gives && reopens);
    qsort(list, count, sizeof *list, by_first);
    qsort(held, count, sizeof *held, by_first);
    MUST(memcmp(list, held, count * sizeof *list) == 0);
    count = 0;
    want_counts();
    MUST(!iovad_cache_close(&cache));
    iovad_bye(&other);
    daemon_end(served, SIGKILL);
    MUST(blocks == 0);
}

int main(int words, char **word) {
    static const char *const long_path = "/a-path-that-is-longer-than-a-socket-may-have-one-so-that-no-daemon-can-ever-"
                                         "listen-there-whatever-its-words-are";
    MUST(words == 3);
    ends_within(SECONDS);
    daemon_program = word[1];
    snprintf(path, sizeof path, "%s/socket", word[2]);
    snprintf(sink, sizeof sink, "%s/sink", word[2]);
    unlink(path);
    MUST(iovad_cache_open(&cache, path, 0, 0).error == IOVAD_NO_DAEMON);
    MUST(iovad_cache_open(&cache, "", 0, 0).error == IOVAD_BAD_PATH);
    MUST(iovad_cache_open(&cache, long_path, 0, 0).error == IOVAD_BAD_PATH);
    daemon_is_killed();
    daemon_ends_it();
    daemon_is_late();
    domain_is_strict();
    domain_has_nothing();
    ring_is_full();
    memory_is_refused();
    return 0;
}
