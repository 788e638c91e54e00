/* A cache over the daemon whose session the daemon ends while the cache asks nothing, and one that a child inherits.
 *
 *     ended IOVAD FOLDER
 *
 * The daemon is killed, or ends a session by --idle: at most 64 calls more are answered from the cache. With
 * iovad_cache_keep_alive the session lives on. A session that is lost while a full domain is recovered is told by the
 * call that loses it. A request that no flush can help asks for none. In a forked child each call is refused, and the
 * parent's session goes on. */
#define _GNU_SOURCE
#include <iova.h>
#include <iova_client.h>

#include "daemon.h"

enum { SECONDS = 300, HELD = 12 };

static char path[100], sink[100];
static iovad_cache cache;
static uint64_t held[HELD];

static pid_t serve(const char *word, const char *value) {
    unlink(sink);
    return daemon_start(path, SECONDS, "--sink", sink, "--workers", "1", "--clients", "4", "--start", "1", "--last",
                        "100000", "--session-requests", "0", "--log-level", "error", word, value, NULL);
}

/* A cache with some 370 ranges in its magazines, and a few that its user holds. No answer is on its way. */
static void open_cache(void) {
    MUST(!iovad_cache_open(&cache, path, 0, 0).error);
    for (int k = 0; k < HELD; k++)
        MUST((held[k] = iovad_cache_alloc(&cache, UINT64_C(1) << k % 6, UINT64_MAX).lo) != 0);
    MUST(!iovad_cache_flush(&cache) && iovad_cache_counts_of(&cache).cached > 300);
}

/* Waits until the daemon has closed the connection, which the cache isn't told of. */
static void await_end(void) {
    struct pollfd polled = {iovad_session_fd(&cache.session), POLLRDHUP, 0};
    MUST(poll(&polled, 1, 60000) == 1);
}

/* Requests and frees of what the magazines have, until one is refused. Answers how many were answered. */
static uint64_t quick_calls(uint64_t most, uint64_t *error) {
    uint64_t calls = 0, lo = 0;
    for (*error = 0; !*error && calls < most; calls++) {
        iovad_range range =
            lo ? iovad_cache_free(&cache, lo) : iovad_cache_alloc(&cache, UINT64_C(1) << calls / 2 % 6, UINT64_MAX);
        *error = range.error;
        lo = lo ? 0 : range.lo;
    }
    return *error ? calls - 1 : calls;
}

static void want_each_call(uint64_t error) {
    for (int k = 0; k < 300; k++)
        MUST(iovad_cache_alloc(&cache, 1, UINT64_MAX).error == error && iovad_cache_free(&cache, held[0]).error == error);
    MUST(iovad_cache_alloc(&cache, 99, UINT64_MAX).error == error && iovad_cache_flush(&cache) == error);
    MUST(iovad_cache_give_back(&cache) == error && iovad_cache_look(&cache) == error);
}

/* The session has ended: another client may have the cache's frames. */
static void session_has_ended(void) {
    uint64_t error, calls = quick_calls(1000, &error);
    MUST(error == IOVAD_ENDED);
    MUST(calls <= IOVAD_CACHE_LOOKS);
    want_each_call(IOVAD_ENDED);
}

static void daemon_is_killed(void) {
    iovad_listed list[HELD + 2];
    pid_t served = serve(NULL, NULL);
    for (uint64_t before = 0; before < 70; before += 23) {
        uint64_t error;
        open_cache();
        MUST(quick_calls(before, &error) == before && !error);
        daemon_end(served, SIGKILL);
        session_has_ended();
        served = serve(NULL, NULL);
        MUST(iovad_cache_reopen(&cache, list, HELD + 2).count >= HELD);
        MUST(quick_calls(1000, &error) == 1000 && !error && !iovad_cache_look(&cache));
        MUST(!iovad_cache_close(&cache));
    }
    /* frees alone, and a look that is asked for */
    open_cache();
    daemon_end(served, SIGKILL);
    MUST(iovad_cache_look(&cache) == IOVAD_ENDED);
    want_each_call(IOVAD_ENDED);
    MUST(iovad_cache_close(&cache) == IOVAD_ENDED);
    MUST(iovad_cache_close(&cache) == IOVAD_ENDED && iovad_cache_look(&cache) == IOVAD_ENDED);
}

static void session_is_idle(void) {
    pid_t served = serve("--idle", "1");
    open_cache();
    await_end();
    session_has_ended();
    iovad_cache_close(&cache);
    daemon_end(served, SIGKILL);
}

/* A peer that takes a tenth of a second for an invalidation. */
static void *answer_slowly(void *of) {
    FILE *in = fdopen((int)(intptr_t)of, "r"), *out = fdopen(dup((int)(intptr_t)of), "w");
    uint64_t one, two, count;
    char line[100];
    MUST(in && out);
    while (fgets(line, sizeof line, in)) {
        if (sscanf(line, "reset %" SCNu64, &one) == 1)
            fprintf(out, "done reset %" PRIu64 "\n", one);
        else if (sscanf(line, "inval %" SCNu64 " %" SCNu64, &one, &two) == 2 && !usleep(100000))
            fprintf(out, "done inval %" PRIu64 "\n", two);
        else if (sscanf(line, "gone %" SCNu64 " %" SCNu64 " %" SCNu64, &one, &two, &count) == 3) {
            while (count--)
                MUST(fgets(line, sizeof line, in));
            fprintf(out, "done gone %" PRIu64 "\n", two);
        }
        fflush(out);
    }
    fclose(in);
    fclose(out);
    return NULL;
}

static void *accept_each(void *of) {
    pthread_t thread;
    int fd;
    while ((fd = accept((int)(intptr_t)of, NULL, NULL)) >= 0)
        MUST(!pthread_create(&thread, NULL, answer_slowly, (void *)(intptr_t)fd) && !pthread_detach(thread));
    return NULL;
}

/* The daemon needs flushes to end a client of many ranges, and gives the first of them away before the last is queued. By
 * then the client sees its end. */
static void ranges_are_given_away(void) {
    enum { LAST = 1000, MANY = 800 };
    static unsigned char is_held[LAST + 1];
    iovad_session other;
    pthread_t thread;
    char peer[110];
    snprintf(peer, sizeof peer, "%s.peer", path);
    int listener = daemon_socket(peer, 1);
    MUST(listener >= 0 && !pthread_create(&thread, NULL, accept_each, (void *)(intptr_t)listener));
    pid_t served = daemon_start(path, SECONDS, "--peer", peer, "--workers", "1", "--clients", "4", "--start", "1", "--last",
                                "1000", "--session-requests", "0", "--log-level", "error", "--idle", "1", NULL);
    MUST(!iovad_cache_open(&cache, path, 0, 0).error);
    for (int k = 0; k < MANY; k++) {
        iovad_range range = iovad_cache_alloc(&cache, 1, UINT64_MAX);
        MUST(!range.error);
        is_held[range.lo] = 1;
    }
    MUST(!iovad_open(&other, path, 0, 0).error);
    for (;; usleep(10000)) {
        iovad_range range = iovad_alloc(&other, 1, UINT64_MAX);
        MUST(!range.error || range.error == IOVA_NO_SPACE);
        if (!range.error && is_held[range.lo])
            break;
    }
    MUST(iovad_cache_look(&cache) == IOVAD_ENDED);
    MUST(iovad_cache_close(&cache) == IOVAD_ENDED);
    iovad_bye(&other);
    daemon_end(served, SIGKILL);
    shutdown(listener, SHUT_RDWR);
    pthread_join(thread, NULL);
    close(listener);
}

/* Calls that come slowly, quickly, and slowly again, for three times as long as the daemon lets a client be silent. */
static void session_is_kept(void) {
    pid_t served = serve("--idle", "1");
    double began;
    uint64_t error;
    open_cache();
    iovad_cache_keep_alive(&cache, 1);
    for (began = seconds_now(); seconds_now() < began + 3.5;) {
        MUST(quick_calls(seconds_now() < began + 2.2 ? 1 : 200, &error) > 0 && !error);
        usleep(seconds_now() < began + 1.2 ? 100000 : 15000);
    }
    for (began = seconds_now(); seconds_now() < began + 3;) {
        usleep(300000);
        MUST(!iovad_cache_look(&cache)); /* a program that makes no other call */
    }
    iovad_cache_keep_alive(&cache, 0);
    await_end();
    session_has_ended();
    iovad_cache_close(&cache);
    daemon_end(served, SIGKILL);
}

/* A daemon that gives all that it has and then ends the stream. */
struct script {
    int listener;
    const char *answers[4];
};

static void *play(void *of) {
    const struct script *script = of;
    char line[2000];
    int fd = accept(script->listener, NULL, NULL);
    MUST(fd >= 0);
    for (int k = 0; k < 4 && script->answers[k]; k++) {
        MUST(recv(fd, line, sizeof line, 0) > 0);
        MUST(send(fd, script->answers[k], strlen(script->answers[k]), MSG_NOSIGNAL) > 0);
    }
    shutdown(fd, SHUT_WR);
    while (recv(fd, line, sizeof line, 0) > 0)
        ;
    close(fd);
    return NULL;
}

static void lost_in_recovery(void) {
    static const char no_space[] = "no 6 NoSpace\nno 6 NoSpace\nno 6 NoSpace\nno 6 NoSpace\nno 6 NoSpace\nno 6 NoSpace\n"
                                   "no 6 NoSpace\nno 6 NoSpace\nno 6 NoSpace\nno 6 NoSpace\nno 6 NoSpace\nno 6 NoSpace\n"
                                   "no 6 NoSpace\nno 6 NoSpace\nno 6 NoSpace\nno 6 NoSpace\n";
    struct script scripts[2] = {{0, {"opened 1\n", "no 6 NoSpace\n", no_space, NULL}},
                                {0, {"opened 1\n", "no 6 NoSpace\n", "given 100 64\n", "no 7 RingFull\n"}}};
    for (int k = 0; k < 2; k++) {
        pthread_t thread;
        uint64_t error;
        scripts[k].listener = daemon_socket(path, 1);
        MUST(scripts[k].listener >= 0 && !pthread_create(&thread, NULL, play, &scripts[k]));
        MUST(!iovad_cache_open(&cache, path, 0, 0).error);
        if (k == 0) {
            error = iovad_cache_alloc(&cache, 1, UINT64_MAX).error;
        } else {
            MUST(iovad_cache_alloc(&cache, 64, UINT64_MAX).lo == 100);
            error = iovad_cache_free(&cache, 100).error;
        }
        MUST(error == IOVAD_ENDED);
        held[0] = 100;
        want_each_call(IOVAD_ENDED);
        MUST(iovad_cache_close(&cache) == IOVAD_ENDED);
        pthread_join(thread, NULL);
        close(scripts[k].listener);
    }
}

/* Where nothing waits for a flush, a request that can't be met begins none. */
static void no_flush_helps(void) {
    pid_t served = serve(NULL, NULL);
    iovad_session other;
    iovad_counts before, after;
    open_cache();
    MUST(!iovad_open(&other, path, 0, 0).error);
    MUST(iovad_cache_alloc(&cache, 64, 60).error == IOVA_NO_SPACE); /* what was at hand went back, and is flushed */
    MUST(iovad_cache_counts_of(&cache).cached == 0);
    do
        before = iovad_stat(&other);
    while (before.ring); /* until the flusher has gone round */
    for (int k = 0; k < 20; k++)
        MUST(iovad_cache_alloc(&cache, 64, 60).error == IOVA_NO_SPACE);
    after = iovad_stat(&other);
    MUST(!after.error && after.start == before.start);
    iovad_bye(&other);
    MUST(!iovad_cache_close(&cache));
    daemon_end(served, SIGKILL);
}

/* A child has copies of its parent's caches, of which one was moved and one isn't closed any more. */
static void child_is_refused(void) {
    pid_t served = serve(NULL, NULL), child, grandchild;
    static iovad_cache moved, gone, kept, own;
    iovad_listed list[HELD];
    uint64_t error;
    int status;
    MUST(!iovad_cache_open(&gone, path, 0, 0).error);
    kept = gone;
    memset(&gone, 255, sizeof gone); /* as the stack of a function that has returned */
    open_cache();
    moved = cache;
    memset(&cache, 255, sizeof cache);
    MUST(moved.session.fd > 2);
    child = daemon_fork(SECONDS);
    if (child == 0) {
        cache = moved;
        int fd = cache.session.fd;
        MUST(fcntl(fd, F_GETFD) < 0); /* the daemon sees when the parent ends */
        want_each_call(IOVAD_FORKED);
        MUST(iovad_cache_reopen(&cache, list, HELD).error == IOVAD_FORKED);
        MUST(!iovad_cache_open(&own, path, 0, 0).error && fcntl(0, F_DUPFD, fd) == fd);
        MUST(iovad_cache_close(&cache) == IOVAD_FORKED && fcntl(fd, F_GETFD) >= 0);
        for (int k = 0; k < 300; k++) {
            uint64_t lo = iovad_cache_alloc(&own, 1, UINT64_MAX).lo;
            for (int at = 0; at < HELD; at++)
                MUST(lo != 0 && lo != held[at]);
            MUST(!iovad_cache_free(&own, lo).error);
        }
        grandchild = daemon_fork(SECONDS);
        if (grandchild == 0) {
            MUST(iovad_cache_free(&own, 1).error == IOVAD_FORKED && iovad_cache_close(&own) == IOVAD_FORKED);
            _exit(0);
        }
        MUST(waitpid(grandchild, &status, 0) == grandchild && status == 0);
        MUST(!iovad_cache_close(&own));
        _exit(0);
    }
    cache = moved;
    MUST(quick_calls(1000, &error) == 1000 && !error);
    MUST(waitpid(child, &status, 0) == child && status == 0);
    MUST(quick_calls(1000, &error) == 1000 && !error);
    for (int k = 0; k < HELD; k++)
        MUST(!iovad_cache_free(&cache, held[k]).error);
    MUST(!iovad_cache_flush(&cache) && !iovad_cache_close(&cache) && !iovad_cache_close(&kept));
    daemon_end(served, SIGKILL);
}

int main(int words, char **word) {
    MUST(words == 3);
    ends_within(SECONDS);
    signal(SIGPIPE, SIG_IGN); /* of a daemon that is killed while its peer answers */
    daemon_program = word[1];
    snprintf(path, sizeof path, "%s/socket", word[2]);
    snprintf(sink, sizeof sink, "%s/sink", word[2]);
    unlink(path);
    daemon_is_killed();
    session_is_idle();
    ranges_are_given_away();
    session_is_kept();
    lost_in_recovery();
    no_flush_helps();
    child_is_refused();
    return 0;
}
