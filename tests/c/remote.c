/* Caches of several processes before the daemon, against a shadow of what a device may reach (shadow.h).
 *
 *     remote IOVAD FOLDER [SEED [SECONDS [FRAMES [LOG [RESTARTS [IDLE]]]]]]
 *
 * Two processes use a cache each, for so many seconds or 4,000 operations; a third one's is killed again and again, at
 * least eight times. This process is the daemon's peer: one invalidation in four fails, and `gone` tells it what a
 * client had that is killed. What such a client had mapped is seen from its log, which it wrote before each call that
 * gives a range up and behind each that takes one. At random the daemon's `list` is what a cache has at its places, and
 * a user forks a child, to which each call is refused. At the end all clients are gone, and the domain has lost nothing.
 * What was done goes to LOG, as `iovad check` reads it.
 *
 * With RESTARTS the daemon is killed, once in so many tenths of a second, and another one begins. It knows no client, and
 * so the peer takes all mappings away first. A user goes on until its cache tells the loss, and then opens it anew: what
 * it got meanwhile isn't mapped, and that is 64 calls at most. With IDLE the daemon ends a session that is silent for so
 * many seconds. The users keep theirs alive, also the second one, which pauses now and then for longer; a fourth one
 * doesn't, and is held to the 64 calls too. */
#define _GNU_SOURCE
#include <iova.h>
#include <iova_client.h>

#include "daemon.h"

enum { HELD = 600, USERS = 4, PAUSES = 1, VICTIM = 2, SILENT = 3, KILLS = 8, OPERATIONS = 4000, CLIENTS = 1 << 20 };
enum { RESTART_LOG = USERS + 1, PEER_LOGS };

/* Whose client of a number it is, and where in the user's log it begins and ends. */
struct life {
    _Atomic uint32_t user; /* 0: nobody's */
    _Atomic uint64_t from, to;
};

static struct {
    struct life *lives; /* by the client's number */
    _Atomic uint64_t gone, killed, victim, victim_generation, last_client, restarts, forks, pauses, ended, late, most_late;
    _Atomic int is_over;
    _Atomic int is_answering[SHADOW_LOGS]; /* whether a thread of the peer writes the log */
    _Atomic int gate, is_busy[USERS + 1];  /* a restart waits until no user is in a call, and each for its end */
    _Atomic uint64_t generation;           /* of the daemon */
} *all;

static char socket_path[100], peer_path[100], last_frame[24], idle[24];
static double until; /* 0: by OPERATIONS */
static unsigned limit_seconds;
static uint64_t restarts; /* tenths of a second between them; 0: none */

static uint64_t count_of(int log) { return atomic_load_explicit(&shadow->logs[log].count, memory_order_acquire); }

/* The peer. */

/* What the client had mapped by its log is unmapped now. The daemon asks again where an answer came too late for it. */
static void bury(int log, uint64_t client, uint32_t *len_at) {
    struct life *life = &all->lives[client];
    uint32_t user = atomic_exchange(&life->user, 0);
    if (!user)
        return;
    uint64_t count = count_of((int)user), to = atomic_load(&life->to), lo, len;
    to = to ? to : count;
    memset(len_at, 0, (shadow->last + 1) * sizeof *len_at);
    for (uint64_t at = atomic_load(&life->from); at < to; at++) {
        uint64_t what = shadow->logs[user].events[at].what;
        lo = what & ((UINT64_C(1) << 40) - 1);
        if (what >> 61 <= SHADOW_UNMAP)
            len_at[lo] = what >> 61 == SHADOW_MAP ? (uint32_t)(what << 3 >> 43) : 0;
    }
    for (lo = 0; lo <= shadow->last; lo++)
        if ((len = len_at[lo])) {
            uint64_t stamp = shadow_note(log, SHADOW_UNMAP, lo, len);
            for (uint64_t f = lo; f < lo + len; f++)
                atomic_store(&shadow->given_up[f], stamp);
        }
}

static void *answer(void *of) {
    FILE *in = fdopen((int)(intptr_t)of, "r"), *out = fdopen(dup((int)(intptr_t)of), "w");
    int log = PEER_LOGS;
    while (log < SHADOW_LOGS && atomic_exchange(&all->is_answering[log], 1))
        log++;
    uint64_t one, two, count, lo, len, state = (uint64_t)log;
    uint32_t *len_at = calloc(shadow->last + 1, sizeof *len_at);
    char line[160];
    MUST(in && out && len_at && log < SHADOW_LOGS);
    while (fgets(line, sizeof line, in)) {
        if (sscanf(line, "reset %" SCNu64, &one) == 1) {
            fprintf(out, "done reset %" PRIu64 "\n", one);
        } else if (sscanf(line, "inval %" SCNu64 " %" SCNu64, &one, &two) == 2) {
            fprintf(out, "%s inval %" PRIu64 "\n", shadow_invalidate(log, &state, 1) ? "done" : "fail", two);
        } else if (sscanf(line, "gone %" SCNu64 " %" SCNu64 " %" SCNu64, &one, &two, &count) == 3) {
            MUST(two < CLIENTS);
            bury(log, two, len_at);
            for (uint64_t k = 0; k < count; k++) {
                if (!fgets(line, sizeof line, in) || !strchr(line, '\n'))
                    break; /* the daemon was killed meanwhile */
                MUST(sscanf(line, "%" SCNu64 " %" SCNu64, &lo, &len) == 2);
                for (uint64_t f = lo; f < lo + len; f++) {
                    atomic_store(&shadow->entry[f], 0);
                    atomic_store(&shadow->owner[f], 0);
                }
            }
            atomic_fetch_add(&all->gone, 1);
            fprintf(out, "done gone %" PRIu64 "\n", two);
        }
        fflush(out);
    }
    free(len_at);
    fclose(in);
    fclose(out);
    atomic_store(&all->is_answering[log], 0);
    return NULL;
}

static void *listen_for(void *of) {
    for (;;) {
        pthread_t thread;
        int fd = accept((int)(intptr_t)of, NULL, NULL);
        if (fd < 0)
            return NULL;
        MUST(!pthread_create(&thread, NULL, answer, (void *)(intptr_t)fd));
    }
}

/* The users, whose logs have their numbers. */

static struct user {
    iovad_cache cache;
    uint64_t state, held, target, generation, client;
    uint64_t late; /* the calls that were answered behind the session's end */
    int has_ended; /* as the user itself sees by its descriptor, and the cache doesn't yet */
    uint32_t me;
    struct {
        uint64_t lo, len;
    } have[HELD];
} user;

/* Between these two no daemon is killed. */
static void enter(void) {
    for (;;) {
        atomic_store(&all->is_busy[user.me], 1);
        if (!atomic_load(&all->gate))
            return;
        atomic_store(&all->is_busy[user.me], 0);
        while (atomic_load(&all->gate))
            usleep(500);
    }
}

static void leave(void) { atomic_store(&all->is_busy[user.me], 0); }

static void open_cache(void) {
    iovad_opened opened = iovad_cache_open(&user.cache, socket_path, 0, 0);
    MUST(!opened.error && opened.number < CLIENTS);
    if (*idle && user.me != SILENT + 1)
        iovad_cache_keep_alive(&user.cache, atoi(idle));
    struct life *life = &all->lives[opened.number];
    if (user.me == VICTIM + 1) {
        atomic_store(&all->victim_generation, atomic_load(&all->generation));
        atomic_store(&all->victim, opened.number);
    }
    if (atomic_load(&all->last_client) < opened.number)
        atomic_store(&all->last_client, opened.number);
    user.client = opened.number;
    atomic_store(&life->to, 0);
    atomic_store(&life->from, count_of((int)user.me));
    atomic_store(&life->user, user.me);
    user.held = 0;
    user.has_ended = 0;
    user.generation = atomic_load(&all->generation);
}

/* Whether the session has ended, so that nothing of it is mapped any more. */
static int is_over(void) { return user.has_ended || user.generation != atomic_load(&all->generation); }

/* The call answered an error. Whether that is the end of the session, which was closed; then a new one is open. */
static int is_loss(uint64_t error) {
    if (error != IOVAD_ENDED && error != IOVAD_BROKEN) {
        user.late += is_over();
        MUST(user.late <= IOVAD_CACHE_LOOKS);
        return 0;
    }
    MUST(is_over() && iovad_cache_alloc(&user.cache, 1, UINT64_MAX).error == error);
    MUST(iovad_cache_counts_of(&user.cache).held >= user.held && iovad_cache_close(&user.cache) == error);
    if (user.generation == atomic_load(&all->generation))
        atomic_store(&all->lives[user.client].to, count_of((int)user.me));
    atomic_fetch_add(&all->ended, 1);
    atomic_fetch_add(&all->late, user.late);
    if (atomic_load(&all->most_late) < user.late)
        atomic_store(&all->most_late, user.late);
    user.late = 0;
    open_cache();
    return 1;
}

static void ask(void) {
    uint64_t *state = &user.state;
    uint64_t frames = below(state, 20) ? 1 + below(state, 32) : 33 + below(state, 64);
    uint64_t limit = below(state, 20) ? UINT64_MAX : below(state, shadow->last);
    iovad_range range = iovad_cache_alloc(&user.cache, frames, limit);
    if (is_loss(range.error) || (is_over() && !range.error))
        return;
    if (range.error) {
        MUST(range.error == IOVA_NO_SPACE);
        atomic_fetch_add(&shadow->no_space, 1);
        user.target = user.held / 2;
        return;
    }
    MUST(range.len >= frames && range.lo + range.len - 1 <= limit);
    shadow_map((int)user.me, range.lo, range.len, user.me);
    atomic_fetch_add(&shadow->allocs, 1);
    user.have[user.held].lo = range.lo;
    user.have[user.held++].len = range.len;
}

static void give_up(uint64_t at) {
    uint64_t lo = user.have[at].lo, len = user.have[at].len;
    user.have[at] = user.have[--user.held];
    if (!is_over())
        shadow_unmap((int)user.me, lo, len, user.me);
    for (;;) {
        iovad_range range = iovad_cache_free(&user.cache, lo);
        if (is_loss(range.error))
            return;
        if (range.error != IOVA_RING_FULL) {
            MUST(!range.error && range.lo == lo && range.len == len);
            break;
        }
        atomic_fetch_add(&shadow->ring_full, 1);
    }
    atomic_fetch_add(&shadow->frees, 1);
    if (below(&user.state, 50) == 0) {
        uint64_t error = iovad_cache_free(&user.cache, lo).error;
        MUST(is_loss(error) || error == IOVA_NOT_HELD);
    }
}

/* To a child each call is refused, and the session isn't its own. */
static void fork_child(void) {
    int status;
    pid_t child = daemon_fork(60);
    if (child == 0) {
        iovad_listed list[1];
        uint64_t lo = user.held ? user.have[0].lo : 1;
        for (int k = 0; k < 3; k++)
            MUST(iovad_cache_alloc(&user.cache, 1, UINT64_MAX).error == IOVAD_FORKED &&
                 iovad_cache_free(&user.cache, lo).error == IOVAD_FORKED);
        MUST(iovad_cache_flush(&user.cache) == IOVAD_FORKED && iovad_cache_look(&user.cache) == IOVAD_FORKED);
        MUST(iovad_cache_reopen(&user.cache, list, 1).error != 0 && iovad_cache_close(&user.cache) == IOVAD_FORKED);
        _exit(0);
    }
    MUST(waitpid(child, &status, 0) == child && status == 0);
    atomic_fetch_add(&all->forks, 1);
}

/* Longer than the daemon lets a session be silent. */
static void pause_long(void) {
    double begun = seconds_now(), seconds = 1.3 * atoi(idle);
    while (seconds_now() < begun + seconds && !atomic_load(&all->is_over)) {
        uint64_t error = 0;
        leave();
        usleep((useconds_t)(100000 * atoi(idle)));
        enter();
        if (user.me != SILENT + 1)
            error = iovad_cache_look(&user.cache);
        if (error) {
            MUST(is_loss(error));
            return;
        }
    }
    atomic_fetch_add(&all->pauses, 1);
    if (user.me == SILENT + 1) {
        struct pollfd polled = {iovad_session_fd(&user.cache.session), POLLRDHUP, 0};
        if (!is_over()) {
            MUST(poll(&polled, 1, 60000) == 1); /* by now the peer may know that the client is gone */
            user.has_ended = 1;
            while (user.has_ended) /* calls that mostly ask the daemon nothing */
                if (user.held == 0 || (user.held < HELD && below(&user.state, 2)))
                    ask();
                else
                    give_up(below(&user.state, user.held));
        }
    }
}

static void operate(void) {
    uint64_t *state = &user.state, what = below(state, 1000);
    if (below(state, 1000) == 0)
        user.target = below(state, 4) ? 1 + below(state, 200) : below(state, HELD);
    uint64_t asks = user.held == 0 ? 100 : user.held == HELD ? 0 : user.held < user.target ? 60 : 45;
    if (what < 970) {
        if (below(state, 100) < asks)
            ask();
        else
            give_up(below(state, user.held));
    } else if (what < 985) {
        uint64_t lo = below(state, shadow->last + 2);
        int mine = 0;
        for (uint64_t at = 0; at < user.held; at++)
            mine |= user.have[at].lo == lo;
        uint64_t error = mine ? (uint64_t)IOVA_NOT_HELD : iovad_cache_free(&user.cache, lo).error;
        MUST(is_over() || error == IOVA_NOT_HELD);
        if (!mine)
            is_loss(error);
    } else if (what < 990) {
        is_loss(iovad_cache_flush(&user.cache));
    } else if (what < 992) {
        uint64_t error = iovad_cache_give_back(&user.cache);
        MUST(is_loss(error) || !error);
    } else if (what < 993) {
        if (below(state, 20) == 0)
            fork_child();
    } else if (what < 994 && *idle && (user.me == PAUSES + 1 || user.me == SILENT + 1)) {
        if (below(state, 40) == 0)
            pause_long();
    } else if (!is_over()) {
        iovad_cached counts = iovad_cache_counts_of(&user.cache);
        iovad_own_flushed(&user.cache); /* the answer to a flush comes first */
        iovad_held listed = iovad_list(&user.cache.session, NULL, 0);
        MUST(counts.held == user.held);
        /* a session lists 1,048,576 ranges at most */
        MUST(listed.error == IOVA_TOO_MANY ||
             (!listed.error && listed.count == counts.held + counts.cached + counts.waiting));
    }
}

static void run(uint32_t me, uint64_t seed) {
    user.me = me;
    user.state = seed;
    user.target = 60;
    enter();
    open_cache();
    leave();
    for (uint64_t k = 0; me == VICTIM + 1 || (until > 0 ? seconds_now() < until : k < OPERATIONS); k++) {
        enter();
        operate();
        leave();
    }
    enter();
    while (user.held) {
        user.held--;
        if (!is_over())
            shadow_unmap((int)me, user.have[user.held].lo, user.have[user.held].len, me);
    }
    MUST(!iovad_cache_close(&user.cache) || is_over());
    leave();
}

/* A user that is killed while it runs, and then another one. */
static void kill_users(uint64_t seed) {
    uint64_t state = seed;
    for (int kills = 0; kills < KILLS || !atomic_load(&all->is_over); kills++) {
        atomic_store(&all->victim, 0);
        pid_t victim = daemon_fork(limit_seconds);
        if (victim == 0) {
            run(VICTIM + 1, seed * 1000 + (uint64_t)kills);
            _exit(0);
        }
        while (atomic_load(&all->victim) == 0 && waitpid(victim, NULL, WNOHANG) == 0)
            usleep(1000);
        usleep((useconds_t)(1000 + below(&state, 100000)));
        enter(); /* as nobody's user */
        int status = daemon_end(victim, SIGKILL);
        MUST(WIFSIGNALED(status) && WTERMSIG(status) == SIGKILL);
        if (atomic_load(&all->victim_generation) == atomic_load(&all->generation))
            atomic_store(&all->lives[atomic_load(&all->victim)].to, count_of(VICTIM + 1));
        atomic_store(&all->is_busy[VICTIM + 1], 0);
        leave();
        atomic_fetch_add(&all->killed, 1);
    }
}

static pid_t serve(void) {
    return daemon_start(socket_path, limit_seconds, "--peer", peer_path, "--workers", "4", "--clients", "8", "--start",
                        "1", "--last", last_frame, "--session-requests", "0", "--log-level", "error",
                        *idle ? "--idle" : NULL, idle, NULL);
}

/* The daemon is killed, the peer takes all mappings away, and another daemon begins. */
static pid_t restart(pid_t served) {
    static uint32_t len_at[SHADOW_FRAMES];
    uint64_t state = 1;
    int is_busy = 1;
    atomic_store(&all->gate, 1);
    while (is_busy) {
        usleep(500);
        is_busy = 0;
        for (int k = 0; k <= USERS; k++)
            is_busy |= atomic_load(&all->is_busy[k]);
    }
    daemon_end(served, SIGKILL);
    for (int log = PEER_LOGS; log < SHADOW_LOGS; log++)
        while (atomic_load(&all->is_answering[log]))
            usleep(500);
    for (uint64_t client = 1; client <= atomic_load(&all->last_client); client++)
        bury(RESTART_LOG, client, len_at);
    for (uint64_t f = 1; f <= shadow->last; f++) {
        atomic_store(&shadow->entry[f], 0);
        atomic_store(&shadow->owner[f], 0);
    }
    shadow_invalidate(RESTART_LOG, &state, 0);
    atomic_fetch_add(&all->generation, 1);
    atomic_fetch_add(&all->restarts, 1);
    served = serve();
    atomic_store(&all->gate, 0);
    return served;
}

/* Until all users have ended. It is this thread that starts daemons: a child ends with the thread that made it. */
static pid_t await_users(pid_t *users, pid_t served) {
    double next = seconds_now() + (double)restarts / 10;
    for (int left = USERS, status; left > 0; usleep(5000)) {
        for (int k = 0; k < USERS; k++)
            if (users[k] && waitpid(users[k], &status, WNOHANG) == users[k]) {
                MUST(status == 0);
                users[k] = 0;
                left--;
            }
        if (!users[VICTIM - 1] && !users[VICTIM - 2])
            atomic_store(&all->is_over, 1);
        if (restarts && seconds_now() > next && !atomic_load(&all->is_over)) {
            served = restart(served);
            next = seconds_now() + (double)restarts / 10;
        }
    }
    return served;
}

/* All clients are gone: behind a flush or two nothing is anybody's. */
static void look_for_losses(void) {
    iovad_session session;
    iovad_counts counts;
    MUST(!iovad_open(&session, socket_path, 0, 0).error);
    for (;;) {
        iovad_flush(&session); /* may fail where this process, which is the peer, is late */
        counts = iovad_stat(&session);
        MUST(!counts.error);
        if (counts.client == 0 && counts.ring == 0)
            break;
        usleep(20000);
    }
    MUST(counts.free + counts.magazine + counts.depot == shadow->last);
    MUST(atomic_load(&all->most_late) <= IOVAD_CACHE_LOOKS);
    for (uint64_t f = 0; f <= shadow->last; f++)
        MUST(atomic_load(&shadow->owner[f]) == 0);
    iovad_bye(&session);
}

int main(int count, char **words) {
    int listener;
    pid_t users[USERS], served;
    pthread_t listens, device;
    MUST(count >= 3);
    uint64_t seed = count > 3 ? strtoull(words[3], NULL, 10) : 1;
    double seconds = count > 4 ? strtod(words[4], NULL) : 0;
    restarts = count > 7 ? strtoull(words[7], NULL, 10) : 0;
    if (count > 8 && strcmp(words[8], "0"))
        snprintf(idle, sizeof idle, "%s", words[8]);
    limit_seconds = 600 + 2 * (unsigned)seconds;
    ends_within(limit_seconds);
    signal(SIGPIPE, SIG_IGN); /* of a daemon that is killed while its peer answers */
    daemon_program = words[1];
    shadow_make(count > 5 ? strtoull(words[5], NULL, 10) : 6000, seconds);
    all = shadow_memory(sizeof *all);
    all->lives = shadow_memory(CLIENTS * sizeof *all->lives);
    snprintf(socket_path, sizeof socket_path, "%s/socket", words[2]);
    snprintf(peer_path, sizeof peer_path, "%s/peer", words[2]);
    snprintf(last_frame, sizeof last_frame, "%" PRIu64, shadow->last);
    unlink(socket_path);
    listener = daemon_socket(peer_path, 1);
    MUST(listener >= 0);
    until = seconds > 0 ? seconds_now() + seconds : 0;
    for (uint32_t k = 0; k < USERS; k++) {
        users[k] = daemon_fork(limit_seconds); /* before this process has threads */
        if (users[k])
            continue;
        close(listener);
        int fd;
        while ((fd = daemon_socket(socket_path, 0)) < 0)
            usleep(10000);
        close(fd);
        if (k == VICTIM)
            kill_users(seed);
        else
            run(k + 1, seed * 100 + k);
        _exit(0);
    }
    MUST(!pthread_create(&listens, NULL, listen_for, (void *)(intptr_t)listener));
    MUST(!pthread_create(&device, NULL, shadow_device, NULL));
    served = await_users(users, serve());
    atomic_store(&shadow->fails_in, 0);
    look_for_losses();
    daemon_end(served, SIGKILL);
    atomic_store(&shadow->stops, 1);
    pthread_join(device, NULL);
    if (count > 4)
        printf("remote: %" PRIu64 " given, %" PRIu64 " given up, NoSpace %" PRIu64 ", RingFull %" PRIu64
               ", flushes %" PRIu64 " good %" PRIu64 " failed, %" PRIu64 " clients killed, %" PRIu64
               " gone with ranges, %" PRIu64 " restarts, %" PRIu64 " sessions ended, %" PRIu64
               " calls behind an end, %" PRIu64 " at most, %" PRIu64 " forks, %" PRIu64 " pauses\n",
               shadow->allocs, shadow->frees, shadow->no_space, shadow->ring_full, shadow->good, shadow->bad,
               all->killed, all->gone, all->restarts, all->ended, all->late, all->most_late, all->forks, all->pauses);
    shadow_write(count > 6 ? words[6] : NULL);
    return 0;
}
