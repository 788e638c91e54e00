/* The time-outs of iova_client.h and the descriptor that is polled: servers that never accept, never answer, answer a byte at a
 * time or never read, a queue that is full, signals in between; and waits without an end as ever. */
#define _DEFAULT_SOURCE
#include "iova_client.h"

#include <inttypes.h>
#include <poll.h>
#include <signal.h>
#include <stdio.h>
#include <stdlib.h>
#include <sys/wait.h>
#include <time.h>

/* Where a call is late because the machine is busy, it is still far below this, and one that hangs isn't. */
enum { SHORT = 150, AT_ONCE = 30000 };

static int bad;
static char path[64];

static void want(const char *what, uint64_t got, uint64_t is) {
    if (got != is) {
        printf("times: %s: %" PRIu64 ", wanted %" PRIu64 "\n", what, got, is);
        bad = 1;
    }
}

static int64_t now(void) {
    struct timespec at;
    clock_gettime(CLOCK_MONOTONIC, &at);
    return at.tv_sec * 1000 + at.tv_nsec / 1000000;
}

static void rest(int milliseconds) { poll(NULL, 0, milliseconds); }

/* The call took its time, but for a step of the clock, and no more. */
static void want_time(const char *what, int64_t since, int64_t least) {
    int64_t took = now() - since;
    if (took < least - 11 || took > AT_ONCE) {
        printf("times: %s: %" PRId64 " ms\n", what, took);
        bad = 1;
    }
}

static int listener(int queue) {
    struct sockaddr_un at = {.sun_family = AF_UNIX};
    int fd = socket(AF_UNIX, SOCK_STREAM, 0);
    memcpy(at.sun_path, path, strlen(path));
    unlink(path);
    if (fd < 0 || bind(fd, (struct sockaddr *)&at, sizeof at) || listen(fd, queue)) {
        perror("listener");
        exit(2);
    }
    return fd;
}

/* A connection that fills the queue, or -1 where it is full. */
static int fill(void) {
    struct sockaddr_un at = {.sun_family = AF_UNIX};
    int fd = socket(AF_UNIX, SOCK_STREAM | SOCK_NONBLOCK, 0);
    memcpy(at.sun_path, path, strlen(path));
    if (connect(fd, (struct sockaddr *)&at, sizeof at) == 0)
        return fd;
    close(fd);
    return -1;
}

/* The server is a process of its own, which ends with the test that began it. */
static pid_t begin(void) {
    pid_t child = fork();
    if (child < 0) {
        perror("fork");
        exit(2);
    }
    return child;
}

static void end(pid_t child) {
    kill(child, SIGKILL);
    waitpid(child, NULL, 0);
}

static void never_accepts(void) {
    iovad_session session;
    int server = listener(5);
    int64_t since = now();
    want("never accepted", iovad_open_within(&session, path, 0, 0, SHORT).error, IOVAD_TIMED_OUT);
    want("never accepted: why", (uint64_t)errno, ETIMEDOUT);
    want_time("never accepted", since, SHORT);
    want("closed", (uint64_t)(iovad_session_fd(&session) == -1), 1);
    want("at no time", iovad_open_within(&session, path, 0, 0, 0).error, IOVAD_TIMED_OUT);
    close(server);
    want("nobody", iovad_open_within(&session, path, 0, 0, SHORT).error, IOVAD_NO_DAEMON);
    want("nobody: why", (uint64_t)errno, ECONNREFUSED);
    want("no path", iovad_open_within(&session, "", 0, 0, SHORT).error, IOVAD_BAD_PATH);
}

static void never_answers(void) {
    iovad_session session;
    iovad_listed list[1];
    int server = listener(5), peer;
    want("connected", iovad_connect_within(&session, path, SHORT), 0);
    peer = accept(server, NULL, NULL);
    int64_t since = now();
    want("never answered", iovad_hello(&session, 0, 0).error, IOVAD_TIMED_OUT);
    want_time("never answered", since, SHORT);
    /* an answer that comes later is to nobody's request */
    want("sent", (uint64_t)send(peer, "opened 1\ngiven 1 1\n", 19, 0), 19);
    since = now();
    want("alloc behind it", iovad_alloc(&session, 1, 1).error, IOVAD_TIMED_OUT);
    want("free behind it", iovad_free(&session, 1).error, IOVAD_TIMED_OUT);
    want("list behind it", iovad_list(&session, list, 1).error, IOVAD_TIMED_OUT);
    want("flush behind it", iovad_flush(&session).error, IOVAD_TIMED_OUT);
    want("stat behind it", iovad_stat(&session).error, IOVAD_TIMED_OUT);
    want("take behind it", iovad_take_hello(&session).error, IOVAD_TIMED_OUT);
    want("send behind it", iovad_send(&session), IOVAD_TIMED_OUT);
    want("an answer behind it", (uint64_t)iovad_has_answer(&session), 1);
    want_time("all at once", since, 0);
    want("bye behind it", iovad_bye(&session), IOVAD_TIMED_OUT);
    close(peer);

    /* each answer has its own time, which may be changed */
    want("connected", iovad_connect_within(&session, path, -1), 0);
    peer = accept(server, NULL, NULL);
    iovad_within(&session, AT_ONCE);
    for (int round = 0; round < 3; round++) {
        want("sent", (uint64_t)send(peer, "given 5 1\n", 10, 0), 10);
        want("given", iovad_alloc(&session, 1, 5).lo, 5);
    }
    iovad_within(&session, 1);
    since = now();
    want("given no more", iovad_alloc(&session, 1, 5).error, IOVAD_TIMED_OUT);
    want_time("given no more", since, 1);
    iovad_close(&session);
    close(peer);
    close(server);
}

static void full_queue(void) {
    iovad_session session;
    int server = listener(0), held[16], count = 0;
    while (count < 16 && (held[count] = fill()) >= 0)
        count++;
    want("the queue is full", count > 0 && count < 16, 1);
    int64_t since = now();
    want("a full queue", iovad_open_within(&session, path, 0, 0, SHORT).error, IOVAD_TIMED_OUT);
    want("a full queue: why", (uint64_t)errno, ETIMEDOUT);
    want_time("a full queue", since, SHORT);
    since = now();
    want("a full queue at no time", iovad_connect_within(&session, path, 0), IOVAD_TIMED_OUT);
    want("which is lost", iovad_hello(&session, 0, 0).error, IOVAD_TIMED_OUT);
    want_time("a full queue at no time", since, 0);

    /* it gets room, and both waits, with an end and without, go on */
    for (int within = -1; within <= AT_ONCE; within += AT_ONCE + 1) {
        pid_t child = begin();
        if (child == 0) {
            rest(SHORT);
            for (;;) {
                int peer = accept(server, NULL, NULL);
                rest(20);
                if (send(peer, "opened 7\n", 9, MSG_NOSIGNAL) < 0)
                    close(peer);
            }
        }
        since = now();
        want("a queue that gets room", iovad_open_within(&session, path, 0, 0, within).number, 7);
        want_time("a queue that gets room", since, 0);
        /* what waits for a send is bounded no more */
        struct timeval time = {9, 9};
        socklen_t size = sizeof time;
        getsockopt(iovad_session_fd(&session), SOL_SOCKET, SO_SNDTIMEO, &time, &size);
        want("no bound is left", (uint64_t)(time.tv_sec + time.tv_usec), 0);
        iovad_close(&session);
        end(child);
        while ((within < 0 && count < 16 && (held[count] = fill()) >= 0))
            count++;
    }
    while (count > 0)
        close(held[--count]);
    close(server);
}

/* Connecting and the answer have one time together: where a machine is busy once more, since a late start is no fault. */
static void one_time(void) {
    enum { WITHIN = 600 };
    for (int round = 0; round < 10; round++) {
        iovad_session session;
        int server = listener(0), held[16], count = 0;
        while (count < 16 && (held[count] = fill()) >= 0)
            count++;
        pid_t child = begin();
        if (child == 0) {
            rest(WITHIN * 2 / 3);
            accept(server, NULL, NULL);
            for (;;)
                rest(1000);
        }
        int64_t since = now();
        want("one time", iovad_open_within(&session, path, 0, 0, WITHIN).error, IOVAD_TIMED_OUT);
        int64_t took = now() - since;
        end(child);
        while (count > 0)
            close(held[--count]);
        close(server);
        if (took < WITHIN * 3 / 2)
            return;
    }
    want("connecting and the answer have one time together", 1, 0);
}

/* A byte at a time begins no new time, and neither does a line of a list. */
static void trickles(void) {
    for (int lines = 0; lines < 2; lines++) {
        iovad_session session;
        iovad_listed list[1];
        int ends[2];
        if (socketpair(AF_UNIX, SOCK_STREAM, 0, ends))
            exit(2);
        pid_t child = begin();
        if (child == 0) {
            close(ends[0]);
            if (send(ends[1], lines ? "held 4000\n" : "given ", lines ? 10 : 6, 0) < 0)
                _exit(1);
            while (send(ends[1], lines ? "1 1\n" : "1", lines ? 4 : 1, MSG_NOSIGNAL) > 0)
                rest(20);
            _exit(0);
        }
        close(ends[1]);
        iovad_over(&session, ends[0]);
        iovad_within(&session, SHORT);
        int64_t since = now();
        want("a trickle", lines ? iovad_list(&session, list, 1).error : iovad_alloc(&session, 1, 1).error, IOVAD_TIMED_OUT);
        want_time("a trickle", since, SHORT);
        iovad_close(&session);
        end(child);
    }
}

static void never_reads(void) {
    static char filler[4096];
    iovad_session session;
    int ends[2];
    if (socketpair(AF_UNIX, SOCK_STREAM, 0, ends))
        exit(2);
    while (send(ends[0], filler, sizeof filler, MSG_DONTWAIT) > 0)
        ;
    iovad_over(&session, ends[0]);
    iovad_within(&session, SHORT);
    int64_t since = now();
    want("never read", iovad_alloc(&session, 1, 1).error, IOVAD_TIMED_OUT);
    want_time("never read", since, SHORT);
    iovad_close(&session);
    close(ends[1]);
}

static void nothing(int signal) { (void)signal; }

/* Signals neither end a wait nor make it longer. */
static void signals(void) {
    struct sigaction action = {.sa_handler = nothing};
    struct itimerval often = {{0, 7000}, {0, 7000}}, never = {{0, 0}, {0, 0}};
    sigaction(SIGALRM, &action, NULL);
    setitimer(ITIMER_REAL, &often, NULL);
    never_accepts();
    never_answers();
    never_reads();
    iovad_session session;
    int server = listener(0), held[16], count = 0;
    while (count < 16 && (held[count] = fill()) >= 0)
        count++;
    int64_t since = now();
    want("a full queue, and signals", iovad_connect_within(&session, path, SHORT), IOVAD_TIMED_OUT);
    want_time("a full queue, and signals", since, SHORT);
    setitimer(ITIMER_REAL, &never, NULL);
    while (count > 0)
        close(held[--count]);
    close(server);
}

static int can_be_read(const iovad_session *session) {
    struct pollfd polled = {iovad_session_fd(session), POLLIN, 0};
    return poll(&polled, 1, 0);
}

static void polled(void) {
    iovad_session session;
    int ends[2];
    if (socketpair(AF_UNIX, SOCK_STREAM, 0, ends))
        exit(2);
    iovad_over(&session, ends[0]);
    want("the descriptor", (uint64_t)(iovad_session_fd(&session) == ends[0]), 1);
    want("nothing asked", (uint64_t)iovad_has_answer(&session), 0);
    want("asked", iovad_ask_alloc(&session, 1, 9), 0);
    want("asked", iovad_ask_stat(&session), 0);
    want("nothing sent", (uint64_t)iovad_has_answer(&session), 0);
    want("sent", iovad_send(&session), 0);
    want("nothing answered", (uint64_t)(iovad_has_answer(&session) + can_be_read(&session)), 0);
    want("a part", (uint64_t)send(ends[1], "giv", 3, 0), 3);
    want("a part can be read", (uint64_t)can_be_read(&session), 1);
    want("and is no answer", (uint64_t)iovad_has_answer(&session), 0);
    want("which was read", (uint64_t)can_be_read(&session), 0);
    want("the rest", (uint64_t)send(ends[1], "en 9 1\nstat 1 2 3 4 5 6 7 8\n", 29, 0), 29);
    want("an answer", (uint64_t)iovad_has_answer(&session), 1);
    want("all was read", (uint64_t)can_be_read(&session), 0);
    want("the first", iovad_take_alloc(&session).lo, 9);
    want("another", (uint64_t)iovad_has_answer(&session), 1);
    want("the second", iovad_take_stat(&session).finish, 8);
    want("no third", (uint64_t)iovad_has_answer(&session), 0);
    want("asked", iovad_ask_flush(&session), 0);
    want("sent", iovad_send(&session), 0);
    char asked[64];
    want("all that was asked", (uint64_t)recv(ends[1], asked, sizeof asked, 0), 21);
    close(ends[1]);
    want("the end can be read", (uint64_t)(can_be_read(&session) > 0), 1);
    want("the end", (uint64_t)iovad_has_answer(&session), 1);
    want("is told", iovad_take_flush(&session).error, IOVAD_ENDED);
    iovad_close(&session);
    want("closed", (uint64_t)(iovad_session_fd(&session) == -1), 1);
    want("closed is told", (uint64_t)iovad_has_answer(&session), 1);
}

int main(void) {
    snprintf(path, sizeof path, "/tmp/iovad_times_%ld", (long)getpid());
    never_accepts();
    never_answers();
    full_queue();
    one_time();
    trickles();
    never_reads();
    signals();
    polled();
    unlink(path);
    return bad;
}
