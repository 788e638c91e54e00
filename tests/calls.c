/* Stands between a program and its calls of the system, as a library in LD_PRELOAD: they move few bytes, fail or are
 * counted, and sleeps end when they are told to. What is wanted is said in environment variables, of which any may be
 * left out:
 *
 * - IN_MOST, OUT_MOST, WIRE_MOST: at most so many bytes in a read of standard input, in a write of standard output, and
 *   in a receive or a send on a socket.
 * - IN_FAILS, OUT_FAILS, WIRE_FAILS: the number of the call of this kind that fails, counted from 1. Of calls on sockets
 *   receives and sends are counted together, and one on that of the first connection fails.
 * - WIRE_INTERRUPTED: the number of the call on sockets, counted so, that a signal interrupts.
 * - SINK_FAILS: the number of the write of a record, `inval ..`, that fails.
 * - SINK_FAILS_UNTIL: so do all behind it, before there is a file with this path.
 * - OUT_TAKES_NONE: a write that fails takes no byte, and there is no error.
 * - CALLS: the file to which both counts, of reads and of writes, are written at the end.
 * - SLEEPS_UNTIL: no sleep ends before there is a file with this path.
 */
#define _GNU_SOURCE
#include <dlfcn.h>
#include <errno.h>
#include <stdatomic.h>
#include <stdio.h>
#include <stdlib.h>
#include <string.h>
#include <sys/socket.h>
#include <time.h>
#include <unistd.h>

static atomic_long reads, writes, records, connections, wire_calls;

/* The call of this name that the program would have made. */
#define REAL(name)                                                                                                     \
    static __typeof__(&name) real;                                                                                     \
    if (real == NULL)                                                                                                  \
        real = (__typeof__(&name))dlsym(RTLD_NEXT, #name)

static long number(const char *name) {
    const char *text = getenv(name);
    return text == NULL ? 0 : atol(text);
}

static size_t cut(size_t count, const char *name) {
    size_t most = (size_t)number(name);
    return most > 0 && most < count ? most : count;
}

static ssize_t fault(int error) {
    errno = error;
    return -1;
}

ssize_t read(int file, void *bytes, size_t count) {
    REAL(read);
    if (file != 0)
        return real(file, bytes, count);
    if (atomic_fetch_add(&reads, 1) + 1 == number("IN_FAILS"))
        return fault(EINTR);
    return real(file, bytes, cut(count, "IN_MOST"));
}

static int is_record(const char *text, size_t count) {
    return count > 6 && memcmp(text + (text[0] == '\n'), "inval", 5) == 0;
}

/* Whether the write of this record fails. */
static int is_refused(void) {
    long record = atomic_fetch_add(&records, 1) + 1, fails = number("SINK_FAILS");
    const char *path = getenv("SINK_FAILS_UNTIL");
    return fails > 0 && (record == fails || (record > fails && path != NULL && access(path, F_OK) != 0));
}

ssize_t write(int file, const void *bytes, size_t count) {
    REAL(write);
    if (file == 1) {
        if (atomic_fetch_add(&writes, 1) + 1 == number("OUT_FAILS"))
            return getenv("OUT_TAKES_NONE") != NULL ? 0 : fault(EINTR);
        return real(file, bytes, cut(count, "OUT_MOST"));
    }
    return is_record(bytes, count) && is_refused() ? fault(EIO) : real(file, bytes, count);
}

/* The error of this call on a socket, or 0 if the call doesn't fail. */
static int wire_error(void) {
    long call = atomic_fetch_add(&wire_calls, 1) + 1;
    if (connections != 1)
        return 0;
    return call == number("WIRE_FAILS") ? ECONNRESET : call == number("WIRE_INTERRUPTED") ? EINTR : 0;
}

static void connected(int done) {
    if (done >= 0) {
        atomic_fetch_add(&connections, 1);
        atomic_store(&wire_calls, 0);
    }
}

int accept4(int listener, struct sockaddr *address, socklen_t *length, int flags) {
    REAL(accept4);
    int stream = real(listener, address, length, flags);
    connected(stream);
    return stream;
}

int connect(int stream, const struct sockaddr *address, socklen_t length) {
    REAL(connect);
    int done = real(stream, address, length);
    connected(done);
    return done;
}

/* A receive that finds nothing yet isn't counted. */
ssize_t recv(int stream, void *bytes, size_t count, int flags) {
    REAL(recv);
    ssize_t there = real(stream, bytes, cut(count, "WIRE_MOST"), flags | MSG_PEEK);
    if (there < 0)
        return there;
    int error = wire_error();
    return error != 0 ? fault(error) : real(stream, bytes, cut(count, "WIRE_MOST"), flags);
}

ssize_t send(int stream, const void *bytes, size_t count, int flags) {
    REAL(send);
    int error = wire_error();
    return error != 0 ? fault(error) : real(stream, bytes, cut(count, "WIRE_MOST"), flags);
}

int nanosleep(const struct timespec *wanted, struct timespec *left) {
    REAL(nanosleep);
    static const struct timespec look = {0, 1000000};
    const char *path = getenv("SLEEPS_UNTIL");
    while (path != NULL && access(path, F_OK) != 0)
        real(&look, NULL);
    return real(wanted, left);
}

/* The program ends so. */
void _exit(int status) {
    REAL(_exit);
    const char *path = getenv("CALLS");
    FILE *file = path == NULL ? NULL : fopen(path, "w");
    if (file != NULL) {
        fprintf(file, "%ld %ld\n", reads, writes);
        fclose(file);
    }
    real(status);
    abort();
}
