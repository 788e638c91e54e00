/* daemon.h: a daemon of a test's own, and children that don't outlive it. */
#ifndef DAEMON_H
#define DAEMON_H

#include "shadow.h"

#include <errno.h>
#include <fcntl.h>
#include <signal.h>
#include <stdarg.h>
#include <sys/prctl.h>
#include <sys/socket.h>
#include <sys/un.h>
#include <sys/wait.h>

static const char *daemon_program;

/* A child, which ends with this process, or after so many seconds. 0 in the child, as fork. */
UNUSED pid_t daemon_fork(unsigned seconds) {
    pid_t parent = getpid(), child = fork();
    MUST(child >= 0);
    if (child == 0) {
        prctl(PR_SET_PDEATHSIG, SIGKILL);
        if (getppid() != parent)
            _exit(1);
        ends_within(seconds);
    }
    return child;
}

/* A descriptor of the socket at the path, connected or listening; -1 where it can't be. */
UNUSED int daemon_socket(const char *path, int listens) {
    struct sockaddr_un at;
    int fd = socket(AF_UNIX, SOCK_STREAM | SOCK_CLOEXEC, 0);
    memset(&at, 0, sizeof at);
    at.sun_family = AF_UNIX;
    MUST(fd >= 0 && strlen(path) < sizeof at.sun_path);
    memcpy(at.sun_path, path, strlen(path));
    if (listens)
        unlink(path);
    if (listens ? bind(fd, (struct sockaddr *)(void *)&at, sizeof at) || listen(fd, 16)
                : connect(fd, (struct sockaddr *)(void *)&at, sizeof at)) {
        close(fd);
        return -1;
    }
    return fd;
}

/* A daemon that listens at the path, with these words behind `serve --socket PATH`, up to a NULL. What it says goes to
 * a file beside its socket. */
UNUSED pid_t daemon_start(const char *path, unsigned seconds, ...) {
    const char *words[40] = {daemon_program, "serve", "--socket", path};
    char said[120];
    int count = 4, fd;
    va_list more;
    va_start(more, seconds);
    while (count < 39 && (words[count] = va_arg(more, const char *)))
        count++;
    va_end(more);
    snprintf(said, sizeof said, "%s.said", path);
    unlink(path);
    pid_t child = daemon_fork(seconds);
    if (child == 0) {
        fd = open(said, O_WRONLY | O_CREAT | O_TRUNC, 0600);
        dup2(fd, 1);
        dup2(fd, 2);
        execv(daemon_program, (char *const *)(uintptr_t)words);
        _exit(9);
    }
    while ((fd = daemon_socket(path, 0)) < 0) {
        MUST(waitpid(child, NULL, WNOHANG) == 0);
        usleep(10000);
    }
    close(fd);
    return child;
}

UNUSED int daemon_end(pid_t child, int signal) {
    int status;
    kill(child, signal);
    MUST(waitpid(child, &status, 0) == child);
    return status;
}

#endif
