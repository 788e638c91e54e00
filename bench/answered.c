/* A peer that answers the daemon's requests, and what is timed beside it, for bench/answered.

   answered peer PATH          listens at PATH, and answers each request of each connection at once that it is done.
   answered trip PATH COUNT    so many bare round trips with a peer: a request to invalidate and its answer.
   answered free PATH COUNT    a client of a daemon of a strict domain, which asks for a frame and frees it. The free is
                               timed.
   answered relay PATH PEER    the least that such a daemon does: it answers each line by one that is always the same, and a
                               free when the peer has answered a request to invalidate.

   Trip and free print the median and the 99th of 100 in microseconds, and how many were answered otherwise. */
#define _GNU_SOURCE
#include <pthread.h>
#include <signal.h>
#include <stdint.h>
#include <stdio.h>
#include <stdlib.h>
#include <string.h>
#include <sys/socket.h>
#include <sys/un.h>
#include <time.h>
#include <unistd.h>

#define SESSION 32000 /* frames of one session, below its limit of requests */

static void die(const char *what) {
  perror(what);
  exit(1);
}

static double now(void) {
  struct timespec t;
  clock_gettime(CLOCK_MONOTONIC, &t);
  return t.tv_sec + t.tv_nsec * 1e-9;
}

static struct sockaddr_un address(const char *path) {
  struct sockaddr_un a = {.sun_family = AF_UNIX};
  strncpy(a.sun_path, path, sizeof a.sun_path - 1);
  return a;
}

static int connected(const char *path) {
  int fd = socket(AF_UNIX, SOCK_STREAM, 0);
  struct sockaddr_un a = address(path);
  if (connect(fd, (void *)&a, sizeof a))
    die("connect");
  return fd;
}

/* Each connection is served by a thread. */
static void serve(const char *path, void *(*answers)(void *)) {
  int listener = socket(AF_UNIX, SOCK_STREAM, 0);
  struct sockaddr_un a = address(path);
  unlink(path);
  if (bind(listener, (void *)&a, sizeof a) || listen(listener, 64))
    die("listen");
  for (;;) {
    int fd = accept(listener, 0, 0);
    if (fd < 0)
      die("accept");
    pthread_t thread;
    if (pthread_create(&thread, 0, answers, (void *)(intptr_t)fd))
      die("thread");
    pthread_detach(thread);
  }
}

static int say(int fd, const char *text) {
  size_t len = strlen(text);
  return write(fd, text, len) == (ssize_t)len;
}

/* The line that a connection sends next, of which nothing is behind its LF: one request is on its way at a time. */
static int hear(int fd, char *line, int room) {
  for (int len = 0; len < room - 1;) {
    ssize_t n = read(fd, line + len, room - 1 - len);
    if (n <= 0)
      return 0;
    len += n;
    line[len] = 0;
    if (line[len - 1] == '\n')
      return 1;
  }
  return 0;
}

static void *answer(void *arg) {
  FILE *in = fdopen((int)(intptr_t)arg, "r");
  char line[128], verb[8], out[64];
  unsigned long domain, number, count;
  while (fgets(line, sizeof line, in)) {
    int words = sscanf(line, "%7s %lu %lu %lu", verb, &domain, &number, &count);
    if (words < 2)
      break;
    /* gone DOMAIN CLIENT COUNT has a line for each range */
    for (; words == 4 && count > 0; count--)
      if (!fgets(line, sizeof line, in))
        break;
    snprintf(out, sizeof out, "done %s %lu\n", verb, words == 2 ? domain : number);
    if (!say(fileno(in), out))
      break;
  }
  fclose(in);
  return 0;
}

/* Whether the peer has answered request `number` well. */
static int trip(int fd, unsigned long number) {
  char out[64], in[64], want[64];
  snprintf(out, sizeof out, "inval 0 %lu\n", number);
  snprintf(want, sizeof want, "done inval %lu\n", number);
  if (!say(fd, out) || !hear(fd, in, sizeof in))
    die("trip");
  return !strcmp(in, want);
}

static const char *peer;

static void *relay(void *arg) {
  int fd = (int)(intptr_t)arg, to = connected(peer);
  char line[128];
  for (unsigned long number = 1; hear(fd, line, sizeof line);) {
    if (*line == 'f')
      trip(to, number++);
    if (!say(fd, *line == 'f' ? "freed 1 1\n" : *line == 'a' ? "given 1 1\n" : *line == 'h' ? "opened 1\n" : "bye\n"))
      break;
  }
  close(to);
  close(fd);
  return 0;
}

static int by_size(const void *a, const void *b) {
  return (*(float *)a > *(float *)b) - (*(float *)a < *(float *)b);
}

int main(int argc, char **words) {
  signal(SIGPIPE, SIG_IGN);
  if (argc == 3 && !strcmp(words[1], "peer"))
    serve(words[2], answer);
  if (argc == 4 && !strcmp(words[1], "relay")) {
    peer = words[3];
    serve(words[2], relay);
  }
  if (argc != 4 || (strcmp(words[1], "trip") && strcmp(words[1], "free"))) {
    fprintf(stderr, "usage: answered peer PATH, trip PATH COUNT, free PATH COUNT, or relay PATH PEER\n");
    return 2;
  }
  long count = atol(words[3]), otherwise = 0;
  float *took = malloc(sizeof *took * (count + 1));
  int fd = -1, is_trip = *words[1] == 't';
  char line[128];
  for (long i = 0; i < count; i++) {
    if (fd < 0 || (!is_trip && i % SESSION == 0)) {
      if (fd >= 0)
        close(fd);
      fd = connected(words[2]);
      if (!is_trip && (!say(fd, "hello iova1 0 dac\n") || !hear(fd, line, sizeof line)))
        die("hello");
    }
    if (is_trip) {
      double begin = now();
      otherwise += !trip(fd, i + 1);
      took[i] = now() - begin;
      continue;
    }
    unsigned long frame;
    if (!say(fd, "alloc 1 68719476735\n") || !hear(fd, line, sizeof line) || sscanf(line, "given %lu", &frame) != 1)
      die("alloc");
    snprintf(line, sizeof line, "free %lu\n", frame);
    double begin = now();
    if (!say(fd, line) || !hear(fd, line, sizeof line))
      die("free");
    took[i] = now() - begin;
    otherwise += strncmp(line, "freed ", 6) != 0;
  }
  qsort(took, count, sizeof *took, by_size);
  printf("%.2f %.2f %ld\n", took[count / 2] * 1e6, took[count * 99 / 100] * 1e6, otherwise);
  return 0;
}
