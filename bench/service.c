/* A load client, and the least that a server does, for bench/service.

   service load PATH CLIENTS IN_FLIGHT REQUESTS KIND   each client is a thread with a connection of its own, which sends
                                                       IN_FLIGHT requests in one write and reads their answers. KIND is
                                                       iova (alloc and free in turn) or ping (redis's PING). A session of
                                                       iova takes 65,536 requests at most, so a client makes several.
                                                       Prints the requests a second of all clients together, the median
                                                       and the 99th of 100 of a write's way there and back, how many of
                                                       100 requests were refused since a ring was full, and the longest
                                                       way.
   service floor PATH CLIENTS [NANOSECONDS]            a server with a thread for each of so many clients, which answers
                                                       each line by its first letter, always by the same line. With a time
                                                       it spends so long on each read besides, under no lock. */
#define _GNU_SOURCE
#include <pthread.h>
#include <stdio.h>
#include <stdlib.h>
#include <string.h>
#include <sys/socket.h>
#include <sys/un.h>
#include <time.h>
#include <unistd.h>

#define SESSION 65000 /* requests of one session, below its limit */
#define MOST 64       /* requests in flight, at most */

static const char *path;
static int in_flight, is_iova;
static long requests;

static double now(void) {
  struct timespec t;
  clock_gettime(CLOCK_MONOTONIC, &t);
  return t.tv_sec + t.tv_nsec * 1e-9;
}

static void die(const char *what) {
  perror(what);
  exit(1);
}

static struct sockaddr_un address(void) {
  struct sockaddr_un a = {.sun_family = AF_UNIX};
  strncpy(a.sun_path, path, sizeof a.sun_path - 1);
  return a;
}

struct client {
  pthread_t thread;
  float *ways; /* seconds of each write's way there and back */
  long count, done, refused;
};

static void send_all(int fd, const char *bytes, long len) {
  while (len > 0) {
    long n = write(fd, bytes, len);
    if (n <= 0)
      die("write");
    bytes += n, len -= n;
  }
}

/* Reads so many lines into `in`, and gives their bytes. */
static long lines(int fd, char *in, long room, int count) {
  long len = 0;
  for (int got = 0; got < count;) {
    long n = read(fd, in + len, room - len);
    if (n <= 0)
      die("read");
    for (char *p = in + len; p < in + len + n; p++)
      got += *p == '\n';
    len += n;
  }
  in[len] = 0;
  return len;
}

static void *load(void *arg) {
  struct client *me = arg;
  char out[MOST * 64], in[MOST * 128];
  unsigned long held[MOST];
  for (long done = 0; done < requests;) {
    int fd = socket(AF_UNIX, SOCK_STREAM, 0);
    struct sockaddr_un a = address();
    if (connect(fd, (void *)&a, sizeof a))
      die("connect");
    if (is_iova) {
      send_all(fd, "hello iova1 0 dac\n", 18);
      lines(fd, in, sizeof in - 1, 1);
    }
    int count = 0; /* ranges that are held */
    for (long asked = 0; asked + in_flight < SESSION && done < requests;) {
      int len = 0, sent = count ? count : in_flight;
      for (int i = 0; i < sent; i++) {
        if (!is_iova)
          len += sprintf(out + len, "PING\r\n");
        else if (!count)
          len += sprintf(out + len, "alloc 1 68719476735\n");
        else
          len += sprintf(out + len, "free %lu\n", held[i]);
      }
      double begin = now();
      send_all(fd, out, len);
      lines(fd, in, sizeof in - 1, sent);
      me->ways[me->count++] = now() - begin;
      asked += sent, done += sent, me->done += sent;
      if (!is_iova)
        continue;
      char *line = in;
      if (!count) {
        for (; count < sent; count++, line = strchr(line, '\n') + 1)
          if (sscanf(line, "given %lu", held + count) != 1)
            fprintf(stderr, "not given: %s", line), exit(1);
        continue;
      }
      /* what a full ring refuses while another worker's flush is in flight is held on, and freed again */
      count = 0;
      for (int i = 0; i < sent; i++, line = strchr(line, '\n') + 1) {
        if (!strncmp(line, "no 7 ", 5))
          held[count++] = held[i], me->refused++;
        else if (strncmp(line, "queued ", 7))
          fprintf(stderr, "not queued: %s", line), exit(1);
      }
    }
    if (is_iova) {
      send_all(fd, "bye\n", 4);
      lines(fd, in, sizeof in - 1, 1);
    }
    close(fd);
  }
  return 0;
}

static int by_size(const void *a, const void *b) {
  return (*(float *)a > *(float *)b) - (*(float *)a < *(float *)b);
}

static void run_load(int clients) {
  struct client *all = calloc(clients, sizeof *all);
  double begin = now();
  for (int i = 0; i < clients; i++) {
    all[i].ways = malloc(sizeof(float) * (requests + 1));
    pthread_create(&all[i].thread, 0, load, all + i);
  }
  long count = 0, done = 0, refused = 0;
  for (int i = 0; i < clients; i++) {
    pthread_join(all[i].thread, 0);
    count += all[i].count, done += all[i].done, refused += all[i].refused;
  }
  double took = now() - begin;
  float *ways = malloc(sizeof(float) * count);
  long at = 0;
  for (int i = 0; i < clients; i++) {
    memcpy(ways + at, all[i].ways, sizeof(float) * all[i].count);
    at += all[i].count;
  }
  qsort(ways, count, sizeof *ways, by_size);
  printf("%.0f %.1f %.1f %.2f %.1f\n", done / took, ways[count / 2] * 1e6, ways[count * 99 / 100] * 1e6,
         refused * 100.0 / done, ways[count - 1] * 1e6);
}

static int listener;
static double spent; /* seconds a read, besides */

static void spend(void) {
  if (spent > 0)
    for (double end = now() + spent; now() < end;)
      ;
}

/* The least that an answer to a line takes: the line's first letter says which. */
static void *serve(void *arg) {
  (void)arg;
  char in[4096], out[8 * sizeof in];
  for (;;) {
    int fd = accept(listener, 0, 0), starts = 1;
    for (;;) {
      long n = read(fd, in, sizeof in), len = 0;
      if (n <= 0)
        break;
      for (char *p = in; p < in + n;) {
        if (starts) {
          const char *line = *p == 'a'   ? "given 68719476735 1\n"
                             : *p == 'f' ? "queued 68719476735 1\n"
                             : *p == 'h' ? "opened 1\n"
                             : *p == 'b' ? "bye\n"
                                         : "+PONG\r\n";
          long l = strlen(line);
          memcpy(out + len, line, l);
          len += l;
        }
        char *end = memchr(p, '\n', in + n - p);
        starts = end != 0;
        p = end ? end + 1 : in + n;
      }
      spend();
      send_all(fd, out, len);
    }
    close(fd);
  }
  return 0;
}

int main(int argc, char **words) {
  if (argc == 7 && !strcmp(words[1], "load")) {
    path = words[2];
    in_flight = atoi(words[4]);
    requests = atol(words[5]);
    is_iova = !strcmp(words[6], "iova");
    if (in_flight < 1 || in_flight > MOST)
      return 2;
    run_load(atoi(words[3]));
    return 0;
  }
  if ((argc == 4 || argc == 5) && !strcmp(words[1], "floor")) {
    path = words[2];
    spent = argc == 5 ? atof(words[4]) * 1e-9 : 0;
    struct sockaddr_un a = address();
    unlink(path);
    listener = socket(AF_UNIX, SOCK_STREAM, 0);
    if (bind(listener, (void *)&a, sizeof a) || listen(listener, 4096))
      die("listen");
    pthread_t thread;
    for (int i = 1; i < atoi(words[3]); i++)
      pthread_create(&thread, 0, serve, 0);
    serve(0);
  }
  fprintf(stderr, "usage: service load PATH CLIENTS IN_FLIGHT REQUESTS iova|ping, or service floor PATH CLIENTS [NANOSECONDS]\n");
  return 2;
}
