/* One of the two allocators that the cases of cases.c run on: `ours` (ours.c), through the library for C, or `kernel`
   (kernel.c), the kernel's own code. Each has one domain at a time, and one processor; or what bench/threads runs, where each
   client is a thread's, and the kernel's has a processor for it. */
#ifndef SIDE_H
#define SIDE_H

#include <stdint.h>

#define TOP 68719476735UL /* the last frame of a domain */

struct side {
  /* A new domain of the frames from `start` on, with so many clients (the kernel knows none). */
  void (*begin)(uint64_t start, int clients);
  /* The first of so many frames that the client is given, none above the limit; 0 where there is no place. */
  uint64_t (*ask)(int client, uint64_t frames, uint64_t limit);
  /* The client gives them up, and they wait for a flush. Where the queue is full, one comes first. */
  void (*drop)(int client, uint64_t lo, uint64_t frames);
  /* A flush, after which everything that waited may be given again. */
  void (*flush)(void);
  /* The client gives them up, and a flush of their own comes at once. */
  void (*drop_and_flush)(int client, uint64_t lo, uint64_t frames);
  /* The next search begins at the top, where a search remembers the last one. */
  void (*from_top)(void);
  /* How many ranges of more than 32 frames are somebody's, once nothing waits. */
  long (*live)(void);
  /* The thread that calls it makes the requests of this client; NULL where nothing is to be done. */
  void (*enter)(int client);
  /* It makes no more; NULL as well. */
  void (*leave)(int client);
};

extern const struct side ours, kernel;

/* What bench/threads is linked with has a list of these, up to one whose `name` is NULL. */
struct named_side {
  const char *name;
  const struct side *side;
};

extern const struct named_side sides[];

/* Ends the program where it isn't so. */
void must(int is, const char *what);

#endif
