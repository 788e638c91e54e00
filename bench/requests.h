/* The requests of a real kernel, as bench/requests writes them: read into a list. */
#ifndef REQUESTS_H
#define REQUESTS_H

#include <stdint.h>
#include <stdio.h>

#define TOP_32 1048575UL /* the last frame below 4 GiB, which the requests stay within */

/* `kind` is m: processor `by` mapped so many frames, and was given `lo`; u: it unmapped what begins there; f: it
   flushed. */
struct event {
  char kind;
  unsigned char by;
  uint32_t frames, lo;
};

/* Reads the file into the list, and answers how many events there are: 0 where it has other lines, or none. */
static inline long read_requests(const char *path, struct event *list, long room) {
  FILE *file = fopen(path, "r");
  char line[64];
  long count = 0;
  while (file && fgets(line, sizeof line, file)) {
    unsigned by = 0, frames = 0, lo = 0;
    int is_whole = line[0] == 'm'   ? sscanf(line + 1, "%u %u %x", &by, &frames, &lo) == 3
                   : line[0] == 'u' ? sscanf(line + 1, "%u %x", &by, &lo) == 2
                   : line[0] == 'f' ? sscanf(line + 1, "%u", &by) == 1
                                    : 0;
    if (line[0] == '#')
      continue;
    if (!is_whole || by > 1 || lo > TOP_32 || count == room) {
      count = 0;
      break;
    }
    list[count++] = (struct event){line[0], (unsigned char)by, frames, lo};
  }
  if (file)
    fclose(file);
  return count;
}

#endif
