/* Refuses one growth of a program that is run with this library in LD_PRELOAD: the one whose number, counted from 1, is in
   the environment variable REFUSED_GROWTH gets no memory. Then a line on standard error says so. */
#include <stdatomic.h>
#include <stddef.h>
#include <stdlib.h>
#include <unistd.h>

void *__libc_malloc(size_t size);
void *__libc_realloc(void *memory, size_t size);

static atomic_long growths;

static int is_refused(void) {
  static const char line[] = "a growth was refused\n";
  const char *number = getenv("REFUSED_GROWTH");
  if (number == NULL || atomic_fetch_add(&growths, 1) + 1 != atol(number))
    return 0;
  if (write(STDERR_FILENO, line, sizeof line - 1) < 0)
    abort();
  return 1;
}

void *malloc(size_t size) { return is_refused() ? NULL : __libc_malloc(size); }

void *realloc(void *memory, size_t size) { return is_refused() ? NULL : __libc_realloc(memory, size); }
