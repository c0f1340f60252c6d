/* How fast memory is set and copied: the nanoseconds of one call of memset and of one of memcpy on so many bytes. */
#include <stdio.h>
#include <stdlib.h>
#include <string.h>
#include <time.h>

static void *(*volatile set)(void *, int, size_t) = memset;
static void *(*volatile copy)(void *, const void *, size_t) = memcpy;

static double now(void) {
  struct timespec t;
  clock_gettime(CLOCK_MONOTONIC, &t);
  return t.tv_sec * 1e9 + t.tv_nsec;
}

int main(int argc, char **argv) {
  size_t bytes = argc > 1 ? strtoul(argv[1], NULL, 10) : 0;
  unsigned char *to = malloc(bytes), *from = malloc(bytes);
  if (bytes == 0 || to == NULL || from == NULL) {
    fputs("usage: memory BYTES\n", stderr);
    return 1;
  }
  set(from, 1, bytes);
  set(to, 2, bytes);
  double least_set = 1e18, least_copy = 1e18;
  for (int sample = 0; sample < 9; sample++) {
    double start = now();
    for (int i = 0; i < 100; i++)
      set(to, i, bytes);
    double between = now();
    for (int i = 0; i < 100; i++)
      copy(to, from, bytes);
    double end = now();
    if (between - start < least_set)
      least_set = between - start;
    if (end - between < least_copy)
      least_copy = end - between;
  }
  printf("%.0f %.0f\n", least_set / 100, least_copy / 100);
  return 0;
}
