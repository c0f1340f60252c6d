/* Operations on two regions of a shape by pixman: the words, the shapes and what is printed are those of region_bench. */
#include <pixman.h>
#include <stdio.h>
#include <stdlib.h>
#include <string.h>

typedef pixman_region32_t region;
typedef pixman_box32_t box;

static box box_at(int x, int y, int w, int h) {
  box b = {x, y, x + w, y + h};
  return b;
}

static box box_of(const char *shape, int k, int at) {
  int row = k / 64;
  if (!strcmp(shape, "rows"))
    return box_at(0, 4 * k + at, 100, 1);
  if (!strcmp(shape, "columns"))
    return box_at(4 * k + at, 0, 1, 100);
  if (!strcmp(shape, "checkers"))
    return box_at(8 * (k % 64) + 4 * (row % 2) + at, 4 * row + at, 4, 4);
  return box_at(4 * k + at, at, 1, 100);
}

static void make(region *r, const char *shape, int count, int at) {
  box *boxes = malloc((count + 1) * sizeof(box));
  int n = 0;
  for (; n < count; n++)
    boxes[n] = box_of(shape, n, at);
  if (!strcmp(shape, "combs"))
    boxes[n++] = box_at(at, 100 + at, 4 * count, 1);
  pixman_region32_init_rects(r, boxes, n);
  free(boxes);
}

/* pixman has no exclusive or: two differences and their union stand in its place */
static void combine(region *to, const char *name, region *a, region *b) {
  region rest;
  pixman_region32_init(to);
  if (!strcmp(name, "union"))
    pixman_region32_union(to, a, b);
  else if (!strcmp(name, "intersect"))
    pixman_region32_intersect(to, a, b);
  else if (!strcmp(name, "subtract"))
    pixman_region32_subtract(to, a, b);
  else if (!strcmp(name, "xor")) {
    pixman_region32_init(&rest);
    pixman_region32_subtract(to, a, b);
    pixman_region32_subtract(&rest, b, a);
    pixman_region32_union(to, to, &rest);
    pixman_region32_fini(&rest);
  } else if (!strcmp(name, "offset")) {
    pixman_region32_copy(to, a);
    pixman_region32_translate(to, 1, 1);
  } else {
    int n;
    box *boxes = pixman_region32_rectangles(a, &n);
    pixman_region32_fini(to);
    pixman_region32_init_rects(to, boxes, n);
  }
}

int main(int argc, char **argv) {
  if (argc != 5) {
    fputs("usage: pixman OPERATION COUNT SHAPE TIMES\n", stderr);
    return 1;
  }
  int count = atoi(argv[2]);
  long times = atol(argv[4]);
  region a, b, to;
  make(&a, argv[3], count, 0);
  make(&b, argv[3], count, 2);
  for (long i = 0; i <= times; i++) {
    combine(&to, argv[1], &a, &b);
    if (i < times)
      pixman_region32_fini(&to);
  }
  printf("%d\n", pixman_region32_n_rects(&to));
  return 0;
}
