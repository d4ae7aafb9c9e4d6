/* What the plain programs of the folders beside this file share: points and edges, which points an outline blackens by
 * the definitions alone, and random numbers. All lengths are in 1/8192 pixel. The definitions:
 *
 *   a point is right of an edge from a to b where side(e, p) is below 0, and left of it where it is above 0;
 *   a point lies on an edge where side(e, p) is 0 and the point is in the box of a and b, whose border counts;
 *   an edge that rises (ay <= py < by) and has the point on its right winds once round it, and one that falls
 *   (by <= py < ay) and has the point on its left once the other way;
 *   a point is black where it lies on some edge, or where the edges wind round it in all not 0 times.
 */
#include <stdint.h>
#include <stdio.h>
#include <stdlib.h>

#define PIXEL INT64_C(8192)
#define HALF INT64_C(4096)
#define REACH (INT64_C(1) << 30)

typedef struct {
  int64_t x, y;
} Point;

typedef struct {
  Point a, b;
} Edge;

/* The definitions. */

/* -1, 0 or 1, as the side is below, at or above 0. */
static int side(Edge e, Point p) {
  __int128 s = (__int128)(e.b.x - e.a.x) * (p.y - e.a.y) - (__int128)(e.b.y - e.a.y) * (p.x - e.a.x);
  return (s > 0) - (s < 0);
}

static int is_between(int64_t a, int64_t b, int64_t z) { return (a <= z && z <= b) || (b <= z && z <= a); }

static int lies_on(Edge e, Point p) {
  return is_between(e.a.y, e.b.y, p.y) && is_between(e.a.x, e.b.x, p.x) && side(e, p) == 0;
}

static int turn(Edge e, int64_t y) { return (e.a.y <= y && y < e.b.y) - (e.b.y <= y && y < e.a.y); }

static int turned(Edge e, Point p) {
  if (e.a.y <= p.y && p.y < e.b.y && side(e, p) < 0) return 1;
  if (e.b.y <= p.y && p.y < e.a.y && side(e, p) > 0) return -1;
  return 0;
}

static int is_black(const Edge *edges, int count, Point p) {
  int winding = 0;
  for (int i = 0; i < count; i++) {
    if (lies_on(edges[i], p)) return 1;
    winding += turned(edges[i], p);
  }
  return winding != 0;
}

static void fail(const char *why) {
  fprintf(stderr, "plain: %s\n", why);
  exit(1);
}

/* Random numbers. */

static uint64_t state;

/* splitmix64 */
static uint64_t next(void) {
  uint64_t z = state += UINT64_C(0x9E3779B97F4A7C15);
  z = (z ^ (z >> 30)) * UINT64_C(0xBF58476D1CE4E5B9);
  z = (z ^ (z >> 27)) * UINT64_C(0x94D049BB133111EB);
  return z ^ (z >> 31);
}

/* A number from low to high. */
static int64_t pick(int64_t low, int64_t high) { return low + (int64_t)(next() % (uint64_t)(high - low + 1)); }

/* One time in n. */
static int one_in(int n) { return pick(1, n) == 1; }

static int64_t clamped(int64_t v) { return v >= REACH ? REACH - 1 : v <= -REACH ? 1 - REACH : v; }
