/* Writes random outlines, and what each pixel and each edge of them is by the definitions alone, asked of every centre.
 * Nothing here is an algorithm of a scan converter: tt_scan's answers are compared with these.
 *
 *   plain SEED CASES ANSWERS
 *
 * Both files are written, a line a case, in the form that crates/tt_test_pixels/src/pixels.rt tells. All lengths are
 * in 1/8192 pixel; a centre is that of a pixel, in column c and row r, rows counted from the top. The definitions stand
 * in ../plain.h.
 */
#include <inttypes.h>

#include "../plain.h"

#define RISE (INT64_C(1) << 20)
#define MOST 64

typedef struct {
  int64_t width, height, margin, rise;
} Frame;

typedef struct {
  Frame frame;
  Edge edges[MOST];
  int count;
} Case;

static Point centre(Frame f, int64_t c, int64_t r) {
  return (Point){PIXEL * (c - f.margin) + HALF, PIXEL * (f.rise + f.margin - r) - HALF};
}

/* The answers. */

static void write_pixels(FILE *out, const Case *it) {
  for (int64_t r = 0; r < it->frame.height; r++) {
    for (int64_t c = 0; c < it->frame.width; c++) {
      putc(is_black(it->edges, it->count, centre(it->frame, c, r)) ? '#' : '.', out);
    }
    putc('/', out);
  }
  putc('\n', out);
}

/* What an edge does in a row, by a search through all columns from two left of its box to two right of it. The columns that
 * it touches lie side by side, and those that it turns round go on to the right without end: that too is looked at. */
static void write_cross(FILE *out, Frame f, Edge e, int64_t r) {
  int64_t left = e.a.x < e.b.x ? e.a.x : e.b.x, right = e.a.x < e.b.x ? e.b.x : e.a.x;
  int64_t y = centre(f, 0, r).y, from = 0, to = 0, first = 0;
  int touches = 0, turns = 0;
  for (int64_t c = left / PIXEL - 2 + f.margin; c <= right / PIXEL + 2 + f.margin; c++) {
    Point p = centre(f, c, r);
    if (lies_on(e, p)) {
      if (touches && c != to + 1) fail("an edge touches columns apart");
      if (!touches) from = c;
      to = c;
      touches = 1;
    }
    if (turned(e, p) != 0 && !turns) {
      first = c;
      turns = 1;
    }
    if (turned(e, p) != (turns ? turn(e, y) : 0)) fail("an edge turns round columns apart");
  }
  if (turns != (turn(e, y) != 0)) fail("an edge turns where it does not");
  fprintf(out, "|%d %" PRId64, turn(e, y), first);
  if (touches) fprintf(out, " touch %" PRId64 " %" PRId64, from, to);
}

static void write_edges(FILE *out, const Case *it) {
  for (int i = 0; i < it->count; i++) {
    Edge e = it->edges[i];
    int64_t first = 0, end = 0;
    for (int64_t r = 0; r < it->frame.height; r++) {
      if (!is_between(e.a.y, e.b.y, centre(it->frame, 0, r).y)) continue;
      if (end != 0 && end != r) fail("an edge meets rows apart");
      if (end == 0) first = r;
      end = r + 1;
    }
    if (end == 0) fputs("rows none", out);
    else fprintf(out, "rows %" PRId64 " %" PRId64, first, end);
    for (int64_t r = 0; r < it->frame.height; r++) write_cross(out, it->frame, e, r);
    putc('/', out);
  }
  putc('\n', out);
}

static void write_case(FILE *out, const char *what, const Case *it) {
  Frame f = it->frame;
  fprintf(out, "%s %" PRId64 " %" PRId64 " %" PRId64 " %" PRId64 " %d", what, f.width, f.height, f.margin, f.rise, it->count);
  for (int i = 0; i < it->count; i++) {
    Edge e = it->edges[i];
    fprintf(out, " %" PRId64 " %" PRId64 " %" PRId64 " %" PRId64, e.a.x, e.a.y, e.b.x, e.b.y);
  }
  putc('\n', out);
}

/* The cases. */

static Frame random_frame(void) {
  Frame f = {pick(1, 12), pick(1, 12), 0, pick(-3, 15)};
  if (one_in(60)) f.width = pick(13, 400);
  if (one_in(60)) f.height = pick(13, 100);
  if (one_in(1500)) f.width = 16384, f.height = pick(1, 2);
  if (one_in(1500)) f.height = 4096, f.width = pick(1, 2);
  if (one_in(2)) f.margin = pick(1, 4);
  if (one_in(10)) f.margin = pick(0, 64);
  if (one_in(8)) f.rise = pick(-200, 200);
  if (one_in(20)) f.rise = pick(-131072, 131072);
  if (one_in(100)) f.rise = pick(0, 1) ? RISE - 1 : 1 - RISE;
  return f;
}

/* How the numbers of a case are drawn: often all on one grid, so that edges run through centres and over one another. */
enum { ANY, PIXELS, CENTRES, HALVES, NEAR_HALVES, FAR, KINDS };

/* A number near low to high, which may be some pixels outside. */
static int64_t coordinate(int kind, int64_t low, int64_t high) {
  int64_t v = pick(low - 2 * PIXEL, high + 2 * PIXEL);
  if (one_in(12)) v = pick(low - 40 * PIXEL, high + 40 * PIXEL);
  int64_t down = v & -PIXEL;
  switch (kind) {
  case PIXELS: v = down; break;
  case CENTRES: v = down + HALF; break;
  case HALVES: v &= -HALF; break;
  case NEAR_HALVES: v = (v & -HALF) + pick(-1, 1); break;
  case FAR:
    if (one_in(2)) v = pick(1 - REACH, REACH - 1);
    if (one_in(4)) v = one_in(2) ? REACH - 1 : 1 - REACH;
    if (one_in(4)) v = (v & -HALF);
    break;
  }
  return clamped(v);
}

static Point random_point(Frame f, int kind) {
  int x = one_in(6) ? (int)pick(0, KINDS - 2) : kind, y = one_in(6) ? (int)pick(0, KINDS - 2) : kind;
  return (Point){
      coordinate(x, -PIXEL * f.margin, PIXEL * (f.width - f.margin)),
      coordinate(y, PIXEL * (f.rise + f.margin - f.height), PIXEL * (f.rise + f.margin)),
  };
}

static void add(Case *it, Point a, Point b) {
  if (it->count < MOST) it->edges[it->count++] = (Edge){a, b};
}

/* The next point of an outline: mostly another one, at times straight above or beside the last, or the last once more. */
static Point random_next(Frame f, int kind, Point last) {
  Point p = random_point(f, kind);
  int64_t way = pick(1, 10);
  if (way <= 2) p.x = last.x;
  if (way == 3 || way == 4) p.y = last.y;
  if (way == 5 && one_in(3)) p = last;
  return p;
}

static void add_outline(Case *it, int kind, int closed) {
  Point first = random_point(it->frame, kind), last = first;
  for (int64_t n = pick(1, 9); n > 0; n--) {
    Point p = random_next(it->frame, kind, last);
    add(it, last, p);
    last = p;
  }
  if (closed) add(it, last, first);
}

/* Turns the last edges round, or writes some once more: edges one upon the other, in one way or both. */
static void add_again(Case *it) {
  int count = it->count;
  for (int64_t n = pick(1, 6); n > 0 && count > 0; n--) {
    Edge e = it->edges[pick(0, count - 1)];
    if (one_in(2)) add(it, e.a, e.b);
    else add(it, e.b, e.a);
  }
}

static void random_case(Case *it) {
  it->frame = random_frame();
  it->count = 0;
  int kind = one_in(10) ? FAR : (int)pick(0, KINDS - 2);
  int closed = !one_in(4);
  if (one_in(200)) return;
  for (int64_t n = one_in(2) ? 1 : pick(1, 4); n > 0; n--) add_outline(it, kind, closed);
  if (one_in(4)) add_again(it);
}

int main(int count, char **words) {
  if (count != 4) fail("three words are needed: SEED CASES ANSWERS");
  state = strtoull(words[1], NULL, 10);
  FILE *cases = fopen(words[2], "w"), *answers = fopen(words[3], "w");
  if (!cases || !answers) fail("a file cannot be written");
  static Case it;
  for (int n = 0; n < 8000; n++) {
    random_case(&it);
    if (n % 8 != 0) {
      write_case(cases, "pixels", &it);
      write_pixels(answers, &it);
      continue;
    }
    /* The search goes through all columns of an edge, so far edges get few rows. */
    if (it.frame.height > 12) it.frame.height = 12;
    if (it.count > 4) it.count = 4;
    write_case(cases, "edges", &it);
    write_edges(answers, &it);
  }
  if (ferror(cases) || ferror(answers) || fclose(cases) || fclose(answers)) fail("a file cannot be written");
  return 0;
}
