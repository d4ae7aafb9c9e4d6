/* Writes random outlines, and which pixels of a window are dropouts of them by the definitions alone, asked of every
 * gap by itself. Nothing here is an algorithm of a scan converter: tt_scan_dropouts' answers are compared with these.
 *
 *   plain SEED CASES ANSWERS COUNTS
 *
 * The first two files are written, a line a case, in the form that crates/tt_test_pixels/src/dropouts.rt states; the
 * third one says how many cases had what is worth asking, a line for each. All lengths are in 1/8192 pixel. Which
 * points an outline blackens stands in ../plain.h. All that follows is said of rows; for columns it is said of the
 * outline with x and y exchanged.
 *
 *   Lines and gaps. Line j runs through the centres of row j, and gap c of it lies between the centres of columns c and
 *   c + 1. A gap is free where both its pixels are white.
 *
 *   Crossings. An edge crosses a line where its lower end is on the line or below it, and its upper end above it. The
 *   place of a crossing is its x, cut to a whole number. The upper end of an edge that is not level touches the line on
 *   which it is.
 *
 *   Stubs. A contour's next crossing is the one that comes after a crossing along its edges, round from the last to the
 *   first, and `far` is how far from the line the edge ends lie that are passed on the way; so too backward. A crossing
 *   and the next one, or the one before, are a stub where they lie in one gap and have opposite directions, and far is
 *   less than half a pixel, or less than a pixel and the two less than half a pixel apart.
 *
 *   Which gaps ask. A free gap asks for a pixel where a crossing lies in it: any with stubs, where one that touches
 *   counts as well, else one that is of no stub.
 *
 *   For which pixel. It asks for its left pixel. With smart rules it asks for the right one where the least place of
 *   the crossings upward and that of those downward make 65/64 of a pixel or more, each counted from the left centre,
 *   and none as a pixel. Where that pixel is outside the glyph's box, it is the other one. The box has the columns whose
 *   centres lie from the least to the greatest x of all points, or else the nearer one to their middle, of two the right
 *   one. The two are told with the question, since points off the curve may lie outside of the edges.
 *
 *   What is added. A gap gives way where the gap left of it takes the pixel that they have in common: where of the gaps
 *   side by side up to that one, each of which asks for its right pixel, there are one or three, four being counted at
 *   most. First all rows add what their gaps ask for, and then all columns, for which those pixels are black.
 *
 *   Dots, where they are drawn. A contour is a dot if no crossing of it would have a gap ask, by rows or by columns,
 *   whether the gap is free or not, and if its box has at most two columns and two rows, and is at least 3/8 pixel long
 *   one way and 1/8 pixel the other. The pixel that holds the middle of the box is added where it is white at first; a
 *   middle on a border goes right and up.
 */
#include <inttypes.h>

#include "../plain.h"

#define MOST 64
#define CONTOURS 16
#define SIDE 28
/* So many pixels round a window are looked at as well. */
#define ROUND 7

typedef struct {
  Edge edges[MOST];
  int count;
  /* Each contour ends before the edge of a number. */
  int ends[CONTOURS];
  int contours;
  /* The box of all points, those off the curve too. */
  Point least, most;
} Outline;

typedef struct {
  int stubs, smart, dots;
} Rules;

typedef struct {
  int64_t left, bottom, width, height;
} Window;

typedef struct {
  int64_t width, height, margin, rise;
} Frame;

typedef struct {
  Outline outline;
  Window window;
  Frame frame;
} Case;

/* What a case may have that is worth asking. */
enum { ROWS, COLUMNS, STUB, TOUCH, RIGHT, BOX, WAY, CHAIN, DOT, BESIDE, KINDS };

static const char *const kinds[KINDS] = {
  "rows", "columns", "stub", "touch", "right", "box", "way", "chain", "dot", "beside"};

/* The pixels of a window and of some round it, by row and column: 1 for black. */
typedef struct {
  Window area;
  char black[SIDE][SIDE];
} Ink;

/* All that a pass over rows is asked of; one over columns has the outline and the window turned round, but not the ink.
 * */
typedef struct {
  const Outline *outline;
  const Ink *ink;
  Window window;
  Rules rules;
  int64_t first, last;
  int turned;
  int *had;
} Pass;

/* Lines and gaps. */

static int64_t floor_of(int64_t a, int64_t b) { return a / b - (a % b < 0); }

static int64_t centre(int64_t c) { return PIXEL * c + HALF; }

/* The first line, or the first centre, that is not below. */
static int64_t line_from(int64_t y) { return floor_of(y + HALF - 1, PIXEL); }

static int64_t gap_of(int64_t x) { return floor_of(x - HALF, PIXEL); }

static int64_t place_of(int64_t x) { return x - centre(gap_of(x)); }

static Edge upward(Edge e) { return e.b.y < e.a.y ? (Edge){e.b, e.a} : e; }

static int64_t crossing_x(Edge e, int64_t j) {
  Edge up = upward(e);
  __int128 product = (__int128)(up.b.x - up.a.x) * (centre(j) - up.a.y);
  int64_t height = up.b.y - up.a.y;
  return up.a.x + (int64_t)(product / height) - (product % height < 0);
}

/* The upper end of an edge lies on line j. */
static int touches(Edge e, int64_t j) { return e.a.y != e.b.y && upward(e).b.y == centre(j); }

/* The walk along a contour. */

static int crosses_some(Edge e) { return line_from(e.a.y) != line_from(e.b.y); }

/* The line that an edge crosses first, or last. */
static int64_t end_line(Edge e, int first) {
  int64_t from = line_from(e.a.y), to = line_from(e.b.y);
  if (first) return from < to ? from : from - 1;
  return from < to ? to - 1 : to;
}

/* The crossing that comes after that of edge i with line j, forward or backward, of the contour with the edges from one
 * on and before another; whether there is one. It becomes i and j. */
static int next_crossing(const Outline *o, int from, int end, int forward, int *i, int64_t *j, int64_t *far) {
  int start = *i, count = end - from;
  int64_t line = *j, beside = line + (turn(o->edges[start], centre(line)) > 0) * 2 - 1;
  if (!forward) beside = 2 * line - beside;
  *far = 0;
  *j = beside;
  if (turn(o->edges[start], centre(beside)) != 0) return 1;
  for (int n = 0; n < count; n++) {
    /* The end of an edge is passed after it forward, and before it backward. */
    *i = forward ? from + (start - from + n) % count : from + (start - from + count - n - 1) % count;
    int64_t away = llabs(o->edges[*i].b.y - centre(line));
    if (away > *far) *far = away;
    if (forward) *i = from + (*i - from + 1) % count;
    if (!crosses_some(o->edges[*i])) continue;
    *j = end_line(o->edges[*i], forward);
    return *i != start || *j != line;
  }
  return 0;
}

/* The crossing of edge i with line j is a stub with the next one. */
static int is_stub(const Outline *o, int from, int end, int forward, int i, int64_t j) {
  int other = i;
  int64_t line = j, far;
  if (!next_crossing(o, from, end, forward, &other, &line, &far) || line != j) return 0;
  Edge e = o->edges[i], f = o->edges[other];
  int64_t x = crossing_x(e, j), z = crossing_x(f, j);
  if (gap_of(x) != gap_of(z) || turn(e, centre(j)) == turn(f, centre(j))) return 0;
  return far < HALF || (far < PIXEL && llabs(place_of(x) - place_of(z)) < HALF);
}

/* Gaps. */

static int is_black_in(const Pass *it, int64_t c, int64_t j) {
  const Ink *ink = it->ink;
  if (it->turned) return ink->black[c - ink->area.bottom][j - ink->area.left];
  return ink->black[j - ink->area.bottom][c - ink->area.left];
}

/* Notes what a gap of the window had. */
static void note(const Pass *it, int64_t c, int64_t j, int what) {
  Window w = it->window;
  if (w.left <= c && c + 1 < w.left + w.width && w.bottom <= j && j < w.bottom + w.height) it->had[what] = 1;
}

/* What lies in a gap: the least places of what goes downward and upward, how many crossings and touching ends that are,
 * and how many of them have the gap ask. */
typedef struct {
  int64_t least[2];
  int crossings, touching, asking;
} Found;

static void look(const Pass *it, int64_t c, int64_t j, int from, int end, Found *found) {
  for (int i = from; i < end; i++) {
    Edge e = it->outline->edges[i];
    int crosses = turn(e, centre(j)) != 0, touching = it->rules.stubs && touches(e, j);
    if (!crosses && !touching) continue;
    int64_t x = crosses ? crossing_x(e, j) : upward(e).b.x;
    if (gap_of(x) != c) continue;
    int64_t *least = &found->least[e.a.y < e.b.y];
    if (place_of(x) < *least) *least = place_of(x);
    found->crossings += crosses;
    found->touching += touching;
    found->asking += it->rules.stubs
      || !(is_stub(it->outline, from, end, 1, i, j) || is_stub(it->outline, from, end, 0, i, j));
  }
}

/* Whether gap c of line j asks for a pixel, and for which. */
static int asks(const Pass *it, int64_t c, int64_t j, int64_t *pixel) {
  Found found = {{PIXEL, PIXEL}, 0, 0, 0};
  if (is_black_in(it, c, j) || is_black_in(it, c + 1, j)) return 0;
  for (int k = 0, from = 0; k < it->outline->contours; from = it->outline->ends[k++]) {
    look(it, c, j, from, it->outline->ends[k], &found);
  }
  if (found.asking == 0) {
    if (found.crossings > 0) note(it, c, j, STUB);
    return 0;
  }
  *pixel = it->rules.smart && found.least[0] + found.least[1] >= PIXEL + PIXEL / 64 ? c + 1 : c;
  if (found.crossings == 0) note(it, c, j, TOUCH);
  if (*pixel != c) note(it, c, j, RIGHT);
  if (*pixel < it->first || it->last < *pixel) {
    note(it, c, j, BOX);
    *pixel = *pixel < it->first ? c + 1 : c;
  }
  return 1;
}

/* How many gaps side by side, up to the one left of gap c, each ask for their right pixel; so many at most. */
static int gaps_before(const Pass *it, int64_t c, int64_t j, int most) {
  int64_t pixel;
  if (most == 0 || !asks(it, c - 1, j, &pixel) || pixel != c) return 0;
  return 1 + gaps_before(it, c - 1, j, most - 1);
}

/* Gap c of line j adds pixel p. */
static int adds(const Pass *it, int64_t c, int64_t j, int64_t p) {
  int64_t pixel;
  if (!asks(it, c, j, &pixel) || pixel != p) return 0;
  int side_by_side = gaps_before(it, c, j, 4);
  if (side_by_side > 1) note(it, c, j, CHAIN);
  if (side_by_side % 2 == 0) return 1;
  note(it, c, j, WAY);
  return 0;
}

static int is_added(const Pass *it, int64_t p, int64_t j) { return adds(it, p, j, p) || adds(it, p - 1, j, p); }

/* Passes. */

static void find_box(Pass *it) {
  const Outline *o = it->outline;
  int64_t low = o->least.x, high = o->most.x;
  it->first = it->last = 0;
  if (o->count == 0) return;
  it->first = line_from(low);
  it->last = gap_of(high);
  if (it->first <= it->last) return;
  /* The two columns lie round the pixel's side at which the right one begins. */
  if (2 * PIXEL * it->first <= low + high) it->last = it->first;
  else it->first = it->last;
}

static Outline turned_round(const Outline *o) {
  Outline it = *o;
  for (int i = 0; i < o->count; i++) {
    Edge e = o->edges[i];
    it.edges[i] = (Edge){{e.a.y, e.a.x}, {e.b.y, e.b.x}};
  }
  it.least = (Point){o->least.y, o->least.x};
  it.most = (Point){o->most.y, o->most.x};
  return it;
}

/* Dots. */

/* Some crossing of a contour would have its gap ask, by rows. */
static int asks_somewhere(const Outline *o, int from, int end, int stubs) {
  for (int i = from; i < end; i++) {
    Edge e = o->edges[i], up = upward(e);
    for (int64_t j = line_from(up.a.y); j < line_from(up.b.y); j++) {
      if (stubs || !(is_stub(o, from, end, 1, i, j) || is_stub(o, from, end, 0, i, j))) return 1;
    }
    if (stubs && touches(e, gap_of(up.b.y))) return 1;
  }
  return 0;
}

/* The columns of a box, or its rows, from its least place to its greatest. */
static int64_t columns_of(int64_t low, int64_t high) {
  int64_t first = line_from(low), last = gap_of(high);
  return first <= last ? last - first + 1 : 1;
}

/* Whether a contour is a dot, and its pixel. */
static int is_dot(const Outline *o, const Outline *round, int from, int end, int stubs, Point *pixel) {
  if (from == end) return 0;
  Point least = o->edges[from].a, most = least;
  for (int i = from; i < end; i++) {
    Point ends[] = {o->edges[i].a, o->edges[i].b};
    for (int k = 0; k < 2; k++) {
      if (ends[k].x < least.x) least.x = ends[k].x;
      if (ends[k].y < least.y) least.y = ends[k].y;
      if (ends[k].x > most.x) most.x = ends[k].x;
      if (ends[k].y > most.y) most.y = ends[k].y;
    }
  }
  if (columns_of(least.x, most.x) > 2 || columns_of(least.y, most.y) > 2) return 0;
  int64_t wide = most.x - least.x, high = most.y - least.y;
  if ((wide > high ? wide : high) < 3 * PIXEL / 8 || (wide < high ? wide : high) < PIXEL / 8) return 0;
  *pixel = (Point){floor_of(least.x + most.x, 2 * PIXEL), floor_of(least.y + most.y, 2 * PIXEL)};
  return !asks_somewhere(o, from, end, stubs) && !asks_somewhere(round, from, end, stubs);
}

/* Adds the dots of a window that are white at first. */
static void add_dots(const Outline *o, const Outline *round, Rules rules, Window w, const Ink *ink,
  char dropout[SIDE][SIDE], const Pass *rows, const Pass *columns, int *had) {
  for (int k = 0, from = 0; k < o->contours; from = o->ends[k++]) {
    Point p;
    if (!is_dot(o, round, from, o->ends[k], rules.stubs, &p)) continue;
    int64_t c = p.x - w.left, r = p.y - w.bottom;
    if (c < 0 || w.width <= c || r < 0 || w.height <= r || ink->black[r + ROUND][c + ROUND]) continue;
    dropout[r][c] = had[DOT] = 1;
    if (p.x < rows->first || rows->last < p.x || p.y < columns->first || columns->last < p.y) had[BESIDE] = 1;
  }
}

static void ink_outline(const Outline *o, Window w, Ink *ink) {
  ink->area = (Window){w.left - ROUND, w.bottom - ROUND, w.width + 2 * ROUND, w.height + 2 * ROUND};
  for (int64_t r = 0; r < ink->area.height; r++) {
    for (int64_t c = 0; c < ink->area.width; c++) {
      Point p = {centre(ink->area.left + c), centre(ink->area.bottom + r)};
      ink->black[r][c] = is_black(o->edges, o->count, p);
    }
  }
}

/* Marks the dropouts of a window by its rows from the bottom up, and what the case had. The pixels that the rows add
 * are looked for one further than gaps of columns are. */
static void find_dropouts(const Outline *o, Rules rules, Window w, const Ink *ink, char dropout[SIDE][SIDE], int *had) {
  Outline round = turned_round(o);
  Ink both = *ink;
  Pass rows = {o, ink, w, rules, 0, 0, 0, had};
  Pass columns = {&round, &both, {w.bottom, w.left, w.height, w.width}, rules, 0, 0, 1, had};
  find_box(&rows);
  find_box(&columns);
  for (int64_t r = 1 - ROUND; r < w.height + 2; r++) {
    for (int64_t c = 0; c < w.width; c++) {
      if (is_added(&rows, w.left + c, w.bottom + r)) both.black[r + ROUND][c + ROUND] = 1;
    }
  }
  for (int64_t r = 0; r < w.height; r++) {
    for (int64_t c = 0; c < w.width; c++) {
      int by_rows = both.black[r + ROUND][c + ROUND] != ink->black[r + ROUND][c + ROUND];
      int by_columns = is_added(&columns, w.bottom + r, w.left + c);
      if (by_rows) had[ROWS] = 1;
      if (by_columns) had[COLUMNS] = 1;
      dropout[r][c] = by_rows || by_columns;
    }
  }
  if (rules.dots) add_dots(o, &round, rules, w, ink, dropout, &rows, &columns, had);
}

/* Cases are written. */

static void write_case(FILE *out, Rules rules, const Case *it) {
  Window w = it->window;
  Frame f = it->frame;
  const Outline *o = &it->outline;
  fprintf(out, "%d %d %d", rules.stubs, rules.smart, rules.dots);
  fprintf(out, " %" PRId64 " %" PRId64 " %" PRId64 " %" PRId64, w.left, w.bottom, w.width, w.height);
  fprintf(out, " %" PRId64 " %" PRId64 " %" PRId64 " %" PRId64 " %d", f.width, f.height, f.margin, f.rise, o->count);
  for (int i = 0; i < o->count; i++) {
    Edge e = o->edges[i];
    fprintf(out, " %" PRId64 " %" PRId64 " %" PRId64 " %" PRId64, e.a.x, e.a.y, e.b.x, e.b.y);
  }
  fprintf(out, " %d", o->contours);
  for (int k = 0; k < o->contours; k++) fprintf(out, " %d", o->ends[k]);
  fprintf(out, " %" PRId64 " %" PRId64 " %" PRId64 " %" PRId64, o->least.x, o->least.y, o->most.x, o->most.y);
  putc('\n', out);
}

static void write_answer(FILE *out, Window w, char dropout[SIDE][SIDE]) {
  for (int64_t r = w.height - 1; r >= 0; r--) {
    for (int64_t c = 0; c < w.width; c++) putc(dropout[r][c] ? '#' : '.', out);
    putc('/', out);
  }
  putc('\n', out);
}

/* Outlines are made. */

/* What the numbers of an outline are multiples of, and how many pixels it has each way. */
typedef struct {
  int64_t grid, width, height;
} Ground;

static int64_t on_grid(Ground g, int64_t v) { return floor_of(v, g.grid) * g.grid; }

/* A number near 0 to some pixels, at times exactly at a centre. */
static int64_t coordinate(Ground g, int64_t pixels) {
  int64_t v = on_grid(g, pick(-PIXEL / 2, pixels * PIXEL + PIXEL / 2));
  return one_in(8) ? centre(floor_of(v, PIXEL)) : v;
}

/* How thick a stroke is: mostly less than a pixel, at times nothing. */
static int64_t thin(Ground g) { return one_in(10) ? 0 : on_grid(g, pick(g.grid, one_in(5) ? 3 * PIXEL / 2 : PIXEL)); }

/* Adds a contour, from one of its points on, forward or backward; at times it is left open, or an edge lies twice. */
static void add_contour(Outline *o, const Point *points, int count) {
  int first = (int)pick(0, count - 1), back = one_in(2), edges = one_in(12) ? count - 1 : count;
  if (o->contours == CONTOURS || o->count + count + 1 > MOST) return;
  for (int i = 0; i < edges; i++) {
    Point a = points[(first + i) % count], b = points[(first + i + 1) % count];
    if (back) a = points[(first + 2 * count - i) % count], b = points[(first + 2 * count - i - 1) % count];
    o->edges[o->count++] = (Edge){a, b};
  }
  if (one_in(30)) {
    o->edges[o->count] = o->edges[o->count - 1];
    o->count++;
  }
  /* At times it is one contour with the one before, which so has edges that do not meet. */
  if (o->contours > 0 && one_in(10)) o->contours--;
  o->ends[o->contours++] = o->count;
}

static void add_box(Outline *o, int64_t left, int64_t bottom, int64_t right, int64_t top) {
  Point points[] = {{left, bottom}, {left, top}, {right, top}, {right, bottom}};
  add_contour(o, points, 4);
}

static void add_stem(Outline *o, Ground g) {
  int64_t x = coordinate(g, g.width), y = coordinate(g, g.height);
  add_box(o, x, y, x + thin(g), one_in(4) ? y + thin(g) : coordinate(g, g.height));
}

/* Some stems in one gap or two, side by side. */
static void add_comb(Outline *o, Ground g) {
  int64_t x = coordinate(g, g.width), y = coordinate(g, g.height), top = coordinate(g, g.height);
  for (int64_t n = pick(2, 4); n > 0; n--) {
    int64_t right = x + thin(g) / 4;
    add_box(o, x, y, right, one_in(3) ? coordinate(g, g.height) : top);
    x = right + thin(g) / 4;
  }
}

/* Some stems in gaps side by side, mostly each nearer to the right pixel. */
static void add_fence(Outline *o, Ground g) {
  int64_t x = centre(pick(-1, 3)) + on_grid(g, pick(PIXEL / 4, PIXEL)), y = coordinate(g, g.height);
  for (int64_t n = pick(2, 6), top = coordinate(g, g.height); n > 0; n--, x += PIXEL) {
    add_box(o, x, y, x + thin(g) / 8, top);
  }
}

/* A box of a pixel or two. */
static void add_dot(Outline *o, Ground g) {
  int64_t x = coordinate(g, g.width), y = coordinate(g, g.height);
  add_box(o, x, y, x + on_grid(g, pick(0, one_in(4) ? 2 * PIXEL : PIXEL)), y + on_grid(g, pick(0, one_in(4) ? 2 * PIXEL : PIXEL)));
}

static void add_diagonal(Outline *o, Ground g) {
  int64_t x = coordinate(g, g.width), y = coordinate(g, g.height);
  int64_t z = coordinate(g, g.width), top = coordinate(g, g.height), wide = thin(g);
  Point points[] = {{x, y}, {x + wide, y}, {z + wide, top}, {z, top}};
  add_contour(o, points, 4);
}

/* Two boxes, one in the other, of thin strokes. */
static void add_ring(Outline *o, Ground g) {
  int64_t left = coordinate(g, g.width), bottom = coordinate(g, g.height);
  int64_t right = left + on_grid(g, pick(0, 4 * PIXEL)), top = bottom + on_grid(g, pick(0, 4 * PIXEL));
  add_box(o, left, bottom, right, top);
  add_box(o, right - thin(g), bottom + thin(g), left + thin(g), top - thin(g));
}

/* A foot with a tip on it, which may be pointed. */
static void add_tip(Outline *o, Ground g) {
  int64_t left = coordinate(g, g.width), bottom = coordinate(g, g.height), wide = thin(g);
  int64_t foot = bottom + on_grid(g, pick(0, 2 * PIXEL)), top = foot + on_grid(g, pick(0, 2 * PIXEL));
  int64_t x = left + on_grid(g, pick(0, 2 * PIXEL)), right = x + wide + on_grid(g, pick(0, 2 * PIXEL));
  int64_t inset = one_in(2) ? wide / 2 : 0;
  Point points[] = {{left, bottom}, {left, foot}, {x, foot}, {x + inset, top}, {x + wide - inset, top},
    {x + wide, foot}, {right, foot}, {right, bottom}};
  add_contour(o, points, 8);
}

/* Any points; of two in a row one may lie straight above or beside the other, or be the same. */
static void add_polygon(Outline *o, Ground g) {
  Point points[8];
  int count = (int)pick(1, 8);
  for (int i = 0; i < count; i++) {
    points[i] = (Point){coordinate(g, g.width), coordinate(g, g.height)};
    if (i > 0 && one_in(4)) points[i].x = points[i - 1].x;
    if (i > 0 && one_in(4)) points[i].y = points[i - 1].y;
    if (one_in(6)) points[i].x = on_grid(g, points[i].x / 8);
  }
  add_contour(o, points, count);
}

/* There and back, a stroke of no width. */
static void add_thread(Outline *o, Ground g) {
  Point points[] = {{coordinate(g, g.width), coordinate(g, g.height)}, {0, 0}};
  points[1] = (Point){one_in(2) ? points[0].x : coordinate(g, g.width), coordinate(g, g.height)};
  add_contour(o, points, 2);
}

static void add_shape(Outline *o, Ground g) {
  switch (pick(0, 11)) {
  case 0: add_comb(o, g); break;
  case 1: add_diagonal(o, g); break;
  case 2: add_ring(o, g); break;
  case 3: add_tip(o, g); break;
  case 4: add_polygon(o, g); break;
  case 5: add_thread(o, g); break;
  case 6: add_box(o, coordinate(g, g.width), coordinate(g, 1), coordinate(g, g.width), coordinate(g, 1)); break;
  case 7: add_fence(o, g); break;
  case 8:
  case 9: add_dot(o, g); break;
  default: add_stem(o, g); break;
  }
}

static void move(Outline *o, int64_t x, int64_t y) {
  for (int i = 0; i < o->count; i++) {
    Edge *e = &o->edges[i];
    *e = (Edge){{clamped(e->a.x + x), clamped(e->a.y + y)}, {clamped(e->b.x + x), clamped(e->b.y + y)}};
  }
}

static void random_outline(Outline *o, Ground g) {
  o->count = o->contours = 0;
  for (int64_t n = pick(1, 4); n > 0; n--) add_shape(o, g);
  if (one_in(2)) *o = turned_round(o);
  /* One end stands as far away as it may. */
  if (o->count > 0 && one_in(500)) o->edges[pick(0, o->count - 1)].a = (Point){1 - REACH, one_in(2) ? REACH - 1 : 0};
  /* A contour without edges is one of its own. */
  if (o->contours < CONTOURS && one_in(40)) o->ends[o->contours++] = o->count;
}

static void widen(Outline *o, Point p) {
  if (p.x < o->least.x) o->least.x = p.x;
  if (p.y < o->least.y) o->least.y = p.y;
  if (p.x > o->most.x) o->most.x = p.x;
  if (p.y > o->most.y) o->most.y = p.y;
}

/* The box of the edges, or at times a greater one: a point lies off the curve, near the edges. */
static void add_box_of_points(Outline *o, Ground g) {
  o->least = o->most = o->count > 0 ? o->edges[0].a : (Point){0, 0};
  for (int i = 0; i < o->count; i++) {
    widen(o, o->edges[i].a);
    widen(o, o->edges[i].b);
  }
  while (o->count > 0 && !one_in(3)) {
    Point at = o->edges[pick(0, o->count - 1)].a;
    widen(o, (Point){clamped(at.x + on_grid(g, pick(-2 * PIXEL, 2 * PIXEL))),
      clamped(at.y + on_grid(g, pick(-2 * PIXEL, 2 * PIXEL)))});
  }
}

/* Half of the frames have all rows of the window and of five pixels round it, on which the code answers by the tape that
 * it was given; for others it makes one. */
static Frame random_frame(Window w) {
  Frame f = {pick(1, 12), pick(1, 12), pick(0, 4), w.bottom + pick(-8, 8)};
  if (one_in(2)) {
    int64_t above = pick(5, 8);
    f.height = w.height + 13;
    f.rise = w.bottom + w.height + above - f.margin;
  }
  return f;
}

static void random_case(Case *it) {
  static const int64_t grids[] = {128, 128, 128, 128, 1, 1, 512, 4096};
  Ground g = {grids[pick(0, 7)], pick(1, 10), pick(1, 10)};
  int64_t x = one_in(20) ? pick(-100000, 100000) : pick(-8, 8), y = one_in(20) ? pick(-100000, 100000) : pick(-8, 8);
  random_outline(&it->outline, g);
  move(&it->outline, x * PIXEL, y * PIXEL);
  add_box_of_points(&it->outline, g);
  it->window = (Window){x - 1, y - 1, g.width + 2, g.height + 2};
  if (one_in(5)) it->window = (Window){x + pick(-2, g.width), y + pick(-2, g.height), pick(1, 12), pick(1, 12)};
  if (one_in(100)) it->window.left += pick(-100, 100);
  it->frame = random_frame(it->window);
}

/* All ends of an outline stay within the limits, if the outline is moved. */
static int may_move(const Outline *o, int64_t x, int64_t y) {
  for (int i = 0; i < o->count; i++) {
    Point ends[] = {o->edges[i].a, o->edges[i].b};
    for (int k = 0; k < 2; k++) {
      if (clamped(ends[k].x + x) != ends[k].x + x || clamped(ends[k].y + y) != ends[k].y + y) return 0;
    }
  }
  return 1;
}

/* The laws of dots, of which one in four cases is asked: dots only add, each contour one pixel at most; no contour of the
 * size of a dot that has no gap ask is white at its middle; and an outline moved by whole pixels has its dropouts moved. */
static void keep_laws(const Case *it, Rules rules, const Ink *ink, char dropout[SIDE][SIDE]) {
  static char without[SIDE][SIDE], shifted[SIDE][SIDE];
  static Ink far;
  Window w = it->window;
  Outline o = it->outline, round = turned_round(&o);
  int64_t x = pick(-1000, 1000), y = pick(-1000, 1000);
  int had[KINDS] = {0}, added = 0;
  find_dropouts(&o, (Rules){rules.stubs, rules.smart, 0}, w, ink, without, had);
  for (int64_t r = 0; r < w.height; r++) {
    for (int64_t c = 0; c < w.width; c++) {
      if (without[r][c] && !dropout[r][c]) fail("a dropout is lost with dots");
      added += dropout[r][c] && !without[r][c];
    }
  }
  if (added > (rules.dots ? o.contours : 0)) fail("more dots than contours");
  for (int k = 0, from = 0; rules.dots && k < o.contours; from = o.ends[k++]) {
    Point p;
    if (!is_dot(&o, &round, from, o.ends[k], rules.stubs, &p)) continue;
    int64_t c = p.x - w.left, r = p.y - w.bottom;
    if (c < 0 || w.width <= c || r < 0 || w.height <= r) continue;
    if (!ink->black[r + ROUND][c + ROUND] && !dropout[r][c]) fail("a dot is white");
  }
  if (!may_move(&o, x * PIXEL, y * PIXEL)) return;
  move(&o, x * PIXEL, y * PIXEL);
  o.least = (Point){o.least.x + x * PIXEL, o.least.y + y * PIXEL};
  o.most = (Point){o.most.x + x * PIXEL, o.most.y + y * PIXEL};
  w.left += x, w.bottom += y;
  ink_outline(&o, w, &far);
  find_dropouts(&o, rules, w, &far, shifted, had);
  for (int64_t r = 0; r < w.height; r++) {
    for (int64_t c = 0; c < w.width; c++) {
      if (shifted[r][c] != dropout[r][c]) fail("a moved outline has other dropouts");
    }
  }
}

/* Writes a case for each of the four rules, and counts what they had. */
static void ask(FILE *cases, FILE *answers, const Case *it, long *counts) {
  Ink ink;
  char dropout[SIDE][SIDE];
  ink_outline(&it->outline, it->window, &ink);
  for (int type = 0; type < 4; type++) {
    Rules rules = {type % 2 == 0, type / 2, one_in(2)};
    int had[KINDS] = {0};
    find_dropouts(&it->outline, rules, it->window, &ink, dropout, had);
    if (one_in(4)) keep_laws(it, rules, &ink, dropout);
    write_case(cases, rules, it);
    write_answer(answers, it->window, dropout);
    for (int k = 0; k < KINDS; k++) counts[k] += had[k];
  }
}

int main(int count, char **words) {
  if (count != 5) fail("four words are needed: SEED CASES ANSWERS COUNTS");
  state = strtoull(words[1], NULL, 10);
  FILE *cases = fopen(words[2], "w"), *answers = fopen(words[3], "w"), *counted = fopen(words[4], "w");
  if (!cases || !answers || !counted) fail("a file cannot be written");
  long counts[KINDS] = {0};
  static Case it;
  for (int n = 0; n < 20000; n++) {
    random_case(&it);
    ask(cases, answers, &it, counts);
  }
  for (int k = 0; k < KINDS; k++) fprintf(counted, "%s %ld\n", kinds[k], counts[k]);
  if (ferror(cases) || ferror(answers) || ferror(counted)) fail("a file cannot be written");
  if (fclose(cases) || fclose(answers) || fclose(counted)) fail("a file cannot be written");
  return 0;
}
