/* See lines.h. */
#include "lines.h"

#include <inttypes.h>
#include <stdlib.h>
#include <string.h>

static size_t count_of(const struct question *q) { return q->ends.size / sizeof(uint64_t); }

static const struct tt_line *line_of(const struct drawn_lines *it, size_t i) {
  return (const struct tt_line *)it->told.at + i;
}

/* The bytes of the lines that are drawn. */
static size_t used_by(const struct drawn_lines *it) {
  size_t used = 0;
  for (size_t i = 0; i < it->answer.count; i++) {
    expect(line_of(it, i)->at == used, "tt_draw_lines: line %zu stands at %" PRIu64 ", and not at %zu", i,
           line_of(it, i)->at, used);
    used += (size_t)line_of(it, i)->picture.row_bytes * line_of(it, i)->picture.height;
  }
  return used;
}

/* The answer that comes before that of the room for lines: of the refused job, or of the refused font. Where neither is
 * refused, it is that of a text without a pixel (62), since tt_draw finds that after both. With TT_BEST tt_draw finds it
 * after the glyphs, so TT_NONE asks in the place of TT_BEST, for the face that TT_BEST reads. */
static struct tt_answer refused_first(const struct question *q) {
  struct tt_job job = *(const struct tt_job *)q->job.at;
  if (job.margin <= 64) job.margin = 0;
  if (job.fit == TT_BEST && job.face == 0) job.face = 1;
  if (job.fit == TT_BEST) job.fit = TT_NONE;
  struct question none = *q;
  none.text = held(NULL, 0);
  none.job = held(&job, sizeof job);
  struct outcome it = asked(&draws, &none, 0);
  struct tt_answer answer = it.answer;
  forget(it);
  give_up(none.text);
  give_up(none.job);
  return answer;
}

/* The answer where the room for lines has too few of them. */
static struct tt_answer without_room(const struct question *q) {
  struct tt_answer first = refused_first(q);
  if (first.status != TT_JOB || first.number != 62) return first;
  return (struct tt_answer){.status = TT_ROOM, .count = count_of(q)};
}

struct drawn_lines asked_lines(const struct question *q, size_t rows, size_t lines) {
  struct room answer = room_of(sizeof(struct tt_answer));
  struct drawn_lines it = {.rows = room_of(rows), .told = room_of(lines * sizeof(struct tt_line))};
  uint32_t status = tt_draw_lines(q->font.at, q->font.size, q->text.at, q->text.size, (const uint64_t *)q->ends.at,
                                  count_of(q), (const struct tt_job *)q->job.at, q->keep, it.rows.at, rows,
                                  (struct tt_line *)it.told.at, lines, (struct tt_answer *)answer.at);
  it.answer = *(struct tt_answer *)answer.at;
  expect_answer("tt_draw_lines", status, &it.answer);
  expect(kept_from(answer, sizeof it.answer), "tt_draw_lines writes before its answer");
  give_up(answer);
  if (lines < count_of(q)) {
    struct tt_answer wanted = without_room(q);
    expect(are_alike(&it.answer, &wanted), "tt_draw_lines: status %u, and not %u, with room for %zu lines of %zu",
           status, wanted.status, lines, count_of(q));
    expect(kept_from(it.rows, 0) && kept_from(it.told, 0), "tt_draw_lines: too few lines' room, and it was written to");
    it.answer.count = 0;
    return it;
  }
  if (!expect(it.answer.count <= count_of(q), "tt_draw_lines: %" PRIu64 " lines", it.answer.count)) it.answer.count = 0;
  size_t used = used_by(&it);
  expect(used <= rows, "tt_draw_lines: %zu bytes in a room of %zu", used, rows);
  expect(kept_from(it.rows, used), "tt_draw_lines writes behind its rows");
  expect(kept_from(it.told, it.answer.count * sizeof(struct tt_line)),
         "tt_draw_lines tells of lines that it does not draw");
  expect((status == TT_DONE) == (it.answer.count == count_of(q)) || status != TT_DONE,
         "tt_draw_lines: done with %" PRIu64 " lines of %zu", it.answer.count, count_of(q));
  expect(status == TT_ROOM ? it.answer.bytes > rows : it.answer.bytes == used,
         "tt_draw_lines: status %u, %" PRIu64 " bytes, of which %zu are rows, in a room of %zu", status,
         it.answer.bytes, used, rows);
  return it;
}

struct tt_answer asked_room(const struct question *q) {
  struct room answer = room_of(sizeof(struct tt_answer));
  uint32_t status = tt_lines_room(q->font.at, q->font.size, q->text.at, q->text.size, (const uint64_t *)q->ends.at,
                                  count_of(q), (const struct tt_job *)q->job.at, q->keep,
                                  (struct tt_answer *)answer.at);
  struct tt_answer told = *(struct tt_answer *)answer.at;
  expect_answer("tt_lines_room", status, &told);
  expect(kept_from(answer, sizeof told), "tt_lines_room writes before its answer");
  give_up(answer);
  return told;
}

/* The room that is asked for is that of the lines that are drawn, and the same line is refused. */
static void compare_room(const struct question *q, const struct tt_answer *drawn) {
  struct tt_answer told = asked_room(q);
  expect(are_alike(&told, drawn), "tt_lines_room: status %u, %" PRIu64 " bytes, and not status %u, %" PRIu64,
         told.status, told.bytes, drawn->status, drawn->bytes);
}

void forget_lines(struct drawn_lines it) {
  give_up(it.rows);
  give_up(it.told);
}

/* Compares a line with the picture of its text alone, and the line that stopped the call with its refusal. */
static void compare_line(const struct question *q, const struct drawn_lines *it, size_t i) {
  const uint64_t *ends = (const uint64_t *)q->ends.at;
  size_t from = i > 0 ? ends[i - 1] : 0;
  if (ends[i] < from || ends[i] > q->text.size) {
    expect(it->answer.status == TT_JOB && it->answer.number == 67, "tt_draw_lines: a line without end, and status %u",
           it->answer.status);
    return;
  }
  if (((const struct tt_job *)q->job.at)->blank && ends[i] == from) {
    static const struct tt_picture none;
    expect(i < it->answer.count && memcmp(&line_of(it, i)->picture, &none, sizeof none) == 0,
           "tt_draw_lines: blank line %zu has a picture, and status %u", i, it->answer.status);
    return;
  }
  struct question alone = *q;
  alone.text = held(q->text.at + from, ends[i] - from);
  struct outcome one = asked(&draws, &alone, 0);
  if (i == it->answer.count) {
    struct tt_answer own = it->answer;
    own.bytes = own.count = 0;
    expect(are_alike(&own, &one.answer), "tt_draw_lines: stopped by status %u, and line %zu alone has status %u",
           own.status, i, one.answer.status);
  } else {
    size_t size = one.answer.bytes;
    forget(one);
    one = asked(&draws, &alone, size);
    const struct tt_line *line = line_of(it, i);
    expect(one.answer.status == TT_DONE && memcmp(&line->picture, one.told.at, sizeof line->picture) == 0 &&
               line->at + size <= it->rows.size && memcmp(it->rows.at + line->at, one.room.at, size) == 0,
           "tt_draw_lines: line %zu is another alone, of status %u", i, one.answer.status);
  }
  forget(one);
  give_up(alone.text);
}

/* Asks with each room that is wanted in turn, and with a byte less than that. */
static struct drawn_lines in_enough(const struct question *q) {
  struct drawn_lines it = asked_lines(q, 0, count_of(q));
  while (it.answer.status == TT_ROOM) {
    size_t wanted = it.answer.bytes, count = it.answer.count;
    struct drawn_lines less = asked_lines(q, wanted - 1, count_of(q));
    expect(are_alike(&less.answer, &it.answer), "tt_draw_lines: status %u with a byte less than is wanted",
           less.answer.status);
    forget_lines(less);
    forget_lines(it);
    it = asked_lines(q, wanted, count_of(q));
    if (!expect(it.answer.count > count || it.answer.status != TT_ROOM, "tt_draw_lines: no further line in more room"))
      break;
  }
  return it;
}

struct drawn_lines tried_lines(struct question *q) {
  static const size_t keeps[] = {0, 100, 10000, SIZE_MAX, 1 << 20};
  if (count_of(q) > 0) forget_lines(asked_lines(q, 1 << 16, count_of(q) - 1));
  struct drawn_lines it = in_enough(q);
  for (size_t i = 0; i < count_of(q) && i <= it.answer.count; i++) compare_line(q, &it, i);
  compare_room(q, &it.answer);
  for (size_t i = 0; i < sizeof keeps / sizeof *keeps; i++) {
    q->keep = keeps[i];
    struct drawn_lines other = asked_lines(q, it.rows.size + i, count_of(q) + i);
    expect(are_alike(&other.answer, &it.answer) && memcmp(other.rows.at, it.rows.at, it.answer.bytes) == 0 &&
               memcmp(other.told.at, it.told.at, it.answer.count * sizeof(struct tt_line)) == 0,
           "tt_draw_lines: another answer where %zu bytes are kept", keeps[i]);
    compare_room(q, &it.answer);
    forget_lines(other);
  }
  return it;
}
