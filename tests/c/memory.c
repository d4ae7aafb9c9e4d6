/* Refuses each block and growth that a call asks for, in turn, until one asks for no more. Where memory was refused the
 * status says so, nothing was written, and no block is left in use; or, where it could be done without, the answer is
 * whole. memory FONT TEXT.., the texts in hexadecimal.
 */
#include <inttypes.h>
#include <stdio.h>
#include <stdlib.h>
#include <string.h>

#include "blocks.h"
#include "calls.h"
#include "lines.h"

/* So many refusals may be done without, and of lines so many a line. */
#define SPARED 5

/* tt_draw_lines and tt_lines_room ask for so many blocks at the least. */
#define LEAST 5

static struct room read_font(const char *name) {
  static uint8_t bytes[1 << 23];
  FILE *file = fopen(name, "rb");
  if (!file) stop("cannot read a font");
  size_t size = fread(bytes, 1, sizeof bytes, file);
  fclose(file);
  return held(bytes, size);
}

static bool are_same(const struct outcome *one, const struct outcome *other) {
  return are_alike(&one->answer, &other->answer) && one->room.size == other->room.size &&
         memcmp(one->room.at, other->room.at, one->room.size) == 0 && one->told.size == other->told.size &&
         memcmp(one->told.at, other->told.at, one->told.size) == 0;
}

static void count_them(long asked_for, long least, long spared, long most) {
  expect(asked_for >= least, "only %ld blocks were asked for", asked_for);
  expect(spared <= most, "%ld refusals were done without", spared);
}

static void refuse_each(const struct call *call, const struct question *q, const char *of) {
  struct outcome whole = tried(call, q);
  long nth = 0, spared = 0;
  for (;; nth++) {
    blocks_refused = 0;
    blocks_granted = nth;
    struct outcome it = asked(call, q, whole.room.size);
    blocks_granted = -1;
    if (it.answer.status == TT_DONE || blocks_refused == 0) {
      spared += blocks_refused;
      expect(are_same(&it, &whole), "%s: another answer without block %ld: status %u", call->name, nth,
             it.answer.status);
    } else {
      expect(it.answer.status == TT_MEMORY, "%s: status %u without block %ld", call->name, it.answer.status, nth);
    }
    forget(it);
    if (blocks_refused == 0) break;
  }
  count_them(nth, call->blocks, spared, SPARED);
  forget(whole);
  verdict("%s%s, with each of %ld blocks refused", call->name, of, nth);
}

/* Where memory runs out after some lines, these are whole. */
static void refuse_each_of_lines(struct question *q, const char *of) {
  struct drawn_lines whole = tried_lines(q);
  size_t lines = q->ends.size / sizeof(uint64_t);
  long nth = 0, spared = 0, between = 0;
  for (;; nth++) {
    blocks_refused = 0;
    blocks_granted = nth;
    struct drawn_lines it = asked_lines(q, whole.rows.size, lines);
    blocks_granted = -1;
    if (it.answer.status != TT_MEMORY || blocks_refused == 0) {
      spared += blocks_refused;
      expect(are_alike(&it.answer, &whole.answer), "tt_draw_lines: status %u without block %ld", it.answer.status, nth);
    }
    expect(it.answer.count <= whole.answer.count && it.answer.bytes <= whole.answer.bytes &&
               memcmp(it.rows.at, whole.rows.at, it.answer.bytes) == 0 &&
               memcmp(it.told.at, whole.told.at, it.answer.count * sizeof(struct tt_line)) == 0,
           "tt_draw_lines: other lines without block %ld", nth);
    if (it.answer.status == TT_MEMORY && it.answer.count > 0) between++;
    forget_lines(it);
    if (blocks_refused == 0) break;
  }
  count_them(nth, LEAST, spared, SPARED * (long)lines);
  expect(lines < 2 || between > 0, "memory was refused for no line after the first");
  forget_lines(whole);
  verdict("tt_draw_lines%s, with each of %ld blocks refused", of, nth);
}

/* The room of lines is whole, or that of some lines before the one for which memory was refused. */
static void refuse_each_of_room(struct question *q, const char *of) {
  struct tt_answer whole = asked_room(q);
  size_t lines = q->ends.size / sizeof(uint64_t);
  long nth = 0, spared = 0;
  for (;; nth++) {
    blocks_refused = 0;
    blocks_granted = nth;
    struct tt_answer it = asked_room(q);
    blocks_granted = -1;
    if (it.status != TT_MEMORY || blocks_refused == 0) {
      spared += blocks_refused;
      expect(are_alike(&it, &whole), "tt_lines_room: status %u without block %ld", it.status, nth);
    }
    expect(it.count <= whole.count && it.bytes <= whole.bytes, "tt_lines_room: more room without block %ld", nth);
    if (blocks_refused == 0) break;
  }
  count_them(nth, LEAST, spared, SPARED * (long)lines);
  verdict("tt_lines_room%s, with each of %ld blocks refused", of, nth);
}

static void refuse_to_messages(void) {
  static const struct tt_answer answers[] = {
      {.status = TT_FONT, .number = 47, .table = {'g', 'l', 'y', 'f'}, .offset = 123456},
      {.status = TT_JOB, .number = 60},
      {.status = TT_ROOM, .bytes = 12345678, .count = 1},
      {.status = TT_MEMORY}};
  for (size_t i = 0; i < sizeof answers / sizeof *answers; i++) {
    struct question q = {.told = held(&answers[i], sizeof answers[i])};
    refuse_each(&messages, &q, "");
    give_up(q.told);
  }
}

int main(int count, char **words) {
  if (count < 3) stop("want FONT TEXT..");
  struct room font = read_font(words[1]), nothing = held(NULL, 0);
  struct room texts[16];
  uint64_t ends[16];
  uint8_t all[4096];
  size_t used = 0, lines = (size_t)count - 2;
  if (lines > 16) stop("too many texts");
  for (size_t i = 0; i < lines; i++) {
    texts[i] = held_hex(words[i + 2], strlen(words[i + 2]));
    if (texts[i].size > sizeof all - used) stop("long texts");
    memcpy(all + used, texts[i].at, texts[i].size);
    used += texts[i].size;
    ends[i] = used;
  }
  struct room together = held(all, used);
  for (uint32_t fit = TT_FULL; fit <= TT_BEST; fit++) {
    for (uint32_t grow = 0; grow <= 1; grow++) {
      char of[64];
      snprintf(of, sizeof of, " with the fit %" PRIu32 "%s", fit, grow ? ", grown" : "");
      struct tt_job job = {.size = 16, .margin = 0, .fit = fit, .grow = grow};
      struct question q = question_of(font, texts[0], job);
      q.count = UINT32_MAX;
      for (const struct call *const *it = every_call; *it; it++) {
        if ((*it)->has_job || *it == &maps_job) refuse_each(*it, &q, of);
      }
      give_up(q.ends);
      q.text = together;
      q.ends = held(ends, lines * sizeof *ends);
      q.keep = 1 << 20;
      refuse_each_of_lines(&q, of);
      refuse_each_of_room(&q, of);
      give_up_question(q);
    }
  }
  struct question q = question_of(font, texts[0], (struct tt_job){.size = 16, .fit = TT_FULL});
  for (const struct call *const *it = every_call; *it; it++) {
    if ((*it)->blocks == 0) refuse_each(*it, &q, "");
  }
  for (const struct call *const *it = every_call; *it; it++) {
    if ((*it)->blocks > 0) continue;
    blocks_granted = 0;
    forget(tried(*it, &q));
    expect(blocks_granted == 0, "%s asks for a block", (*it)->name);
    blocks_granted = -1;
  }
  verdict("calls that take no memory ask for no block");
  refuse_to_messages();
  give_up(nothing);
  return 0;
}
