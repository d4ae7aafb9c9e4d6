/* Tries what no font of the other questions shows: NULL where there are 0 bytes, numbers out of range, texts that are
 * no UTF-8, lines whose ends are wrong, the largest font, axes and instances. edges FONT TEXT VARIABLE: of the text, in
 * hexadecimal, each character has to have a glyph in the font; VARIABLE is the font of variable.txt.
 */
#define _DEFAULT_SOURCE
#include <inttypes.h>
#include <stdio.h>
#include <stdlib.h>
#include <string.h>
#include <sys/mman.h>

#include "blocks.h"
#include "calls.h"
#include "lines.h"

#define FONT_LIMIT 67108864

static struct room font;

static const struct tt_job usual = {.size = 16, .margin = 0, .fit = TT_FULL, .grow = 0};

static struct room text_of(const char *text) { return held(text, strlen(text)); }

/* What a call answers to a text and a job, tried in all rooms. */
static struct tt_answer answer_to(const struct call *call, struct room with, struct room text, struct tt_job job) {
  struct question q = question_of(with, text, job);
  q.count = UINT32_MAX;
  struct outcome it = tried(call, &q);
  struct tt_answer answer = it.answer;
  forget(it);
  give_up_question(q);
  return answer;
}

/* All calls of a text refuse it with that status and number; those that take no job only if `all` says so. */
static void all_refuse(const char *name, struct room with, struct room text, struct tt_job job, bool all,
                       uint32_t status, uint32_t number) {
  for (const struct call *const *it = every_call; *it; it++) {
    const struct call *call = *it;
    if (!call->has_text || (!call->has_job && !all)) continue;
    if (call == &labels && number == 62) continue; /* no label is empty */
    struct tt_answer answer = answer_to(call, with, text, job);
    expect(answer.status == status && answer.number == number, "%s: status %u, number %u", call->name, answer.status,
           answer.number);
  }
  struct question q = question_of(with, text, job);
  uint64_t end = text.size;
  give_up(q.ends);
  q.ends = held(&end, sizeof end);
  struct drawn_lines it = tried_lines(&q);
  expect(it.answer.status == status && it.answer.number == number && it.answer.count == 0,
         "tt_draw_lines: status %u, number %u", it.answer.status, it.answer.number);
  forget_lines(it);
  give_up_question(q);
  verdict("%s", name);
}

static void try_jobs(void) {
  static const struct {
    const char *name;
    struct tt_job job;
    uint32_t number;
  } cases[] = {
      {"a way to fit of 4", {.size = 16, .fit = 4}, 66},
      {"the largest number as way to fit, and all else wrong", {.margin = UINT32_MAX, .fit = UINT32_MAX}, 66},
      {"a size of 0", {.size = 0, .fit = TT_NONE}, 60},
      {"a size of 301, and a margin of 65", {.size = 301, .margin = 65, .fit = TT_BEST, .grow = 1}, 60},
      {"the largest number as size", {.size = UINT32_MAX, .fit = TT_FULL}, 60},
      {"a margin of 65", {.size = 16, .margin = 65, .fit = TT_FULL}, 64},
      {"the largest number as margin", {.size = 16, .margin = UINT32_MAX, .fit = TT_FALLBACK, .grow = 1}, 64},
  };
  struct room text = text_of("A"), none = held(NULL, 0);
  for (size_t i = 0; i < sizeof cases / sizeof *cases; i++) {
    all_refuse(cases[i].name, font, text, cases[i].job, false, TT_JOB, cases[i].number);
    all_refuse(cases[i].name, none, text, cases[i].job, false, TT_JOB, cases[i].number);
  }
  give_up(text);
  give_up(none);
}

static void try_texts(void) {
  static const char *const wrong[] = {"\xff",         "A\x80",            "\xc3",
                                      "\xc0\x80",     "\xe0\x80\xaf",     "\xed\xa0\x80",
                                      "\xf4\x90\x80\x80", "AAA\xf0\x9f\x98", "\xf8\x88\x80\x80\x80"};
  for (size_t i = 0; i < sizeof wrong / sizeof *wrong; i++) {
    struct room text = text_of(wrong[i]);
    all_refuse("bytes that are no UTF-8", font, text, usual, true, TT_NOT_UTF8, 0);
    give_up(text);
  }
  static char many[4097 * 2];
  for (size_t i = 0; i < sizeof many; i += 2) memcpy(many + i, "\xce\xa9", 2);
  struct room text = held(many, sizeof many);
  all_refuse("4,097 characters", font, text, usual, true, TT_JOB, 61);
  give_up(text);
  text = held(many, sizeof many - 2);
  struct tt_answer answer = answer_to(&maps, font, text, usual);
  expect(answer.status == TT_DONE && answer.count == 4096, "tt_map: status %u", answer.status);
  answer = answer_to(&characters, font, text, (struct tt_job){.size = 1, .margin = 1, .fit = TT_NONE});
  expect(answer.status == TT_DONE && answer.count == 4096, "tt_characters: status %u", answer.status);
  verdict("4,096 characters");
  give_up(text);
  text = held("A\0B", 3);
  answer = answer_to(&maps, font, text, usual);
  expect(answer.status == TT_DONE && answer.count == 3, "tt_map: status %u", answer.status);
  verdict("a zero in a text");
  give_up(text);
}

static void try_nothing(struct room text) {
  struct room none = held(NULL, 0);
  all_refuse("a font of no byte", none, text, usual, true, TT_FONT, 2);
  all_refuse("a text of no byte", font, none, usual, false, TT_JOB, 62);

  struct tt_answer answer;
  struct tt_font told_font;
  struct tt_picture told;
  struct tt_job wide = {.size = 16, .margin = 2, .fit = TT_FULL, .grow = 1};
  uint8_t rows[4096];
  expect(tt_open(NULL, 0, &told_font, &answer) == TT_FONT && memcmp(answer.table, "file", 4) == 0 && answer.offset == 0,
         "tt_open: status %u", answer.status);
  expect(tt_map(NULL, 0, NULL, 0, NULL, 0, &answer) == TT_FONT, "tt_map, of a font: status %u", answer.status);
  expect(tt_map(font.at, font.size, NULL, 0, NULL, 0, &answer) == TT_DONE && answer.count == 0, "tt_map: status %u",
         answer.status);
  expect(tt_characters(font.at, font.size, NULL, 0, &wide, NULL, 0, &answer) == TT_DONE && answer.count == 0,
         "tt_characters: status %u", answer.status);
  expect(tt_draw(font.at, font.size, NULL, 0, &wide, NULL, 0, &told, &answer) == TT_ROOM && answer.bytes <= sizeof rows,
         "tt_draw: status %u", answer.status);
  expect(tt_draw(font.at, font.size, NULL, 0, &wide, rows, sizeof rows, &told, &answer) == TT_DONE,
         "tt_draw, of rows: status %u", answer.status);
  expect(tt_draw_band(font.at, font.size, NULL, 0, &wide, 0, 0, NULL, 0, &told, &answer) == TT_DONE,
         "tt_draw_band: status %u", answer.status);
  struct tt_label_job label = {.size = 16, .fit = TT_FULL};
  struct tt_label told_label;
  expect(tt_label(font.at, font.size, NULL, 0, &label, NULL, 0, &told_label, &answer) == TT_ROOM &&
             answer.bytes <= sizeof rows,
         "tt_label: status %u", answer.status);
  expect(tt_label(font.at, font.size, NULL, 0, &label, rows, sizeof rows, &told_label, &answer) == TT_DONE &&
             told_label.picture.width == 1 && told_label.missing == 0,
         "tt_label, of rows: status %u", answer.status);
  expect(tt_draw_lines(font.at, font.size, NULL, 0, NULL, 0, &wide, 0, NULL, 0, NULL, 0, &answer) == TT_DONE &&
             answer.bytes == 0 && answer.count == 0,
         "tt_draw_lines: status %u", answer.status);
  expect(tt_lines_room(font.at, font.size, NULL, 0, NULL, 0, &wide, 0, &answer) == TT_DONE && answer.bytes == 0 &&
             answer.count == 0,
         "tt_lines_room: status %u", answer.status);
  struct tt_strike strike;
  expect(tt_strike(NULL, 0, &wide, &strike, &answer) == TT_FONT && answer.number == 2, "tt_strike, of a font: status %u",
         answer.status);
  expect(tt_message(&answer, NULL, 0, &answer) == TT_ROOM, "tt_message: status %u", answer.status);
  verdict("NULL where there are 0 bytes");
  give_up(none);
}

/* What tt_glyphs answers to so many times glyph 1. */
static struct tt_answer listed(struct room with, size_t count, struct tt_job job, size_t told_room) {
  static uint32_t list[4098];
  static struct tt_bitmap told[4098];
  static uint8_t rows[4096];
  struct tt_answer answer;
  for (size_t i = 0; i < count; i++) list[i] = 1;
  uint32_t status = tt_glyphs(with.at, with.size, list, count, &job, rows, sizeof rows, told, told_room, &answer);
  expect(status == answer.status, "tt_glyphs: the status is %u, and the answer's is %u", status, answer.status);
  return answer;
}

/* The refusals of a list of glyphs, in their order. */
static void try_lists(void) {
  struct room none = held(NULL, 0);
  struct tt_job wrong = {.margin = 65, .fit = 4}, low = {.margin = 65, .fit = TT_BEST},
                wide = {.size = 16, .margin = 65, .fit = TT_BEST, .grow = 1};
  const struct {
    const char *name;
    struct tt_answer got, wanted;
  } cases[] = {
      {"room for too few entries", listed(none, 2, wrong, 1), {.status = TT_ROOM, .count = 2}},
      {"a list by a way to fit of 4", listed(none, 4097, wrong, 4097), {.status = TT_JOB, .number = 66}},
      {"a list of size 0", listed(none, 4097, low, 4097), {.status = TT_JOB, .number = 60}},
      {"a list of 4,097 glyphs", listed(none, 4097, wide, 4097), {.status = TT_JOB, .number = 61}},
      {"a list by a font of no byte", listed(none, 1, wide, 1), {.status = TT_FONT, .number = 2, .table = "file"}},
      {"an empty list", listed(font, 0, wide, 0), {.status = TT_DONE}},
  };
  for (size_t i = 0; i < sizeof cases / sizeof *cases; i++) {
    expect(are_alike(&cases[i].got, &cases[i].wanted), "tt_glyphs: status %u, number %u, not status %u, number %u",
           cases[i].got.status, cases[i].got.number, cases[i].wanted.status, cases[i].wanted.number);
    verdict("%s", cases[i].name);
  }
  struct tt_answer answer;
  expect(tt_glyphs(font.at, font.size, NULL, 0, &wide, NULL, 0, NULL, 0, &answer) == TT_DONE, "tt_glyphs: status %u",
         answer.status);
  verdict("NULL where there is no glyph");
  struct tt_answer many = listed(font, 4096, wide, 4096), once = listed(font, 1, wide, 1);
  expect(many.status == TT_DONE && many.count == 4096 && many.bytes == once.bytes, "tt_glyphs: status %u", many.status);
  verdict("4,096 times a glyph");
  expect(tt_version() == TT_RENDER_VERSION, "tt_version: %" PRIu32, tt_version());
  verdict("the version");
  give_up(none);
}

/* The refusals of a label's own fields, in their order, and what is just not refused. */
static void try_labels(void) {
  static char many[4097];
  memset(many, 'A', sizeof many);
  struct room none = held(NULL, 0), one = text_of("A"), wrong = text_of("\xff"), large = held(many, sizeof many);
  const struct {
    const char *name;
    struct room with, text;
    struct tt_label_job job;
    uint32_t status, number;
  } cases[] = {
      {"a label's fit of 4, and an alignment of 3", font, one, {.size = 16, .fit = 4, .align = 3}, TT_JOB, 66},
      {"an alignment of 3, and bytes that are no UTF-8", font, wrong, {.size = 16, .align = 3}, TT_JOB, 72},
      {"the largest number as alignment", none, one, {.align = UINT32_MAX}, TT_JOB, 72},
      {"a label's bytes that are no UTF-8, and a size of 0", font, wrong, {.width = 16385}, TT_NOT_UTF8, 0},
      {"a label's size of 0, and a margin of 65", font, one, {.margin = 65, .width = 16385}, TT_JOB, 60},
      {"a label's margin of 65, and a width", font, one, {.size = 16, .margin = 65, .width = 1}, TT_JOB, 64},
      {"a box, and a width", font, one, {.size = 16, .width = 50, .box_width = 50, .box_height = 50}, TT_JOB, 70},
      {"a box without a column", none, large, {.size = 16, .box_height = 50}, TT_JOB, 70},
      {"a box without a row", font, one, {.size = 16, .box_width = UINT32_MAX}, TT_JOB, 70},
      {"a box of 16,385 columns", font, one, {.size = 16, .box_width = 16385, .box_height = 9}, TT_JOB, 70},
      {"a box of 4,097 rows", font, one, {.size = 16, .box_width = 9, .box_height = 4097}, TT_JOB, 70},
      {"a box as wide as both margins",
       font,
       one,
       {.size = 16, .margin = 9, .fit = TT_BEST, .box_width = 18, .box_height = 50},
       TT_JOB,
       70},
      {"a box as high as both margins",
       font,
       one,
       {.size = 16, .margin = 9, .fit = TT_BEST, .box_width = 50, .box_height = 18},
       TT_JOB,
       70},
      {"a label's 17 values of axes, and an alignment of 3", none, wrong, {.align = 3, .axes = 17}, TT_JOB, 73},
      {"a label's fit of 4, and 17 values of axes", font, one, {.size = 16, .fit = 4, .axes = 17}, TT_JOB, 66},
      {"a label's instance of a font without one", font, one, {.size = 16, .instance = 1}, TT_FONT, 3},
      {"a label's margin of 65, and a box", font, one, {.size = 16, .margin = 65, .box_width = 1}, TT_JOB, 64},
      {"a box without a size", font, one, {.box_width = 50, .box_height = 50}, TT_JOB, 60},
      {"a box for 4,097 characters", none, large, {.size = 16, .box_width = 50, .box_height = 50}, TT_JOB, 61},
      {"a box of one pixel", font, one, {.size = 300, .box_width = 1, .box_height = 1}, TT_JOB, 71},
      {"a box of a font of no byte", none, one, {.size = 16, .box_width = 50, .box_height = 50}, TT_FONT, 2},
      {"a box that is larger than its text", font, one, {.size = 16, .box_width = 50, .box_height = 50}, TT_DONE, 0},
      {"a width of 16,385", none, large, {.size = 16, .width = 16385}, TT_JOB, 69},
      {"the largest number as width", font, one, {.size = 16, .width = UINT32_MAX, .fit = TT_BEST}, TT_JOB, 69},
      {"a width of both margins", font, one, {.size = 16, .margin = 64, .width = 128}, TT_JOB, 69},
      {"a label of 4,097 characters", none, large, {.size = 16, .width = 16384}, TT_JOB, 61},
      {"a label by a font of no byte", none, one, {.size = 16, .width = 1}, TT_FONT, 2},
      {"a width of one more than both margins", font, one, {.size = 16, .margin = 64, .width = 129}, TT_DONE, 0},
      {"a width of 16,384", font, one, {.size = 16, .width = 16384, .align = TT_RIGHT}, TT_DONE, 0},
      {"a label of face 0 by the number 1", font, one, {.size = 16, .face = 1, .align = TT_CENTRE}, TT_DONE, 0},
  };
  static uint8_t rows[1 << 20];
  for (size_t i = 0; i < sizeof cases / sizeof *cases; i++) {
    struct tt_label told = {.size = 7};
    struct tt_answer answer;
    uint32_t status = tt_label(cases[i].with.at, cases[i].with.size, cases[i].text.at, cases[i].text.size, &cases[i].job,
                               rows, sizeof rows, &told, &answer);
    expect_answer("tt_label", status, &answer);
    expect(status == cases[i].status && answer.number == cases[i].number, "tt_label: status %u, number %u", status,
           answer.number);
    const struct tt_label_job *job = &cases[i].job;
    uint32_t width = job->width ? job->width : job->box_width;
    expect(status == TT_DONE ? told.size == 16 && (width == 0 || told.picture.width == width) &&
                                   (job->box_height == 0 || told.picture.height == job->box_height)
                             : told.size == 7,
           "tt_label: status %u, and size %" PRIu64 ", %u columns and %u rows are told", status, told.size,
           told.picture.width, told.picture.height);
    verdict("%s", cases[i].name);
  }
  give_up(none);
  give_up(one);
  give_up(wrong);
  give_up(large);
}

/* The offsets of the characters of a text. */
static void try_offsets(const char *name, const char *bytes, uint32_t face, const uint64_t *wanted, size_t count) {
  struct room text = text_of(bytes);
  struct tt_job job = {.size = 16, .margin = 1, .fit = TT_NONE, .face = face};
  struct tt_pen told[16];
  struct tt_character places[16];
  struct tt_answer answer;
  expect(tt_pens(font.at, font.size, text.at, text.size, &job, told, 16, &answer) == TT_DONE && answer.count == count,
         "tt_pens: status %u, %" PRIu64 " pens", answer.status, answer.count);
  for (size_t i = 0; i < count && i < answer.count; i++) {
    expect(told[i].offset == wanted[i], "tt_pens: character %zu at byte %" PRIu64, i, told[i].offset);
  }
  expect(tt_characters(font.at, font.size, text.at, text.size, &job, places, 16, &answer) == TT_DONE &&
             answer.count == count,
         "tt_characters: status %u, %" PRIu64 " characters", answer.status, answer.count);
  for (size_t i = 0; i < count && i < answer.count; i++) {
    expect(places[i].offset == wanted[i], "tt_characters: character %zu at byte %" PRIu64, i, places[i].offset);
  }
  give_up(text);
  verdict("%s", name);
}

static void try_all_offsets(void) {
  const char *selected = "\xef\xb8\x8f" "A" "\xef\xb8\x8f\xef\xb8\x8f\xf3\xa0\x84\x80" "B";
  try_offsets("offsets of characters of one to four bytes", "A\xc3\xa9\xe2\x82\xac\xf0\x9d\x84\x9e" "B", 0,
              (const uint64_t[]){0, 1, 3, 6, 10}, 5);
  try_offsets("offsets beside selectors, read widely", selected, 1, (const uint64_t[]){3, 14}, 2);
  try_offsets("the offset of a letter between selectors", "\xef\xb8\x8f" "A" "\xef\xb8\x8f\xef\xb8\x8f", 1,
              (const uint64_t[]){3}, 1);
  try_offsets("offsets of selectors, read strictly", selected, 0, (const uint64_t[]){0, 3, 4, 7, 10, 14}, 6);
  try_offsets("no offset of selectors alone", "\xef\xb8\x8f\xef\xb8\x8f", 1, NULL, 0);
}

/* A font that is no collection has face 0 alone, which the number 1 means. */
static void try_faces(struct room text) {
  struct tt_job second = {.size = 16, .margin = 0, .fit = TT_BEST, .grow = 0, .face = 2};
  struct tt_answer answer = {.status = 0};
  struct tt_font told_font;
  struct tt_glyph glyphs[4096];
  expect(tt_faces(NULL, 0, &answer) == TT_FONT && answer.number == 2 && memcmp(answer.table, "file", 4) == 0,
         "tt_faces, of no byte: status %u", answer.status);
  expect(tt_faces(font.at, font.size, &answer) == TT_DONE && answer.count == 1, "tt_faces: status %u", answer.status);
  for (uint32_t face = 0; face < 2; face++) {
    expect(tt_open_face(font.at, font.size, face, &told_font, &answer) == TT_DONE, "tt_open_face: status %u",
           answer.status);
    expect(tt_map_face(font.at, font.size, face, text.at, text.size, glyphs, 4096, &answer) == TT_DONE &&
               glyphs[0].selector == 0,
           "tt_map_face: status %u", answer.status);
  }
  expect(tt_open_face(font.at, font.size, 2, &told_font, &answer) == TT_FONT && answer.number == 25,
         "tt_open_face, of another face: status %u", answer.status);
  expect(tt_map_face(font.at, font.size, UINT32_MAX, text.at, text.size, glyphs, 4096, &answer) == TT_FONT &&
             answer.number == 25,
         "tt_map_face, of another face: status %u", answer.status);
  verdict("faces of a font that is no collection");
  all_refuse("a face that the font lacks", font, text, second, false, TT_FONT, 25);
}

/* Draws lines that end there; so many are drawn before the status stops them. */
static void try_ends(const char *name, struct room text, const uint64_t *ends, size_t count, struct tt_job job,
                     uint32_t status, uint32_t number, uint64_t drawn) {
  struct question q = question_of(font, text, job);
  give_up(q.ends);
  q.ends = held(ends, count * sizeof *ends);
  struct drawn_lines it = tried_lines(&q);
  expect(it.answer.status == status && it.answer.number == number && it.answer.count == drawn,
         "tt_draw_lines: status %u, number %u after %" PRIu64 " lines", it.answer.status, it.answer.number,
         it.answer.count);
  forget_lines(it);
  give_up_question(q);
  verdict("%s", name);
}

/* A refused job comes before too small a room for lines, and the room before a line's end. */
static void try_order(const char *name, struct room text, struct tt_job job, size_t lines, uint32_t status,
                      uint32_t number) {
  uint64_t end = UINT64_MAX;
  struct question q = question_of(font, text, job);
  give_up(q.ends);
  q.ends = held(&end, sizeof end);
  struct drawn_lines it = asked_lines(&q, 0, lines);
  expect(it.answer.status == status && it.answer.number == number, "tt_draw_lines: status %u, number %u",
         it.answer.status, it.answer.number);
  forget_lines(it);
  give_up_question(q);
  verdict("%s", name);
}

static void try_all_ends(void) {
  struct room text = text_of("AB\u03A9A");
  struct tt_job wide = {.size = 16, .margin = 1, .fit = TT_FALLBACK, .grow = 0};
  try_ends("lines", text, (const uint64_t[]){1, 2, 4, 5}, 4, usual, TT_DONE, 0, 4);
  try_ends("lines that leave bytes over", text, (const uint64_t[]){1, 2}, 2, usual, TT_DONE, 0, 2);
  try_ends("a line that ends before it begins", text, (const uint64_t[]){2, 1, 4}, 3, usual, TT_JOB, 67, 1);
  try_ends("a line that ends past the texts", text, (const uint64_t[]){1, 2, 6}, 3, usual, TT_JOB, 67, 2);
  try_ends("the largest number as end", text, (const uint64_t[]){UINT64_MAX}, 1, usual, TT_JOB, 67, 0);
  try_ends("a line that ends in a character", text, (const uint64_t[]){2, 3, 5}, 3, usual, TT_NOT_UTF8, 0, 1);
  try_ends("a line without a character", text, (const uint64_t[]){1, 1, 2}, 3, usual, TT_JOB, 62, 1);
  try_ends("a line without a character in a margin", text, (const uint64_t[]){0, 1, 1}, 3, wide, TT_DONE, 0, 3);
  struct tt_job blank = {.size = 16, .margin = 0, .fit = TT_FULL, .grow = 0, .blank = 1};
  try_ends("blank lines", text, (const uint64_t[]){0, 1, 1, 1, 2, 2}, 6, blank, TT_DONE, 0, 6);
  try_ends("blank lines before a line that ends in a character", text, (const uint64_t[]){1, 1, 2, 3}, 4, blank,
           TT_NOT_UTF8, 0, 3);
  blank.margin = 1;
  try_ends("a blank line in a margin", text, (const uint64_t[]){0, 1, 1}, 3, blank, TT_DONE, 0, 3);
  try_ends("no line", text, NULL, 0, usual, TT_DONE, 0, 0);
  struct tt_job large = {.size = 301, .margin = 0, .fit = TT_FULL, .grow = 0};
  try_ends("no line, and a size of 301", text, NULL, 0, large, TT_JOB, 60, 0);
  try_order("a line without room and with a wrong end, and a size of 301", text, large, 0, TT_JOB, 60);
  try_order("a line with a wrong end, and a size of 301", text, large, 1, TT_JOB, 60);
  try_order("a line without room and with a wrong end", text, usual, 0, TT_ROOM, 0);
  give_up(text);
}

/* More values of axes than a job has are refused by every call with a job, before all of the font and the text. */
static void try_many_axes(struct room text) {
  struct room none = held(NULL, 0), wrong = text_of("\xff");
  struct tt_job many = {.size = 16, .axes = 17}, most = {.size = 16, .axes = UINT32_MAX};
  all_refuse("17 values of axes", none, wrong, many, false, TT_JOB, 73);
  all_refuse("the largest number of values of axes", font, text, most, false, TT_JOB, 73);
  const struct call *const others[] = {&maps_job, &strikes, &glyphs};
  for (size_t i = 0; i < sizeof others / sizeof *others; i++) {
    struct tt_answer answer = answer_to(others[i], none, wrong, many);
    expect(answer.status == TT_JOB && answer.number == 73, "%s: status %u, number %u", others[i]->name, answer.status,
           answer.number);
  }
  many.fit = 4;
  all_refuse("17 values of axes, and a way to fit of 4", font, text, many, false, TT_JOB, 66);
  give_up(none);
  give_up(wrong);
}

/* The rows of a text's picture, and their number. */
static size_t rows_of(struct room with, struct room text, const struct tt_job *job, uint8_t *rows, size_t room) {
  struct tt_picture told;
  struct tt_answer answer;
  uint32_t status = tt_draw(with.at, with.size, text.at, text.size, job, rows, room, &told, &answer);
  expect(status == TT_DONE, "tt_draw: status %u, number %u", status, answer.number);
  return status == TT_DONE ? answer.bytes : 0;
}

/* What tt_axes and tt_instances tell of the font of variable.txt. */
static void try_lists_of_axes(struct room variable) {
  static const struct {
    int32_t place;
    const char *name;
  } wanted[] = {{100, "Thin"}, {650, "Medium"}, {900, "Black & wide"}, {900, "Medium"}};
  struct tt_axis_range told[2];
  struct tt_instance named[5];
  struct tt_answer answer;
  uint32_t status = tt_axes(variable.at, variable.size, 1, told, 2, &answer);
  expect(status == TT_DONE && answer.count == 1 && told[0].tag == TT_TAG('w', 'g', 'h', 't') &&
             told[0].least == 100 << 16 && told[0].default_value == 400 << 16 && told[0].greatest == 900 << 16 &&
             told[0].name[67] == 0,
         "tt_axes: status %u", status);
  status = tt_instances(variable.at, variable.size, 0, named, 5, &answer);
  expect(status == TT_DONE && answer.count == 4, "tt_instances: status %u", status);
  for (uint32_t k = 0; k < 4; k++) {
    expect(named[k].instance == k + 1 && named[k].place[0] == wanted[k].place << 16 && named[k].place[1] == 0 &&
               strcmp((const char *)named[k].name, wanted[k].name) == 0,
           "tt_instances: instance %u is told as %u", k, named[k].instance);
  }
  status = tt_axes(variable.at, variable.size, 2, told, 2, &answer);
  expect(status == TT_FONT && answer.number == 25, "tt_axes, of another face: status %u", status);
  verdict("axes and named instances");
  status = tt_axes(font.at, font.size, 0, NULL, 0, &answer);
  expect(status == TT_DONE && answer.count == 0, "tt_axes: status %u", status);
  status = tt_instances(font.at, font.size, 0, NULL, 0, &answer);
  expect(status == TT_DONE && answer.count == 0, "tt_instances: status %u", status);
  verdict("no axis of a font without the table");
}

/* Calls about a variable font, in all rooms, and with each block refused. */
static void try_rooms_of_axes(struct room variable, struct room text) {
  const struct call *const calls[] = {&axes, &instances, &maps_job, &draws, &layouts, &strikes};
  for (size_t i = 0; i < sizeof calls / sizeof *calls; i++) {
    struct question q = question_of(variable, text, (struct tt_job){.size = 16, .fit = TT_NONE, .instance = 2});
    forget(tried(calls[i], &q));
    long nth = 0;
    for (struct tt_answer answer = {.status = TT_MEMORY}; answer.status == TT_MEMORY; nth++) {
      blocks_granted = nth;
      struct outcome it = asked(calls[i], &q, 1 << 16);
      blocks_granted = -1;
      answer = it.answer;
      expect(answer.status == TT_MEMORY || answer.status == TT_DONE, "%s: status %u without block %ld", calls[i]->name,
             answer.status, nth);
      forget(it);
    }
    expect(nth > 1 || calls[i] == &strikes, "%s took no memory", calls[i]->name);
    give_up_question(q);
    verdict("%s of a variable font, with each of %ld blocks refused", calls[i]->name, nth - 1);
  }
}

/* A named instance is its places, of which the last value counts; and the default is the font without an instance. */
static void try_instances(struct room variable, struct room text) {
  const struct tt_axis weights[] = {{TT_TAG('w', 'g', 'h', 't'), 900 << 16}, {TT_TAG('w', 'g', 'h', 't'), 650 << 16}};
  static uint8_t by_number[4096], by_place[4096];
  for (uint32_t fit = TT_FULL; fit <= TT_BEST; fit++) {
    struct tt_job number = {.size = 48, .fit = fit, .instance = 2}, place = {.size = 48, .fit = fit, .axes = 2},
                  plain = {.size = 48, .fit = fit}, default_place = {.size = 48, .fit = fit, .axes = 1};
    memcpy(place.axis, weights, sizeof weights);
    size_t bytes = rows_of(variable, text, &number, by_number, sizeof by_number);
    expect(bytes == rows_of(variable, text, &place, by_place, sizeof by_place) &&
               memcmp(by_number, by_place, bytes) == 0,
           "tt_draw: instance 1 is not at 650");
    default_place.axis[0] = (struct tt_axis){TT_TAG('w', 'g', 'h', 't'), 400 << 16};
    size_t before = rows_of(variable, text, &plain, by_place, sizeof by_place);
    expect(before != bytes || memcmp(by_number, by_place, bytes) != 0, "tt_draw: instance 1 is the default");
    expect(before == rows_of(variable, text, &default_place, by_number, sizeof by_number) &&
               memcmp(by_number, by_place, before) == 0,
           "tt_draw: the default's place is not the default");
    verdict("an instance by its number and by its place, with the fit %u", fit);
  }
  struct tt_job beyond = {.size = 16, .instance = 5}, last = {.size = 16, .instance = UINT32_MAX},
                other = {.size = 16, .axes = 1, .axis = {{TT_TAG('w', 'd', 't', 'h'), 0}}};
  all_refuse("an instance that the font lacks", variable, text, beyond, false, TT_FONT, 28);
  all_refuse("the largest number as instance", variable, text, last, false, TT_FONT, 28);
  all_refuse("an axis that the font lacks", variable, text, other, false, TT_FONT, 27);
  all_refuse("an instance of a font without one", font, text, other, false, TT_FONT, 3);
}

/* Zeros, and the font before them; the pages of the zeros take no memory, since nobody writes to them. */
static void try_sizes(struct room text) {
  uint8_t *large = mmap(NULL, FONT_LIMIT + 1, PROT_READ | PROT_WRITE, MAP_PRIVATE | MAP_ANONYMOUS, -1, 0);
  if (large == MAP_FAILED) stop("no pages for a large font");
  memcpy(large, font.at, font.size);
  struct room most = {large, FONT_LIMIT}, more = {large, FONT_LIMIT + 1};
  struct tt_answer answer = answer_to(&draws, most, text, usual);
  expect(answer.status == TT_DONE, "tt_draw: status %u", answer.status);
  verdict("the largest font");
  all_refuse("a font of one byte too many", more, text, usual, true, TT_FONT_LARGE, 0);
  answer = answer_to(&opens, more, text, usual);
  expect(answer.status == TT_FONT_LARGE, "tt_open: status %u", answer.status);
  verdict("opening a font of one byte too many");
  expect(tt_faces(more.at, more.size, &answer) == TT_FONT_LARGE, "tt_faces: status %u", answer.status);
  verdict("faces of a font of one byte too many");
  munmap(large, FONT_LIMIT + 1);
}

int main(int count, char **words) {
  static uint8_t bytes[1 << 20];
  if (count != 4) stop("want FONT TEXT VARIABLE");
  struct room fonts[2];
  for (size_t i = 0; i < 2; i++) {
    FILE *file = fopen(words[1 + 2 * i], "rb");
    if (!file) stop("cannot read the font");
    fonts[i] = held(bytes, fread(bytes, 1, sizeof bytes, file));
    fclose(file);
  }
  font = fonts[0];
  struct room text = held_hex(words[2], strlen(words[2]));
  try_jobs();
  try_texts();
  try_nothing(text);
  try_faces(text);
  try_lists();
  try_labels();
  try_all_offsets();
  try_all_ends();
  try_many_axes(text);
  try_lists_of_axes(fonts[1]);
  try_rooms_of_axes(fonts[1], text);
  try_instances(fonts[1], text);
  try_sizes(text);
  give_up(fonts[1]);
  give_up(text);
  return 0;
}
