/* See calls.h. */
#include "calls.h"

#include <inttypes.h>
#include <stdio.h>
#include <stdlib.h>
#include <string.h>

#include "blocks.h"

struct question question_of(struct room font, struct room text, struct tt_job job) {
  return (struct question){
      .font = font, .text = text, .job = held(&job, sizeof job), .ends = held(NULL, 0), .told = held(NULL, 0)};
}

void give_up_question(struct question q) {
  give_up(q.job);
  give_up(q.ends);
  give_up(q.told);
}

#define FONT q->font.at, q->font.size
#define TEXT q->text.at, q->text.size
#define JOB (const struct tt_job *)q->job.at

static uint32_t ask_open(const struct question *q, struct room room, void *told, struct tt_answer *answer) {
  (void)room;
  return tt_open(FONT, told, answer);
}

/* The face that a job reads. */
static uint32_t face_of(const struct tt_job *job) { return job->face ? job->face : job->fit == TT_BEST; }

static uint32_t ask_open_face(const struct question *q, struct room room, void *told, struct tt_answer *answer) {
  (void)room;
  return tt_open_face(FONT, face_of(JOB), told, answer);
}

static uint32_t ask_map_face(const struct question *q, struct room room, void *told, struct tt_answer *answer) {
  (void)told;
  return tt_map_face(FONT, face_of(JOB), TEXT, (struct tt_glyph *)room.at, room.size / sizeof(struct tt_glyph), answer);
}

static uint32_t ask_map(const struct question *q, struct room room, void *told, struct tt_answer *answer) {
  (void)told;
  return tt_map(FONT, TEXT, (struct tt_glyph *)room.at, room.size / sizeof(struct tt_glyph), answer);
}

static uint32_t ask_map_job(const struct question *q, struct room room, void *told, struct tt_answer *answer) {
  (void)told;
  return tt_map_job(FONT, TEXT, JOB, (struct tt_glyph *)room.at, room.size / sizeof(struct tt_glyph), answer);
}

static uint32_t ask_axes(const struct question *q, struct room room, void *told, struct tt_answer *answer) {
  (void)told;
  return tt_axes(FONT, face_of(JOB), (struct tt_axis_range *)room.at, room.size / sizeof(struct tt_axis_range), answer);
}

static uint32_t ask_instances(const struct question *q, struct room room, void *told, struct tt_answer *answer) {
  (void)told;
  return tt_instances(FONT, face_of(JOB), (struct tt_instance *)room.at, room.size / sizeof(struct tt_instance),
                      answer);
}

static uint32_t ask_measure(const struct question *q, struct room room, void *told, struct tt_answer *answer) {
  (void)room;
  return tt_measure(FONT, TEXT, JOB, told, answer);
}

static uint32_t ask_characters(const struct question *q, struct room room, void *told, struct tt_answer *answer) {
  (void)told;
  return tt_characters(FONT, TEXT, JOB, (struct tt_character *)room.at, room.size / sizeof(struct tt_character),
                       answer);
}

static uint32_t ask_draw(const struct question *q, struct room room, void *told, struct tt_answer *answer) {
  return tt_draw(FONT, TEXT, JOB, room.at, room.size, told, answer);
}

static uint32_t ask_band(const struct question *q, struct room room, void *told, struct tt_answer *answer) {
  return tt_draw_band(FONT, TEXT, JOB, q->first, q->count, room.at, room.size, told, answer);
}

static uint32_t ask_label(const struct question *q, struct room room, void *told, struct tt_answer *answer) {
  const struct tt_job *job = JOB;
  struct tt_label_job given = {.size = job->size,
                               .margin = job->margin,
                               .fit = job->fit,
                               .face = job->face,
                               .kern = job->kern,
                               .rounded = job->rounded,
                               .align = q->align,
                               .width = q->width,
                               .box_width = q->box_width,
                               .box_height = q->box_height,
                               .instance = job->instance,
                               .axes = job->axes};
  memcpy(given.axis, job->axis, sizeof given.axis);
  struct room label = held(&given, sizeof given);
  uint32_t status = tt_label(FONT, TEXT, (const struct tt_label_job *)label.at, room.at, room.size, told, answer);
  give_up(label);
  return status;
}

static uint32_t ask_strike(const struct question *q, struct room room, void *told, struct tt_answer *answer) {
  (void)room;
  return tt_strike(FONT, JOB, told, answer);
}

static uint32_t ask_layout(const struct question *q, struct room room, void *told, struct tt_answer *answer) {
  (void)room;
  return tt_layout(FONT, TEXT, JOB, told, answer);
}

static uint32_t ask_pens(const struct question *q, struct room room, void *told, struct tt_answer *answer) {
  (void)told;
  return tt_pens(FONT, TEXT, JOB, (struct tt_pen *)room.at, room.size / sizeof(struct tt_pen), answer);
}

/* Two glyphs, one of them twice, and a number that is no glyph. */
static const uint32_t list[] = {1, 1, 2, 65535};
#define LIST (sizeof list / sizeof *list)

static uint32_t ask_glyphs(const struct question *q, struct room room, void *told, struct tt_answer *answer) {
  return tt_glyphs(FONT, list, LIST, JOB, room.at, room.size, told, LIST, answer);
}

static uint32_t ask_message(const struct question *q, struct room room, void *told, struct tt_answer *answer) {
  (void)told;
  return tt_message((const struct tt_answer *)q->told.at, room.at, room.size, answer);
}

const struct call opens = {"tt_open", ask_open, 0, sizeof(struct tt_font), false, false, 0};
const struct call opens_face = {"tt_open_face", ask_open_face, 0, sizeof(struct tt_font), false, false, 0};
const struct call maps = {"tt_map", ask_map, sizeof(struct tt_glyph), 0, true, false, 0};
const struct call maps_face = {"tt_map_face", ask_map_face, sizeof(struct tt_glyph), 0, true, false, 0};
const struct call maps_job = {"tt_map_job", ask_map_job, sizeof(struct tt_glyph), 0, true, false, 2};
const struct call axes = {"tt_axes", ask_axes, sizeof(struct tt_axis_range), 0, false, false, 0};
const struct call instances = {"tt_instances", ask_instances, sizeof(struct tt_instance), 0, false, false, 0};
const struct call draws = {"tt_draw", ask_draw, 1, sizeof(struct tt_picture), true, true, 4};
const struct call draws_band = {"tt_draw_band", ask_band, 1, sizeof(struct tt_picture), true, true, 4};
const struct call labels = {"tt_label", ask_label, 1, sizeof(struct tt_label), true, true, 4};
const struct call measures = {"tt_measure", ask_measure, 0, sizeof(struct tt_measure), true, true, 5};
const struct call characters = {"tt_characters", ask_characters, sizeof(struct tt_character), 0, true, true, 5};
const struct call strikes = {"tt_strike", ask_strike, 0, sizeof(struct tt_strike), false, true, 0};
const struct call layouts = {"tt_layout", ask_layout, 0, sizeof(struct tt_layout), true, true, 0};
const struct call pens = {"tt_pens", ask_pens, sizeof(struct tt_pen), 0, true, true, 2};
const struct call glyphs = {"tt_glyphs", ask_glyphs, 1, LIST * sizeof(struct tt_bitmap), false, true, 4};
const struct call messages = {"tt_message", ask_message, 1, 0, false, false, 1};

const struct call *const every_call[] = {
    &opens,    &maps,       &maps_job, &axes,    &instances, &draws,  &draws_band, &labels,
    &measures, &characters, &strikes,  &layouts, &pens,      &glyphs, &messages,   NULL};

bool are_alike(const struct tt_answer *one, const struct tt_answer *other) {
  return memcmp(one, other, sizeof *one) == 0;
}

void expect_answer(const char *name, uint32_t status, const struct tt_answer *answer) {
  static const uint8_t no_table[4];
  bool refuses = answer->status == TT_FONT || answer->status == TT_JOB;
  expect(status == answer->status, "%s: the status is %u, and the answer's is %u", name, status, answer->status);
  expect(answer->status <= TT_ROOM && answer->status != 4, "%s: the status is %u", name, answer->status);
  expect((answer->number != 0) == refuses, "%s: status %u has the number %u", name, status, answer->number);
  if (answer->status != TT_FONT) {
    expect(memcmp(answer->table, no_table, 4) == 0 && answer->offset == 0, "%s: status %u has a place", name, status);
  }
  expect(blocks_in_use == 0, "%s: %ld blocks are in use after it", name, blocks_in_use);
}

struct outcome asked(const struct call *call, const struct question *q, size_t size) {
  struct room answer = room_of(sizeof(struct tt_answer));
  struct outcome it = {.room = room_of(size), .told = room_of(call->told)};
  uint32_t status = call->ask(q, it.room, it.told.at, (struct tt_answer *)answer.at);
  it.answer = *(struct tt_answer *)answer.at;
  expect_answer(call->name, status, &it.answer);
  expect(kept_from(answer, sizeof it.answer), "%s writes before its answer", call->name);
  expect(kept_from(it.told, status == TT_DONE ? call->told : 0), "%s: status %u, and something is told", call->name,
         status);
  if (status != TT_DONE) {
    expect(kept_from(it.room, 0), "%s: status %u, and its room was written to", call->name, status);
    expect(status == TT_ROOM || (it.answer.bytes == 0 && it.answer.count == 0),
           "%s: status %u has %" PRIu64 " bytes and %" PRIu64 " entries", call->name, status, it.answer.bytes,
           it.answer.count);
  }
  give_up(answer);
  return it;
}

void forget(struct outcome it) {
  give_up(it.room);
  give_up(it.told);
}

/* Asks with a room of another size, which is to have the same answer, and the same told. */
static void again(const struct call *call, const struct question *q, size_t size, const struct outcome *wanted) {
  struct outcome it = asked(call, q, size);
  expect(are_alike(&it.answer, &wanted->answer), "%s: status %u, and status %u with %zu bytes of room", call->name,
         wanted->answer.status, it.answer.status, size);
  if (it.answer.status == TT_DONE && wanted->answer.status == TT_DONE && wanted->room.size <= size) {
    expect(memcmp(it.room.at, wanted->room.at, wanted->room.size) == 0, "%s: another answer in a larger room",
           call->name);
    expect(kept_from(it.room, wanted->room.size), "%s writes behind what it says", call->name);
    expect(memcmp(it.told.at, wanted->told.at, call->told) == 0, "%s tells another thing in a larger room", call->name);
  }
  forget(it);
}

struct outcome tried(const struct call *call, const struct question *q) {
  struct outcome none = asked(call, q, 0);
  if (none.answer.status != TT_ROOM) {
    again(call, q, 40 * call->entry, &none);
    return none;
  }
  size_t wanted = call->entry == 1 ? none.answer.bytes : none.answer.count * call->entry;
  expect(call->entry == 1 || none.answer.bytes == 0, "%s wants bytes, and not entries", call->name);
  if (!expect(wanted > 0 && wanted < 1 << 28, "%s wants a room of %zu bytes", call->name, wanted)) return none;
  again(call, q, wanted - call->entry, &none);
  struct outcome it = asked(call, q, wanted);
  expect(it.answer.status == TT_DONE, "%s: status %u with the room that it wants", call->name, it.answer.status);
  expect(it.answer.bytes == none.answer.bytes && it.answer.count == none.answer.count,
         "%s: not so many bytes and entries as it wants", call->name);
  again(call, q, wanted + 3 * call->entry, &it);
  forget(none);
  return it;
}

/* The greatest length of a message with its zero, as the header has it. */
enum { LONGEST_MESSAGE = 90 };

const char *message_of(const struct tt_answer *answer) {
  static char text[512];
  struct question q = {.told = held(answer, sizeof *answer)};
  struct outcome it = tried(&messages, &q);
  text[0] = 0;
  if (expect(it.answer.status == TT_DONE, "tt_message: status %u", it.answer.status) &&
      expect(it.room.size <= LONGEST_MESSAGE, "tt_message: %zu bytes", it.room.size)) {
    memcpy(text, it.room.at, it.room.size);
    expect(memchr(text, 0, it.room.size) == text + it.room.size - 1, "tt_message: no zero, or not where its end is");
    expect(it.answer.count == 0, "tt_message: %" PRIu64 " entries", it.answer.count);
  }
  forget(it);
  give_up(q.told);
  return text;
}
