/* The calls of the library, each tried in every room that shows whether it keeps to it. */
#ifndef CALLS_H
#define CALLS_H

#include "rooms.h"
#include "tt_render.h"

/* What a call is given; each call has a use for some of it alone. */
struct question {
  struct room font, text, job;
  struct room ends; /* of tt_draw_lines, with text and keep */
  size_t keep;
  uint32_t first, count; /* of tt_draw_band */
  uint32_t align, width, box_width, box_height; /* of tt_label, beside what its job shares with job */
  struct room told;      /* of tt_message */
};

struct question question_of(struct room font, struct room text, struct tt_job job);
void give_up_question(struct question q);

struct call {
  const char *name;
  uint32_t (*ask)(const struct question *q, struct room room, void *told, struct tt_answer *answer);
  size_t entry; /* the bytes of an entry of its room; 0: it has no room */
  size_t told;  /* the bytes of what it tells beside the answer */
  bool has_text, has_job; /* whether it is given a text, and a job whose size and margin it tests */
  long blocks;            /* it asks for so many blocks at the least; 0: it takes no memory, or only with TT_BEST, or of
                             a variable font */
};

extern const struct call opens, opens_face, maps, maps_face, maps_job, axes, instances, measures, characters, strikes,
    layouts, pens, glyphs, draws, draws_band, labels, messages;

/* Each of these, and then NULL; tt_draw_lines is in lines.h. */
extern const struct call *const every_call[];

/* What came of a call. */
struct outcome {
  struct tt_answer answer;
  struct room room, told;
};

/* Asks once, with a room of that many bytes: the status is the answer's, what the answer has no use for is 0, no block
 * is in use after it, and unless it is done nothing else was written to. */
struct outcome asked(const struct call *call, const struct question *q, size_t size);

/* Asks with no room, too little, just enough, and more than enough. What comes back is done in just enough of it, or
 * refused. */
struct outcome tried(const struct call *call, const struct question *q);

void forget(struct outcome it);

bool are_alike(const struct tt_answer *one, const struct tt_answer *other);

/* Notes what in an answer is wrong by itself. */
void expect_answer(const char *name, uint32_t status, const struct tt_answer *answer);

/* The library's line for an answer; it stays until the next call. */
const char *message_of(const struct tt_answer *answer);

#endif
