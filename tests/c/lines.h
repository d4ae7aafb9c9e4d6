/* Lines drawn by tt_draw_lines, and their room by tt_lines_room. */
#ifndef LINES_H
#define LINES_H

#include "calls.h"

/* What came of lines: the rows of `answer.count` lines in `rows`, and what is told of each in `told`. */
struct drawn_lines {
  struct tt_answer answer;
  struct room rows, told;
};

/* Draws them once, with a room of that many bytes for rows, and one for as many lines. Nothing is written but the lines
 * that the answer counts. */
struct drawn_lines asked_lines(const struct question *q, size_t rows, size_t lines);

/* What tt_lines_room answers of them. */
struct tt_answer asked_room(const struct question *q);

/* Draws them in all rooms in turn that are too small, each by a byte, and then in just enough. The lines that are drawn
 * are those that tt_draw draws of each text alone. tt_lines_room answers the same, however much is kept. */
struct drawn_lines tried_lines(struct question *q);

void forget_lines(struct drawn_lines it);

#endif
