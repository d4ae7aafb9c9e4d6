/* Draws the lines of standard input by one call of tt_draw_lines, to be measured beside `tt_render draw --lines`:

     c_lines FIT SIZE FONT [PLACE]

   where FIT is a number of the header, and PLACE a variable font's weight in 16.16. At most 1 MiB of glyphs is cached.
   Nothing is written. */
#include "tt_render.h"

#include <stdio.h>
#include <stdlib.h>
#include <string.h>

enum { FONT_BYTES = 32 << 20, TEXT_BYTES = 4 << 20, LINES = 65536, ROOM = 256 << 20 };

static void *taken(size_t bytes) {
  void *room = malloc(bytes);
  if (!room) exit(1);
  return room;
}

int main(int argc, char **argv) {
  uint8_t *font = taken(FONT_BYTES), *texts = taken(TEXT_BYTES), *rows = taken(ROOM);
  uint64_t *ends = taken(LINES * sizeof *ends);
  struct tt_line *lines = taken(LINES * sizeof *lines);
  struct tt_job job = {0};
  struct tt_answer answer;
  size_t font_bytes, count = 0, at = 0;
  FILE *file;

  if (argc < 4 || !(file = fopen(argv[3], "rb"))) return 1;
  font_bytes = fread(font, 1, FONT_BYTES, file);
  while (count < LINES && at + 4096 < TEXT_BYTES && fgets((char *)texts + at, 4096, stdin)) {
    at += strcspn((char *)texts + at, "\n");
    ends[count++] = at;
  }
  job.fit = strtoul(argv[1], 0, 10);
  job.size = strtoul(argv[2], 0, 10);
  if (argc > 4) {
    job.axes = 1;
    job.axis[0] = (struct tt_axis){'w' << 24 | 'g' << 16 | 'h' << 8 | 't', (int32_t)strtol(argv[4], 0, 10)};
  }
  tt_draw_lines(font, font_bytes, texts, at, ends, count, &job, 1 << 20, rows, ROOM, lines, LINES, &answer);
  return answer.status != TT_DONE;
}
