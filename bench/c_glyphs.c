/* Makes the bitmaps of a text's characters several times by one call each, to be counted by bench/glyphs:

     c_glyphs CALL TIMES SIZE FONT TEXT

   where CALL is `glyphs`, for tt_glyphs, or `draw`, for tt_draw with grow; with TT_BEST. The glyphs' numbers are looked
   up once. Nothing is written. */
#include "tt_render.h"

#include <stdio.h>
#include <stdlib.h>
#include <string.h>

enum { FONT_BYTES = 32 << 20, ROOM = 1 << 22, COUNT = 4096 };

static uint8_t font[FONT_BYTES], rows[ROOM];
static uint32_t numbers[COUNT];
static struct tt_glyph units[COUNT];
static struct tt_bitmap told[COUNT];

int main(int argc, char **argv) {
  struct tt_job job = {.fit = TT_BEST, .grow = 1, .face = 1};
  struct tt_picture picture;
  struct tt_answer answer;
  FILE *file;

  if (argc != 6 || !(file = fopen(argv[4], "rb"))) return 1;
  size_t font_bytes = fread(font, 1, FONT_BYTES, file), text_bytes = strlen(argv[5]);
  const uint8_t *text = (const uint8_t *)argv[5];
  job.size = (uint32_t)strtoul(argv[3], 0, 10);
  if (tt_map_face(font, font_bytes, job.face, text, text_bytes, units, COUNT, &answer) != TT_DONE) return 2;
  size_t count = (size_t)answer.count;
  for (size_t i = 0; i < count; i++) numbers[i] = units[i].glyph;
  for (unsigned long times = strtoul(argv[2], 0, 10); times > 0; times--) {
    if (strcmp(argv[1], "draw") == 0) {
      tt_draw(font, font_bytes, text, text_bytes, &job, rows, ROOM, &picture, &answer);
    } else {
      tt_glyphs(font, font_bytes, numbers, count, &job, rows, ROOM, told, COUNT, &answer);
    }
    if (answer.status != TT_DONE) return 3;
  }
  return 0;
}
