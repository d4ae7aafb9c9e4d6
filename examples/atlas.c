/* Makes an atlas: the bitmaps of the 95 characters of ASCII in one picture in the format P4, in 6 rows of 16 cells.
 *
 *   atlas FONT SIZE >atlas.pbm
 *
 * One call maps the characters to glyphs, one says how many bytes the bitmaps have, and one makes them. A cell is as
 * large as the widest and the highest glyph; a glyph stands in its upper left corner. To draw a text by the atlas, put
 * the glyph's first column `left` columns right of the pen and its highest row `top` rows above the base line, and move
 * the pen by `advance`. README.md has the commands. The exit status is the library's. It is 2 also for a fault of the
 * command line, 3 where the font cannot be read, 4 where the picture cannot be written, and 5 without memory.
 */
#include <stdio.h>
#include <stdlib.h>

#include "tt_render.h"

enum { FIRST = ' ', COUNT = 95, ACROSS = 16, DOWN = 6 };

static struct tt_glyph characters[COUNT];
static struct tt_bitmap bitmaps[COUNT];

static int complain(int status, const char *why) {
  fprintf(stderr, "atlas: %s\n", why);
  return status;
}

/* Prints the message of a refused call, and returns its status. */
static int refused(const struct tt_answer *answer) {
  uint8_t text[TT_MESSAGE_BYTES] = "tt_render: refused";
  struct tt_answer told;
  tt_message(answer, text, sizeof text, &told);
  fprintf(stderr, "%s\n", (const char *)text);
  return (int)answer->status;
}

/* Blackens the pixels of a bitmap in a picture, whose rows have row_bytes bytes, from a column and a row on. */
static void copy(const struct tt_bitmap *it, const uint8_t *rows, uint8_t *picture, size_t row_bytes, size_t column,
                 size_t row) {
  size_t bytes = (it->width + 7) / 8;
  for (size_t y = 0; y < it->height; y++) {
    for (size_t x = 0; x < it->width; x++) {
      if (rows[it->at + y * bytes + x / 8] >> (7 - x % 8) & 1)
        picture[(row + y) * row_bytes + (column + x) / 8] |= (uint8_t)(128 >> (column + x) % 8);
    }
  }
}

/* Writes the atlas of bitmaps with these rows. */
static int write_atlas(const uint8_t *rows) {
  size_t wide = 1, high = 1;
  for (size_t i = 0; i < COUNT; i++) {
    if (bitmaps[i].width > wide) wide = bitmaps[i].width;
    if (bitmaps[i].height > high) high = bitmaps[i].height;
  }
  size_t row_bytes = (ACROSS * wide + 7) / 8, bytes = row_bytes * DOWN * high;
  uint8_t *picture = calloc(bytes, 1);
  if (!picture) return complain(5, "no memory");
  for (size_t i = 0; i < COUNT; i++) copy(bitmaps + i, rows, picture, row_bytes, i % ACROSS * wide, i / ACROSS * high);
  int written = printf("P4\n%zu %zu\n", ACROSS * wide, DOWN * high) > 0 && fwrite(picture, 1, bytes, stdout) == bytes &&
                fflush(stdout) == 0;
  free(picture);
  return written ? 0 : complain(4, "cannot write the picture");
}

static int draw(const uint8_t *font, size_t font_bytes, const struct tt_job *job) {
  uint8_t text[COUNT];
  uint32_t numbers[COUNT];
  struct tt_answer answer;
  for (size_t i = 0; i < COUNT; i++) text[i] = (uint8_t)(FIRST + i);
  if (tt_map_face(font, font_bytes, job->face, text, COUNT, characters, COUNT, &answer) != TT_DONE)
    return refused(&answer);
  for (size_t i = 0; i < COUNT; i++) numbers[i] = characters[i].glyph;
  tt_glyphs(font, font_bytes, numbers, COUNT, job, NULL, 0, bitmaps, COUNT, &answer);
  if (answer.status != TT_ROOM && answer.status != TT_DONE) return refused(&answer);
  uint8_t *rows = malloc(answer.bytes + 1);
  if (!rows) return complain(5, "no memory");
  tt_glyphs(font, font_bytes, numbers, COUNT, job, rows, answer.bytes, bitmaps, COUNT, &answer);
  int status = answer.status == TT_DONE ? write_atlas(rows) : refused(&answer);
  free(rows);
  return status;
}

int main(int count, char **words) {
  static uint8_t font[1 << 26];
  struct tt_job job = {.size = 0, .margin = 0, .fit = TT_BEST, .grow = 0, .face = 1};
  char *end;

  if (count != 3) return complain(2, "want FONT SIZE");
  unsigned long size = strtoul(words[2], &end, 10);
  if (end == words[2] || *end || size > 300) return complain(2, "SIZE is a number of pixels, 1 to 300");
  job.size = (uint32_t)size;
  FILE *file = fopen(words[1], "rb");
  if (!file) return complain(3, "cannot read the font");
  size_t font_bytes = fread(font, 1, sizeof font, file);
  int failed = ferror(file);
  fclose(file);
  if (failed) return complain(3, "cannot read the font");
  return draw(font, font_bytes, &job);
}
