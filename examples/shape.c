/* Draws a line of text that HarfBuzz shapes, as a picture in the format P4:
 *
 *   shape FONT SIZE TEXT [none] [ltr | rtl | ttb | btt] >line.pbm
 *
 * HarfBuzz chooses the glyphs, their order and their places: ligatures, joined letters, marks on their letters, text
 * from right to left. tt_glyphs draws each glyph by its number, and says how far the next one stands, in 64ths of a
 * pixel. HarfBuzz asks for that by a function of the font, so both have the same advances. Without a direction HarfBuzz
 * finds one by the text. With `none` no program fits the glyphs. README.md has the commands. The exit status is the
 * library's. It is 2 also for a fault of the command line, 3 where the font cannot be read, 4 where the picture cannot
 * be written, and 5 without memory.
 */
#include <hb-ot.h>
#include <hb.h>
#include <stdio.h>
#include <stdlib.h>
#include <string.h>

#include "tt_render.h"

/* A font at a size, and the answer of the call that failed, if one did. */
struct strike {
  const uint8_t *font;
  size_t bytes;
  struct tt_job job;
  struct tt_answer answer;
};

/* A box in columns to the right and rows upwards of the first pen; right and top are outside. */
struct box {
  long left, bottom, right, top;
};

static int complain(int status, const char *why) {
  fprintf(stderr, "shape: %s\n", why);
  return status;
}

/* Prints the message of a refused call, and returns its status. */
static int refused(const struct tt_answer *answer) {
  uint8_t text[TT_MESSAGE_BYTES] = "tt_render: refused";
  struct tt_answer told;
  tt_message(answer, text, sizeof text, &told);
  fprintf(stderr, "%s\n", (const char *)text);
  return (int)answer->status;
}

/* Makes the bitmaps of some glyphs. Returns their rows, for the caller to free; or NULL, and the answer says why. */
static uint8_t *make(struct strike *it, const uint32_t *glyphs, size_t count, struct tt_bitmap *bitmaps) {
  tt_glyphs(it->font, it->bytes, glyphs, count, &it->job, NULL, 0, bitmaps, count, &it->answer);
  if (it->answer.status != TT_ROOM && it->answer.status != TT_DONE) return NULL;
  uint8_t *rows = malloc(it->answer.bytes + 1);
  if (!rows) it->answer = (struct tt_answer){.status = TT_MEMORY};
  if (!rows || tt_glyphs(it->font, it->bytes, glyphs, count, &it->job, rows, it->answer.bytes, bitmaps, count,
                         &it->answer) == TT_DONE)
    return rows;
  free(rows);
  return NULL;
}

/* HarfBuzz asks here how far the next glyphs stand, in 64ths: by the bitmaps' advances. */
static void advances(hb_font_t *font, void *data, unsigned count, const hb_codepoint_t *glyphs, unsigned glyph_step,
                     hb_position_t *found, unsigned step, void *more) {
  uint32_t *numbers = calloc(count + 1u, sizeof *numbers);
  struct tt_bitmap *bitmaps = calloc(count + 1u, sizeof *bitmaps);
  (void)font, (void)more;
  if (numbers && bitmaps) {
    for (size_t i = 0; i < count; i++) memcpy(numbers + i, (const char *)glyphs + i * glyph_step, sizeof *numbers);
    free(make(data, numbers, count, bitmaps));
  }
  for (size_t i = 0; i < count; i++) {
    hb_position_t advance = bitmaps ? (hb_position_t)bitmaps[i].advance_64ths : 0;
    memcpy((char *)found + i * step, &advance, sizeof advance);
  }
  free(bitmaps);
  free(numbers);
}

/* Shapes a text, from right to left where the direction says so. Returns the glyphs, for the caller to let go. */
static hb_buffer_t *shaped(struct strike *it, const char *text, hb_direction_t direction) {
  hb_blob_t *blob = hb_blob_create((const char *)it->font, (unsigned)it->bytes, HB_MEMORY_MODE_READONLY, NULL, NULL);
  hb_face_t *face = hb_face_create(blob, it->job.face - 1);
  hb_font_t *tables = hb_font_create(face);
  hb_font_set_scale(tables, (int)it->job.size * 64, (int)it->job.size * 64);
  hb_font_set_ppem(tables, it->job.size, it->job.size);
  hb_font_t *font = hb_font_create_sub_font(tables); /* what has no function here is asked of the tables */
  hb_font_funcs_t *functions = hb_font_funcs_create();
  hb_font_funcs_set_glyph_h_advances_func(functions, advances, NULL, NULL);
  hb_font_set_funcs(font, functions, it, NULL);
  hb_buffer_t *buffer = hb_buffer_create();
  hb_buffer_add_utf8(buffer, text, -1, 0, -1);
  if (direction != HB_DIRECTION_INVALID) hb_buffer_set_direction(buffer, direction);
  hb_buffer_guess_segment_properties(buffer);
  hb_shape(font, buffer, NULL, 0);
  hb_font_funcs_destroy(functions);
  hb_font_destroy(font);
  hb_font_destroy(tables);
  hb_face_destroy(face);
  hb_blob_destroy(blob);
  return buffer;
}

/* The nearest whole pixel, a half up. */
static long pixels(long in_64ths) { return in_64ths >= -32 ? (in_64ths + 32) / 64 : -((31 - in_64ths) / 64); }

static void include(struct box *box, long left, long bottom, long right, long top) {
  if (left < box->left) box->left = left;
  if (bottom < box->bottom) box->bottom = bottom;
  if (right > box->right) box->right = right;
  if (top > box->top) box->top = top;
}

/* Finds the place of each glyph, as the box of its bitmap, and enlarges the box of all to the ends of the line. */
static void place(const hb_glyph_position_t *at, const struct tt_bitmap *bitmaps, size_t count, struct box *places,
                  struct box *all) {
  long x = 0, y = 0;
  for (size_t i = 0; i < count; i++) {
    long left = pixels(x + at[i].x_offset) + bitmaps[i].left, top = pixels(y + at[i].y_offset) + bitmaps[i].top;
    places[i] = (struct box){left, top - (long)bitmaps[i].height, left + (long)bitmaps[i].width, top};
    if (bitmaps[i].width > 0) include(all, places[i].left, places[i].bottom, places[i].right, places[i].top);
    x += at[i].x_advance;
    y += at[i].y_advance;
    include(all, pixels(x), pixels(y), pixels(x), pixels(y));
  }
}

/* Blackens the pixels of a bitmap in a picture of a box, whose rows have row_bytes bytes. */
static void copy(const struct tt_bitmap *it, const uint8_t *rows, const struct box *place, const struct box *all,
                 uint8_t *picture, size_t row_bytes) {
  size_t column = (size_t)(place->left - all->left), row = (size_t)(all->top - place->top);
  for (size_t y = 0; y < it->height; y++) {
    for (size_t x = 0; x < it->width; x++) {
      if (rows[it->at + y * ((it->width + 7) / 8) + x / 8] >> (7 - x % 8) & 1)
        picture[(row + y) * row_bytes + (column + x) / 8] |= (uint8_t)(128 >> (column + x) % 8);
    }
  }
}

/* Writes the picture of glyphs at their places. */
static int write_line(const struct tt_bitmap *bitmaps, const uint8_t *rows, size_t count, const struct box *places,
                      const struct box *all) {
  size_t wide = (size_t)(all->right - all->left), high = (size_t)(all->top - all->bottom);
  size_t row_bytes = (wide + 7) / 8, bytes = row_bytes * high;
  uint8_t *picture = calloc(bytes + 1, 1);
  if (!picture) return complain(5, "no memory");
  for (size_t i = 0; i < count; i++) {
    if (bitmaps[i].status != TT_DONE) fprintf(stderr, "shape: glyph %u is refused\n", (unsigned)bitmaps[i].glyph);
    if (bitmaps[i].width > 0) copy(bitmaps + i, rows, places + i, all, picture, row_bytes);
  }
  int written = printf("P4\n%zu %zu\n", wide, high) > 0 && fwrite(picture, 1, bytes, stdout) == bytes &&
                fflush(stdout) == 0;
  free(picture);
  return written ? 0 : complain(4, "cannot write the picture");
}

/* Draws the glyphs of a shaped line. The picture has the rows of a line of this font, and all ink. */
static int draw(struct strike *it, hb_buffer_t *line) {
  unsigned count;
  struct tt_strike rows_of;
  const hb_glyph_info_t *glyphs = hb_buffer_get_glyph_infos(line, &count);
  const hb_glyph_position_t *at = hb_buffer_get_glyph_positions(line, NULL);
  if (tt_strike(it->font, it->bytes, &it->job, &rows_of, &it->answer) != TT_DONE) return refused(&it->answer);
  uint32_t *numbers = calloc(count + 1u, sizeof *numbers);
  struct tt_bitmap *bitmaps = calloc(count + 1u, sizeof *bitmaps);
  struct box *places = calloc(count + 1u, sizeof *places), all = {0, 0, 1, 0};
  uint8_t *rows = NULL;
  int status = 5;
  if (numbers && bitmaps && places) {
    for (size_t i = 0; i < count; i++) numbers[i] = glyphs[i].codepoint;
    rows = make(it, numbers, count, bitmaps);
    if (!rows) status = refused(&it->answer);
  } else {
    complain(status, "no memory");
  }
  if (rows) {
    if (HB_DIRECTION_IS_HORIZONTAL(hb_buffer_get_direction(line)))
      include(&all, 0, (long)-rows_of.depth, 0, (long)rows_of.rise);
    place(at, bitmaps, count, places, &all);
    status = write_line(bitmaps, rows, count, places, &all);
  }
  free(rows);
  free(places);
  free(bitmaps);
  free(numbers);
  return status;
}

int main(int count, char **words) {
  static uint8_t font[1 << 26];
  struct strike it = {.font = font, .job = {.fit = TT_BEST, .face = 1}};
  hb_direction_t direction = HB_DIRECTION_INVALID;
  char *end;

  if (count < 4) return complain(2, "want FONT SIZE TEXT [none] [DIRECTION]");
  unsigned long size = strtoul(words[2], &end, 10);
  if (end == words[2] || *end || size < 1 || size > 300) return complain(2, "SIZE is a number of pixels, 1 to 300");
  it.job.size = (uint32_t)size;
  for (int i = 4; i < count; i++) {
    if (strcmp(words[i], "none") == 0) {
      it.job.fit = TT_NONE;
    } else if (!(direction = hb_direction_from_string(words[i], -1))) {
      return complain(2, "a direction is ltr, rtl, ttb or btt");
    }
  }
  FILE *file = fopen(words[1], "rb");
  if (!file) return complain(3, "cannot read the font");
  it.bytes = fread(font, 1, sizeof font, file);
  int failed = ferror(file);
  fclose(file);
  if (failed) return complain(3, "cannot read the font");
  hb_buffer_t *line = shaped(&it, words[3], direction);
  int status = draw(&it, line);
  hb_buffer_destroy(line);
  return status;
}
