/* Compares the advances of glyphs in 64ths with those of FreeType's interpreter of version 35: advances FONT SIZE. Both
 * run the font's programs for black and white. FreeType rounds what the programs leave to whole pixels, so ours is
 * rounded too. A glyph counts where tt_glyphs fits it and FreeType loads it. Prints how many of the first glyphs count,
 * how many advances differ, and the first glyph that differs with both.
 */
#include <inttypes.h>
#include <stdio.h>
#include <stdlib.h>

#include <ft2build.h>
#include FT_FREETYPE_H
#include FT_MODULE_H
#include FT_TRUETYPE_TABLES_H

#include "tt_render.h"

enum { MOST = 512, SOME = 64 };

static uint8_t font[1 << 24], rows[1 << 22];

static _Noreturn void stop(const char *why) {
  fprintf(stderr, "advances: %s\n", why);
  exit(3);
}

static int has_table(FT_Face face, FT_ULong tag) {
  FT_ULong length = 0;
  return FT_Load_Sfnt_Table(face, tag, 0, NULL, &length) == 0 && length > 0;
}

/* The face by FreeType, and how its glyphs are loaded: a font without the first two programs has no hinting. */
static FT_Face opened(size_t bytes, FT_UInt size, FT_Int32 *how) {
  FT_Library library;
  FT_Face face;
  FT_UInt version = 35;
  if (FT_Init_FreeType(&library) || FT_Property_Set(library, "truetype", "interpreter-version", &version) ||
      FT_New_Memory_Face(library, font, (FT_Long)bytes, 0, &face) || FT_Set_Pixel_Sizes(face, 0, size))
    stop("FreeType refuses the font");
  *how = FT_LOAD_TARGET_MONO | FT_LOAD_NO_AUTOHINT | FT_LOAD_NO_BITMAP | FT_LOAD_COMPUTE_METRICS;
  if (!has_table(face, FT_MAKE_TAG('f', 'p', 'g', 'm')) && !has_table(face, FT_MAKE_TAG('p', 'r', 'e', 'p')))
    *how |= FT_LOAD_NO_HINTING;
  return face;
}

/* An advance in whole pixels, a half upwards. */
static long in_pixels(int64_t advance) {
  long above = (long)advance + 32;
  return above >= 0 ? above / 64 : -((63 - above) / 64);
}

int main(int count, char **words) {
  if (count != 3) stop("want FONT SIZE");
  FILE *file = fopen(words[1], "rb");
  if (!file) stop("cannot read the font");
  size_t bytes = fread(font, 1, sizeof font, file);
  fclose(file);
  struct tt_job job = {.size = (uint32_t)strtoul(words[2], NULL, 10), .fit = TT_BEST, .face = 1};
  struct tt_font told;
  struct tt_answer answer;
  struct tt_bitmap bitmaps[SOME];
  FT_Int32 how;
  if (tt_open_face(font, bytes, 1, &told, &answer) != TT_DONE) stop("the library refuses the font");
  FT_Face face = opened(bytes, job.size, &how);
  uint32_t all = told.glyphs < MOST ? told.glyphs : MOST, tried = 0, apart = 0, first = 0;
  long ours = 0, theirs = 0;
  for (uint32_t from = 0; from < all; from += SOME) {
    uint32_t numbers[SOME], some = all - from < SOME ? all - from : SOME;
    for (uint32_t i = 0; i < some; i++) numbers[i] = from + i;
    if (tt_glyphs(font, bytes, numbers, some, &job, rows, sizeof rows, bitmaps, SOME, &answer) != TT_DONE)
      stop("the library makes no bitmaps");
    for (uint32_t i = 0; i < some; i++) {
      if (bitmaps[i].status != TT_DONE || bitmaps[i].number != 0 || FT_Load_Glyph(face, from + i, how)) continue;
      tried++;
      if (in_pixels(bitmaps[i].advance_64ths) == face->glyph->advance.x / 64) continue;
      if (apart++ > 0) continue;
      first = from + i;
      ours = (long)bitmaps[i].advance_64ths;
      theirs = face->glyph->advance.x;
    }
  }
  printf("%" PRIu32 " %" PRIu32 " %" PRIu32 " %ld %ld\n", tried, apart, first, ours, theirs);
  return 0;
}
