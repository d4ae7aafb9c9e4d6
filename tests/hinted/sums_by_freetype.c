/* Prints, of glyphs as FreeType's bytecode interpreter fits them, for black and white and without its later ways
   (version 35), a sum of each outline and of each picture, at up to eight sizes in pixels per em, with commas:

     sums_by_freetype FONT SIZES GLYPH ..

   The first line is `units EM ASCENT`, the font units in an em and the ascent of hhea. A line after it is GLYPH, the
   advance of hmtx in font units, and then for each size the sum of the outline, and for each size that of the picture.

   A sum is of whole numbers: it begins at 0, and with each number v becomes 31 times itself, + v + 2^21, modulo
   2^31 - 1. Those of an outline are one past the last point of each contour; the distance of the first two phantom
   points, which FreeType rounds to a pixel; and of each point x and y in 1/64 pixel, counted from the left phantom
   point, and 1 where it is on the curve, else 0. Those of a picture are the column and the row of each black pixel,
   from the top row on, and in a row from the left: the pixel 0 0 has its lower left corner in the origin. */
#include <stdio.h>
#include <stdlib.h>

#include <ft2build.h>
#include FT_FREETYPE_H
#include FT_MODULE_H
#include FT_OUTLINE_H
#include FT_TRUETYPE_TABLES_H

enum { MOST_SIZES = 8 };

static int sizes;

/* The advance is that of the phantom points, whatever the table hdmx has. */
static const FT_Int32 HOW =
    FT_LOAD_TARGET_MONO | FT_LOAD_RENDER | FT_LOAD_NO_AUTOHINT | FT_LOAD_NO_BITMAP | FT_LOAD_COMPUTE_METRICS;

static void need(FT_Error error, const char *what) {
  if (!error) return;
  fprintf(stderr, "sums_by_freetype: %s: error %d\n", what, error);
  exit(1);
}

static long with(long sum, long v) { return (31 * sum + v + (1 << 21)) % 2147483647; }

static long sum_of_outline(FT_GlyphSlot slot) {
  const FT_Outline *outline = &slot->outline;
  long sum = 0;
  for (int i = 0; i < outline->n_contours; i++) sum = with(sum, outline->contours[i] + 1);
  sum = with(sum, slot->metrics.horiAdvance);
  for (int i = 0; i < outline->n_points; i++) {
    sum = with(with(sum, outline->points[i].x), outline->points[i].y);
    sum = with(sum, FT_CURVE_TAG(outline->tags[i]) == FT_CURVE_TAG_ON);
  }
  return sum;
}

static long sum_of_picture(FT_GlyphSlot slot) {
  const FT_Bitmap *bits = &slot->bitmap;
  long sum = 0;
  for (long r = 0; r < (long)bits->rows; r++)
    for (long c = 0; c < (long)bits->width; c++)
      if (bits->buffer[r * bits->pitch + c / 8] >> (7 - c % 8) & 1)
        sum = with(with(sum, slot->bitmap_left + c), slot->bitmap_top - 1 - r);
  return sum;
}

/* The same face is open once for each size, so that its programs are run for each size once. The outline is loaded
   without its picture, since FreeType moves it to draw it. */
static void print_glyph(FT_Face *faces, FT_UInt glyph) {
  need(FT_Load_Glyph(faces[0], glyph, FT_LOAD_NO_SCALE), "a glyph");
  printf("%u %ld", glyph, faces[0]->glyph->metrics.horiAdvance);
  for (int i = 0; i < sizes; i++) {
    need(FT_Load_Glyph(faces[i], glyph, HOW & ~FT_LOAD_RENDER), "a glyph");
    printf(" %ld", sum_of_outline(faces[i]->glyph));
  }
  for (int i = 0; i < sizes; i++) {
    need(FT_Load_Glyph(faces[i], glyph, HOW), "a picture");
    printf(" %ld", sum_of_picture(faces[i]->glyph));
  }
  printf("\n");
}

int main(int count, char **words) {
  FT_Library library;
  FT_Face faces[MOST_SIZES];
  FT_UInt version = 35;
  const TT_HoriHeader *hhea;
  char *at;

  need(count < 4, "a word is missing");
  need(FT_Init_FreeType(&library), "start");
  need(FT_Property_Set(library, "truetype", "interpreter-version", &version), "version 35");
  for (at = words[2]; *at; sizes++) {
    need(sizes == MOST_SIZES, "more than eight sizes");
    need(FT_New_Face(library, words[1], 0, &faces[sizes]), words[1]);
    need(FT_Set_Pixel_Sizes(faces[sizes], 0, strtol(at, &at, 10)), "a size");
    at += *at == ',';
  }
  hhea = FT_Get_Sfnt_Table(faces[0], FT_SFNT_HHEA);
  need(!hhea, "no hhea");
  printf("units %d %d\n", faces[0]->units_per_EM, hhea->Ascender);
  for (int i = 3; i < count; i++) print_glyph(faces, atol(words[i]));
  return 0;
}
