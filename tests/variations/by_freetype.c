/* Prints glyphs of a variable font at an instance as FreeType makes them, for black and white, by its bytecode
   interpreter without its later ways (version 35):

     by_freetype FONT SIZE PLACES CODE ..

   PLACES are places on the axes in 16.16, with commas. A font with neither prep nor fpgm is not hinted. The first line
   is `COORDINATES ASCENT DESCENT GAP`, coordinates in 16.16 with commas, heights in font units. Then a line for each
   code point, which is hexadecimal: `GLYPH STEP ENDS POINTS LEFT TOP ROWS`. STEP is in pixels; ENDS are one past the
   last point of each contour, POINTS are `X,Y,ON` in 1/64 pixel from the left phantom point with `;` behind each. LEFT
   is the bitmap's first column, TOP the row above its first, and ROWS are hexadecimal with a comma behind each. What is
   empty is `-`. The face is opened anew for each instance, since FreeType adds up heights over several instances. */
#include <stdio.h>
#include <stdlib.h>

#include <ft2build.h>
#include FT_FREETYPE_H
#include FT_MODULE_H
#include FT_MULTIPLE_MASTERS_H
#include FT_OUTLINE_H
#include FT_TRUETYPE_TABLES_H

enum { MOST_AXES = 64 };

static FT_Face face;
static FT_Int32 how = FT_LOAD_TARGET_MONO | FT_LOAD_NO_AUTOHINT | FT_LOAD_NO_BITMAP | FT_LOAD_COMPUTE_METRICS;

static void need(FT_Error error, const char *what) {
  if (!error) return;
  fprintf(stderr, "by_freetype: %s: error %d\n", what, error);
  exit(1);
}

static int has_table(FT_ULong tag) {
  FT_ULong length = 0;
  return FT_Load_Sfnt_Table(face, tag, 0, NULL, &length) == 0 && length > 0;
}

static void set_instance(char *at) {
  FT_Fixed places[MOST_AXES], coordinates[MOST_AXES];
  FT_UInt count = 0;
  for (; *at && count < MOST_AXES; at += *at == ',') places[count++] = strtol(at, &at, 10);
  need(FT_Set_Var_Design_Coordinates(face, count, places), "an instance");
  need(FT_Get_Var_Blend_Coordinates(face, count, coordinates), "coordinates");
  for (FT_UInt i = 0; i < count; i++) printf("%s%ld", i ? "," : "", coordinates[i]);
  printf(" %d %d %d\n", face->ascender, face->descender, face->height - face->ascender + face->descender);
}

static void print_outline(const FT_Outline *outline) {
  for (int i = 0; i < outline->n_contours; i++) printf("%s%d", i ? "," : " ", outline->contours[i] + 1);
  if (outline->n_contours == 0) printf(" -");
  putchar(' ');
  for (int i = 0; i < outline->n_points; i++)
    printf("%ld,%ld,%d;", outline->points[i].x, outline->points[i].y,
           FT_CURVE_TAG(outline->tags[i]) == FT_CURVE_TAG_ON);
  if (outline->n_points == 0) putchar('-');
}

static void print_bitmap(void) {
  const FT_Bitmap *bitmap = &face->glyph->bitmap;
  need(FT_Render_Glyph(face->glyph, FT_RENDER_MODE_MONO), "a picture");
  printf(" %d %d ", face->glyph->bitmap_left, face->glyph->bitmap_top);
  for (unsigned y = 0; y < bitmap->rows; y++) {
    for (unsigned x = 0; x < (bitmap->width + 7) / 8; x++) printf("%02x", bitmap->buffer[y * bitmap->pitch + x]);
    putchar(',');
  }
  puts(bitmap->rows ? "" : "-");
}

int main(int count, char **words) {
  FT_Library library;
  FT_UInt version = 35;
  need(count < 4, "a word is missing");
  need(FT_Init_FreeType(&library), "start");
  need(FT_Property_Set(library, "truetype", "interpreter-version", &version), "version 35");
  need(FT_New_Face(library, words[1], 0, &face), words[1]);
  if (!has_table(FT_MAKE_TAG('p', 'r', 'e', 'p')) && !has_table(FT_MAKE_TAG('f', 'p', 'g', 'm')))
    how |= FT_LOAD_NO_HINTING;
  set_instance(words[3]);
  need(FT_Set_Pixel_Sizes(face, 0, strtoul(words[2], NULL, 10)), "a size");
  for (int i = 4; i < count; i++) {
    FT_UInt glyph = FT_Get_Char_Index(face, strtoul(words[i], NULL, 16));
    need(FT_Load_Glyph(face, glyph, how), "a glyph");
    printf("%u %ld", glyph, (face->glyph->metrics.horiAdvance + 32) >> 6);
    print_outline(&face->glyph->outline);
    print_bitmap();
  }
  return 0;
}
