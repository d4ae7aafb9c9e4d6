/* Draws a line of glyphs by FreeType's black and white rasterizer, as P4: not the outlines that FreeType fits, but
   those of a file, so that nothing but rasterizers is compared.

     tt_test_answers outlines FONT SIZE best GLYPH .. >OUTLINES
     by_freetype FONT SIZE OUTLINES CELLS        and behind it `plain`, to have no dropout filled

   FreeType fits the glyphs too, by its bytecode interpreter for black and white without its later ways (version 35): so
   it tells which scan type the font's programs ask for, in the tag of each contour's first point, and how exactly it is
   to compute, in a flag of the outline. Then the points are moved to where ours are, with our left phantom point at the
   pen. A glyph that is not the same number of points and contours here and there ends the run.

   The picture is that of `tt_render draw` with a margin of 4 pixels, where 4 spaces follow each glyph, so that none
   stands on another. The first glyph of the file is the space. An advance is what lies between the first two phantom
   points of the file, in whole pixels. CELLS gets a line for each glyph: the first column that is its, 4 before its pen,
   and how many are its, to 4 behind its advance; the glyph; and how many rows lie between the base line and the margin
   above. */
#include <stdio.h>
#include <stdlib.h>
#include <string.h>

#include <ft2build.h>
#include FT_FREETYPE_H
#include FT_BITMAP_H
#include FT_MODULE_H
#include FT_OUTLINE_H
#include FT_TRUETYPE_TABLES_H

enum { LINE = 1 << 20, MARGIN = 4, SPACES = 4 };

static const FT_Int32 HOW = FT_LOAD_TARGET_MONO | FT_LOAD_NO_AUTOHINT | FT_LOAD_NO_BITMAP;

static FT_Face face;
static long size;

static void need(int failed, const char *what) {
  if (!failed) return;
  fprintf(stderr, "by_freetype: %s\n", what);
  exit(1);
}

/* n / d for a positive d, rounded down. */
static long divided(long n, long d) { return n / d - (n % d < 0); }

static long number(char **at) {
  char *end;
  long value = strtol(*at, &end, 10);
  need(end == *at, "a number is missing");
  *at = end;
  return value;
}

/* Goes on behind a word. */
static void pass(char **at, const char *word) {
  *at += strspn(*at, " ");
  need(strncmp(*at, word, strlen(word)) != 0, word);
  *at += strlen(word);
}

/* Takes the rest of a glyph's line, and moves the points there. */
static void move_points(FT_Outline *outline, char *at) {
  long origin;
  pass(&at, "phantom");
  origin = number(&at);
  for (int i = 0; i < 7; i++) number(&at);
  pass(&at, "ends");
  for (int i = 0; i < outline->n_contours; i++) need(number(&at) != outline->contours[i] + 1, "other contours");
  pass(&at, "points");
  for (int i = 0; i < outline->n_points; i++) {
    outline->points[i].x = number(&at) - origin;
    outline->points[i].y = number(&at);
    need(number(&at) != (FT_CURVE_TAG(outline->tags[i]) == FT_CURVE_TAG_ON), "a point of another kind");
  }
  need(at[strspn(at, " \n")] != 0, "a point too many");
}

/* A flag keeps dropouts from being filled; but the scan type in a contour's first tag goes before it. */
static void fill_no_dropout(FT_Outline *outline) {
  outline->flags |= FT_OUTLINE_IGNORE_DROPOUTS;
  for (int i = 0; i < outline->n_points; i++) outline->tags[i] &= 3;
}

/* The advance of the glyph of a line of the file. */
static long advance(char *at) {
  long left, right;
  number(&at);
  pass(&at, "phantom");
  left = number(&at);
  number(&at);
  right = number(&at);
  right = divided(right - left + 32, 64);
  return right < 0 ? 0 : right;
}

/* Tells how wide 4 spaces are, of which the file's first line is one. */
static long spaces(FILE *outlines) {
  static char line[LINE];
  long wide;
  need(!fgets(line, LINE, outlines), "no glyph");
  wide = SPACES * advance(line);
  rewind(outlines);
  need(wide < 2 * MARGIN, "the spaces are too narrow");
  return wide;
}

/* A length in font units as pixels, rounded up. */
static long whole(long units) { return -divided(-units * size, face->units_per_EM); }

/* Tells the cell of each glyph of the file; how far the line goes, in pixels. */
static long lay(FILE *outlines, FILE *cells, long rise) {
  static char line[LINE];
  long end = 0, space = spaces(outlines);
  while (fgets(line, LINE, outlines)) {
    long wide = advance(line);
    fprintf(cells, "%ld %ld %ld %ld\n", end, wide + 2 * MARGIN, atol(line), rise);
    end += wide + space;
  }
  rewind(outlines);
  return end;
}

/* A white picture for a line that goes so far. */
static FT_Bitmap white(long end, long rise, long depth) {
  FT_Bitmap it;
  FT_Bitmap_Init(&it);
  it.rows = rise + depth + 2 * MARGIN;
  it.width = end + 2 * MARGIN;
  it.pitch = (it.width + 7) / 8;
  it.buffer = calloc(it.rows, it.pitch);
  need(!it.buffer, "out of memory");
  return it;
}

/* Blackens what a glyph's bitmap has black, with its upper left pixel at a column and a row. */
static void add(FT_Bitmap *to, const FT_Bitmap *from, long column, long row) {
  for (long r = 0; r < (long)from->rows; r++) {
    for (long c = 0; c < (long)from->width; c++) {
      long x = column + c, y = row + r;
      if (!(from->buffer[r * from->pitch + c / 8] >> (7 - c % 8) & 1)) continue;
      need(x < 0 || y < 0 || x >= (long)to->width || y >= (long)to->rows, "a glyph leaves the picture");
      to->buffer[y * to->pitch + x / 8] |= 0x80 >> x % 8;
    }
  }
}

/* Draws each glyph of the file. Each goes into a bitmap of its own box first, since FreeType takes no dropout outside
   of its bitmap. */
static void draw(FILE *outlines, int plain, FT_Bitmap *picture, long rise) {
  static char line[LINE];
  long pen = MARGIN, space = spaces(outlines);
  FT_GlyphSlot slot = face->glyph;
  while (fgets(line, LINE, outlines)) {
    char *at = line;
    long glyph = number(&at);
    need(FT_Load_Glyph(face, glyph, HOW), "a glyph is refused");
    move_points(&slot->outline, at);
    if (plain) fill_no_dropout(&slot->outline);
    need(FT_Render_Glyph(slot, FT_RENDER_MODE_MONO), "a glyph is not drawn");
    add(picture, &slot->bitmap, pen + slot->bitmap_left, rise + MARGIN - slot->bitmap_top);
    pen += advance(line) + space;
  }
}

int main(int count, char **words) {
  FT_Library library;
  FT_UInt version = 35;

  need(count < 5, "the words are FONT SIZE OUTLINES CELLS");
  size = atol(words[2]);
  need(FT_Init_FreeType(&library), "no library");
  need(FT_Property_Set(library, "truetype", "interpreter-version", &version), "no version 35");
  need(FT_New_Face(library, words[1], 0, &face), "the font is refused");
  need(FT_Set_Pixel_Sizes(face, 0, size), "the size is refused");
  FILE *outlines = fopen(words[3], "r"), *cells = fopen(words[4], "w");
  need(!outlines || !cells, "a file is not opened");
  const TT_HoriHeader *hhea = FT_Get_Sfnt_Table(face, FT_SFNT_HHEA);
  need(!hhea, "no hhea");
  long rise = whole(hhea->Ascender), depth = whole(-hhea->Descender);
  FT_Bitmap picture = white(lay(outlines, cells, rise), rise, depth);
  draw(outlines, count > 5, &picture, rise);
  printf("P4\n%u %u\n", picture.width, picture.rows);
  fwrite(picture.buffer, picture.pitch, picture.rows, stdout);
  need(fclose(cells) || fflush(stdout), "cannot write");
  return 0;
}
