/* Does over FreeType 2 what `tt_render draw` does, to be measured beside it:

     freetype_draw SIZE MARGIN FONT TEXT

   writes the line of a UTF-8 text as P4, at SIZE pixels per em with MARGIN pixels round it. Outlines are not fitted,
   and dropouts are not filled. Advances are rounded to whole pixels; ascent and descent are hhea's, rounded up. A
   variable font is drawn at the places on its axes that PLACES has, in 16.16 with commas. */
#include "line.h"

#include <ft2build.h>
#include FT_FREETYPE_H
#include FT_ADVANCES_H
#include FT_MULTIPLE_MASTERS_H
#include FT_OUTLINE_H
#include FT_TRUETYPE_TABLES_H

/* With -DFITTED glyphs are fitted by the font's programs. */
#ifdef FITTED
#define FITTING FT_LOAD_NO_AUTOHINT
#else
#define FITTING FT_LOAD_NO_HINTING
#endif

static const char *const name = "freetype_draw";

static void need(FT_Error error, const char *what) {
  if (error) stop(what);
}

static void set_instance(FT_Face face) {
  enum { MOST_AXES = 64 };
  FT_Fixed places[MOST_AXES];
  FT_UInt count = 0;
  char *at = getenv("PLACES");

  if (!at) return;
  for (; *at && count < MOST_AXES; at += *at == ',') places[count++] = strtol(at, &at, 10);
  need(FT_Set_Var_Design_Coordinates(face, count, places), "the instance is refused");
}

/* Fills in the glyph and the pen of each character; returns how many there are, and leaves where the line ends. */
static int lay(FT_Face face, const struct line *line, struct place *places, long *end) {
  const char *text = line->text;
  int count = 0;

  *end = 0;
  while (*text) {
    FT_Fixed units;

    if (count == CHARACTERS) stop("the text is too long");
    places[count].glyph = FT_Get_Char_Index(face, next_character(&text));
    places[count].pen = *end;
    need(FT_Get_Advance(face, places[count].glyph, FT_LOAD_NO_SCALE, &units), "no advance");
    *end += pixels(units, line->size, face->units_per_EM);
    count++;
  }
  return count;
}

/* Blackens what a glyph's bitmap has black, with its upper left pixel at a column and a row that may lie outside. */
static void add(struct picture *to, const FT_Bitmap *from, long column, long row) {
  long at = divided(column, 8), shift = column - 8 * at, bytes = (from->width + 7) / 8;
  /* Those bytes of a row that lie in the picture; one more than the bitmap has, for what is shifted out of its last. */
  long first = at < 0 ? -at : 0, past = at + bytes < to->stride ? bytes + 1 : to->stride - at;

  for (long y = 0; y < (long)from->rows; y++) {
    const unsigned char *bits = from->buffer + y * from->pitch;
    unsigned char *line = to->bits + (row + y) * to->stride + at;
    unsigned two = first > 0 ? bits[first - 1] : 0;

    if (row + y < 0 || row + y >= to->height) continue;
    for (long x = first; x < past; x++) {
      two = two << 8 | (x < bytes ? bits[x] : 0);
      line[x] |= two >> shift;
    }
  }
}

/* Has no dropout of an outline filled. A flag says so; but the scan mode that a program of the font set stands in the
   tag of a contour's first point and goes before the flag, so of each tag only the kind of the point is left. With
   -DDROPOUTS dropouts are filled as the font says. */
static void fill_no_dropout(FT_Outline *outline) {
#ifndef DROPOUTS
  outline->flags |= FT_OUTLINE_IGNORE_DROPOUTS;
  for (int i = 0; i < outline->n_points; i++) outline->tags[i] &= 3;
#else
  (void)outline;
#endif
}

static void draw(FT_Face face, FT_UInt glyph, struct picture *to, long left) {
  FT_GlyphSlot slot = face->glyph;

  need(FT_Load_Glyph(face, glyph, FITTING | FT_LOAD_TARGET_MONO | FT_LOAD_NO_BITMAP), "a glyph is refused");
  if (slot->format != FT_GLYPH_FORMAT_OUTLINE) stop("a glyph has no outline");
  fill_no_dropout(&slot->outline);
  need(FT_Render_Glyph(slot, FT_RENDER_MODE_MONO), "a glyph is not rendered");
  add(to, &slot->bitmap, left + slot->bitmap_left, to->base - slot->bitmap_top);
}

/* Whitens what a glyph blackened in the last byte of a row, right of the picture. */
static void cut(struct picture *it) {
  if (it->width % 8 == 0) return;
  for (long y = 1; y <= it->height; y++) it->bits[y * it->stride - 1] &= 0xFF00 >> it->width % 8;
}

static struct picture draw_line(const struct line *line) {
  static struct place places[CHARACTERS];
  FT_Library library;
  FT_Face face;
  const TT_HoriHeader *hhea;
  struct picture it;
  long end;
  int count;

  need(FT_Init_FreeType(&library), "no library");
  need(FT_New_Face(library, line->font, 0, &face), "the font is refused");
  set_instance(face);
  need(FT_Set_Pixel_Sizes(face, 0, line->size), "the size is refused");
  hhea = FT_Get_Sfnt_Table(face, FT_SFNT_HHEA);
  if (!hhea) stop("no hhea");
  count = lay(face, line, places, &end);
  it = white(line, face->units_per_EM, hhea->Ascender, hhea->Descender, end);
  for (int i = 0; i < count; i++) draw(face, places[i].glyph, &it, line->margin + places[i].pen);
  cut(&it);
  FT_Done_Face(face);
  FT_Done_FreeType(library);
  return it;
}
