/* Does over stb_truetype what `tt_render draw` does, to be measured beside it:

     stb_draw SIZE MARGIN FONT TEXT

   writes the line of a UTF-8 text as P4, at SIZE pixels per em with MARGIN pixels round it. stb_truetype answers how
   much of a pixel is covered, of 255; black is from 128 on. Advances are rounded to whole pixels; ascent and descent
   are hhea's, rounded up. A glyph stands where its points say, which is right where its left side bearing is its least
   x, as in the fonts that are measured. */
#include "line.h"

#define STB_TRUETYPE_IMPLEMENTATION
#define STBTT_STATIC
#include <stb/stb_truetype.h>

static const char *const name = "stb_draw";

/* The whole file. stb_truetype trusts its bytes. */
static unsigned char *read_file(const char *path) {
  FILE *file = fopen(path, "rb");
  unsigned char *bytes;
  long count;

  if (!file || fseek(file, 0, SEEK_END) || (count = ftell(file)) < 0) stop("cannot read the font");
  rewind(file);
  bytes = malloc(count);
  if (!bytes) stop("out of memory");
  if (fread(bytes, 1, count, file) != (size_t)count) stop("cannot read the font");
  fclose(file);
  return bytes;
}

/* Fills in the glyph and the pen of each character; returns how many there are, and leaves where the line ends. */
static int lay(const stbtt_fontinfo *font, const struct line *line, long em, struct place *places, long *end) {
  const char *text = line->text;
  int count = 0;

  *end = 0;
  while (*text) {
    int advance, bearing;

    if (count == CHARACTERS) stop("the text is too long");
    places[count].glyph = stbtt_FindGlyphIndex(font, next_character(&text));
    places[count].pen = *end;
    stbtt_GetGlyphHMetrics(font, places[count].glyph, &advance, &bearing);
    *end += pixels(advance, line->size, em);
    count++;
  }
  return count;
}

/* Blackens what a glyph covers by half or more; its upper left pixel is at a column and a row that may lie outside. */
static void add(struct picture *to, const unsigned char *grey, long width, long height, long column, long row) {
  long first = column < 0 ? -column : 0, past = column + width > to->width ? to->width - column : width;

  for (long y = 0; y < height; y++) {
    unsigned char *bits = to->bits + (row + y) * to->stride;

    if (row + y < 0 || row + y >= to->height) continue;
    for (long x = first; x < past; x++)
      if (grey[y * width + x] >= 128) bits[(column + x) / 8] |= 0x80 >> (column + x) % 8;
  }
}

/* Draws a glyph; the room for its grey picture grows as it must, and serves the next. */
static void draw(const stbtt_fontinfo *font, int glyph, float scale, struct picture *to, long left) {
  static unsigned char *grey;
  static long room;
  int x0, y0, x1, y1;
  long width, height;

  stbtt_GetGlyphBitmapBox(font, glyph, scale, scale, &x0, &y0, &x1, &y1);
  width = x1 - x0, height = y1 - y0;
  if (width <= 0 || height <= 0) return;
  if (width * height > room) {
    room = width * height;
    free(grey);
    grey = malloc(room);
    if (!grey) stop("out of memory");
  }
  stbtt_MakeGlyphBitmap(font, grey, width, height, width, scale, scale, glyph);
  add(to, grey, width, height, left + x0, to->base + y0);
}

static struct picture draw_line(const struct line *line) {
  static struct place places[CHARACTERS];
  unsigned char *bytes = read_file(line->font);
  stbtt_fontinfo font;
  struct picture it;
  float scale;
  long em, end;
  int count, ascent, descent, gap;

  if (!stbtt_InitFont(&font, bytes, 0)) stop("the font is refused");
  em = bytes[font.head + 18] << 8 | bytes[font.head + 19]; /* unitsPerEm, for which stb_truetype has no call */
  scale = stbtt_ScaleForMappingEmToPixels(&font, line->size);
  stbtt_GetFontVMetrics(&font, &ascent, &descent, &gap);
  count = lay(&font, line, em, places, &end);
  it = white(line, em, ascent, descent, end);
  for (int i = 0; i < count; i++) draw(&font, places[i].glyph, scale, &it, line->margin + places[i].pen);
  return it;
}
