/* Makes the bitmaps of a text's characters several times over FreeType 2, each time with the face opened anew, to be
   counted beside c_glyphs:

     freetype_glyphs TIMES SIZE FONT TEXT

   fits each glyph by the font's programs, and fills dropouts. TEXT is ASCII. Nothing is written. */
#include <stdlib.h>

#include <ft2build.h>
#include FT_FREETYPE_H

static int made(FT_Library library, unsigned size, const char *font, const char *text) {
  FT_Face face;

  if (FT_New_Face(library, font, 0, &face) || FT_Set_Pixel_Sizes(face, 0, size)) return 0;
  for (const char *at = text; *at; at++) {
    FT_UInt glyph = FT_Get_Char_Index(face, (FT_ULong)*at);
    if (FT_Load_Glyph(face, glyph, FT_LOAD_TARGET_MONO | FT_LOAD_NO_BITMAP)) return 0;
    if (FT_Render_Glyph(face->glyph, FT_RENDER_MODE_MONO)) return 0;
  }
  return !FT_Done_Face(face);
}

int main(int argc, char **argv) {
  FT_Library library;

  if (argc != 5 || FT_Init_FreeType(&library)) return 1;
  for (unsigned long times = strtoul(argv[1], 0, 10); times > 0; times--) {
    if (!made(library, (unsigned)strtoul(argv[2], 0, 10), argv[3], argv[4])) return 2;
  }
  return 0;
}
