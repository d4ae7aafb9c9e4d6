/* Prints the glyphs of a bitmap font as FreeType reads the file: by_freetype FILE. A line is a character, the advance,
 * left and top of the bitmap, its width and height, and its rows in hexadecimal, or `-` where it has none. */
#include <stdio.h>

#include <ft2build.h>
#include FT_FREETYPE_H

static void print_glyph(FT_ULong code, FT_GlyphSlot slot) {
  const FT_Bitmap *bitmap = &slot->bitmap;
  printf("%lu %ld %d %d %u %u ", code, slot->advance.x >> 6, slot->bitmap_left, slot->bitmap_top, bitmap->width,
         bitmap->rows);
  for (unsigned row = 0; row < bitmap->rows; row++) {
    const unsigned char *from = bitmap->buffer + (ptrdiff_t)row * bitmap->pitch;
    for (unsigned at = 0; at < (bitmap->width + 7) / 8; at++) printf("%02x", from[at]);
  }
  puts(bitmap->width && bitmap->rows ? "" : "-");
}

int main(int count, char **words) {
  FT_Library library;
  FT_Face face;
  FT_UInt glyph;
  if (count != 2 || FT_Init_FreeType(&library) || FT_New_Face(library, words[1], 0, &face)) return 1;
  if (face->num_fixed_sizes != 1 || FT_Select_Size(face, 0) || !face->charmap) return 2;
  for (FT_ULong code = FT_Get_First_Char(face, &glyph); glyph; code = FT_Get_Next_Char(face, code, &glyph)) {
    if (FT_Load_Glyph(face, glyph, FT_LOAD_DEFAULT) || face->glyph->bitmap.pixel_mode != FT_PIXEL_MODE_MONO) return 3;
    print_glyph(code, face->glyph);
  }
  return 0;
}
