/* Prints the glyphs that FreeType has for characters: by_freetype FONT FACE. A line is a character, in hexadecimal, and
 * its glyph, where that is not 0. Asked are all characters but surrogates and selectors of variations. Where FreeType
 * chooses no character map, it is asked by the first one of platform 3 and encoding 0, a character below 100 that it
 * lacks also at F000 and more. Behind them come characters with a selector, and the glyphs of both. */
#include <stdio.h>
#include <stdlib.h>

#include <ft2build.h>
#include FT_FREETYPE_H

static void take_symbols(FT_Face face) {
  for (int i = 0; i < face->num_charmaps; i++) {
    FT_CharMap map = face->charmaps[i];
    if (map->platform_id == 3 && map->encoding_id == 0 && !FT_Set_Charmap(face, map)) return;
  }
  exit(2);
}

static void print_pairs(FT_Face face) {
  FT_UInt32 *selectors = FT_Face_GetVariantSelectors(face);
  static FT_UInt32 kept[256];
  int count = 0;
  /* The list is the face's own, and the next call has it for another one. */
  while (selectors && selectors[count] && count < 256) kept[count] = selectors[count], count++;
  for (int i = 0; i < count; i++) {
    FT_UInt32 *codes = FT_Face_GetCharsOfVariant(face, kept[i]);
    for (int at = 0; codes && codes[at]; at++) {
      FT_UInt glyph = FT_Face_GetCharVariantIndex(face, codes[at], kept[i]);
      if (glyph) printf("U+%04lX U+%04lX %u\n", (FT_ULong)codes[at], (FT_ULong)kept[i], glyph);
    }
  }
}

int main(int count, char **words) {
  FT_Library library;
  FT_Face face;
  if (count != 3 || FT_Init_FreeType(&library) || FT_New_Face(library, words[1], atol(words[2]), &face)) return 1;
  int by_symbols = !face->charmap;
  if (by_symbols) take_symbols(face);
  puts(by_symbols ? "symbol" : "unicode");
  for (FT_ULong code = 1; code < 0x110000; code++) {
    if ((code >= 0xD800 && code < 0xE000) || (code >= 0xFE00 && code < 0xFE10)) continue;
    if (code >= 0xE0100 && code < 0xE01F0) continue;
    FT_UInt glyph = FT_Get_Char_Index(face, code);
    if (!glyph && by_symbols && code < 256) glyph = FT_Get_Char_Index(face, 0xF000 + code);
    if (glyph) printf("U+%04lX %u\n", code, glyph);
  }
  print_pairs(face);
  return 0;
}
