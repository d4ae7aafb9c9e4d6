/* Prints the pictures of characters by FreeType, black and white, by its bytecode interpreter for black and white
   without its later ways (version 35) and without its own hinter:

     pictures_by_freetype FONT CODE .. <SIZES

   For each size of standard input a line for each code point in turn, which is hexadecimal: the number of the glyph, the
   first column, the row above the first, and the rows as hexadecimal digits with a comma behind each. A character that
   the font does not have is `-`. A font with neither prep nor fpgm is drawn without hinting. */
#include <stdio.h>
#include <stdlib.h>

#include <ft2build.h>
#include FT_FREETYPE_H
#include FT_MODULE_H
#include FT_TRUETYPE_TABLES_H

static FT_Face face;

static void need(int failed, const char *what) {
  if (!failed) return;
  fprintf(stderr, "pictures_by_freetype: %s\n", what);
  exit(1);
}

static int has_table(FT_ULong tag) {
  FT_ULong length = 0;
  return FT_Load_Sfnt_Table(face, tag, 0, NULL, &length) == 0 && length > 0;
}

static void print_picture(FT_UInt glyph, FT_Int32 how) {
  FT_Bitmap *bitmap = &face->glyph->bitmap;
  if (glyph == 0 || FT_Load_Glyph(face, glyph, how | FT_LOAD_RENDER)) {
    puts("-");
    return;
  }
  printf("%u %d %d ", glyph, face->glyph->bitmap_left, face->glyph->bitmap_top);
  for (unsigned y = 0; y < bitmap->rows; y++) {
    for (unsigned x = 0; x < (bitmap->width + 7) / 8; x++) printf("%02x", bitmap->buffer[y * bitmap->pitch + x]);
    putchar(',');
  }
  putchar('\n');
}

int main(int count, char **words) {
  FT_Library library;
  FT_UInt version = 35;
  FT_Int32 how = FT_LOAD_TARGET_MONO | FT_LOAD_NO_AUTOHINT | FT_LOAD_NO_BITMAP;
  int size;
  need(count < 3, "a font and a code point are missing");
  need(FT_Init_FreeType(&library), "no library");
  need(FT_Property_Set(library, "truetype", "interpreter-version", &version), "no such interpreter");
  need(FT_New_Face(library, words[1], 0, &face), "no font");
  if (!has_table(FT_MAKE_TAG('p', 'r', 'e', 'p')) && !has_table(FT_MAKE_TAG('f', 'p', 'g', 'm'))) how |= FT_LOAD_NO_HINTING;
  while (scanf("%d", &size) == 1) {
    need(FT_Set_Pixel_Sizes(face, 0, size), "no such size");
    for (int i = 2; i < count; i++) print_picture(FT_Get_Char_Index(face, strtoul(words[i], NULL, 16)), how);
  }
  return 0;
}
