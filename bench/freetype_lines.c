/* Does over FreeType 2 what `tt_render draw --lines` does, to be measured beside it:

     freetype_lines SIZE MARGIN FONT

   writes each line of standard input as freetype_draw writes its text, with the face kept open. With -DKEPT the bitmap
   of each glyph is kept too, so that a glyph is loaded and rendered once. */
#define main draw_one_line
#include "freetype_draw.c"
#undef main

#include FT_BITMAP_H
#include <string.h>

#ifdef KEPT
struct kept {
  int made;
  FT_Int left, top;
  FT_Bitmap bitmap;
};

static struct kept kept[65536];

static void draw_kept(FT_Library library, FT_Face face, FT_UInt glyph, struct picture *to, long left) {
  struct kept *it = &kept[glyph];

  if (!it->made) {
    FT_GlyphSlot slot = face->glyph;

    need(FT_Load_Glyph(face, glyph, FITTING | FT_LOAD_TARGET_MONO | FT_LOAD_NO_BITMAP), "a glyph is refused");
    if (slot->format != FT_GLYPH_FORMAT_OUTLINE) stop("a glyph has no outline");
    fill_no_dropout(&slot->outline);
    need(FT_Render_Glyph(slot, FT_RENDER_MODE_MONO), "a glyph is not rendered");
    FT_Bitmap_Init(&it->bitmap);
    need(FT_Bitmap_Copy(library, &slot->bitmap, &it->bitmap), "out of memory");
    it->left = slot->bitmap_left;
    it->top = slot->bitmap_top;
    it->made = 1;
  }
  add(to, &it->bitmap, left + it->left, to->base - it->top);
}
#else
static void draw_kept(FT_Library library, FT_Face face, FT_UInt glyph, struct picture *to, long left) {
  (void)library;
  draw(face, glyph, to, left);
}
#endif

int main(int argc, char **argv) {
  static struct place places[CHARACTERS];
  static char text[65536];
  FT_Library library;
  FT_Face face;
  const TT_HoriHeader *hhea;
  struct line line;

  if (argc != 4) stop("the words are SIZE MARGIN FONT");
  line = (struct line){atol(argv[1]), atol(argv[2]), argv[3], text};
  need(FT_Init_FreeType(&library), "no library");
  need(FT_New_Face(library, line.font, 0, &face), "the font is refused");
  set_instance(face);
  need(FT_Set_Pixel_Sizes(face, 0, line.size), "the size is refused");
  hhea = FT_Get_Sfnt_Table(face, FT_SFNT_HHEA);
  if (!hhea) stop("no hhea");
  while (fgets(text, sizeof text, stdin)) {
    struct picture it;
    long end;
    int count;

    text[strcspn(text, "\n")] = 0;
    count = lay(face, &line, places, &end);
    it = white(&line, face->units_per_EM, hhea->Ascender, hhea->Descender, end);
    for (int i = 0; i < count; i++) draw_kept(library, face, places[i].glyph, &it, line.margin + places[i].pen);
    cut(&it);
    printf("P4\n%ld %ld\n", it.width, it.height);
    fwrite(it.bits, it.stride, it.height, stdout);
    free(it.bits);
  }
  if (fflush(stdout) || ferror(stdout)) stop("cannot write");
  return 0;
}
