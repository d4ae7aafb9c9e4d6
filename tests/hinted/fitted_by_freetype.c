/* Prints glyphs as FreeType's bytecode interpreter fits them, for black and white and without its later ways (version
   35), at up to eight sizes in pixels per em, with commas:

     fitted_by_freetype FONT FIT SIZES GLYPH ..
     fitted_by_freetype FONT FIT SIZES all

   FIT is `full` or `best`, which passes over what a program asks for and is not there, such as a control value, or
   `unhinted`, which runs no program.

   A line is `GLYPH ENDS`, where ENDS are one past the last point of each contour, with commas, and for each size
   `ADVANCE X Y`: the distance of the first two phantom points, rounded to a pixel, and the points, in 1/64 pixel,
   counted from the left phantom point. X and Y are the difference of each point from the one before, +N, -N or `.` for
   none, and along x >N, <N or `:` where the point is off the curve; both are `-` where there is no point. A glyph that
   FreeType refuses has no line. */
#include <stdio.h>
#include <stdlib.h>
#include <string.h>

#include <ft2build.h>
#include FT_FREETYPE_H
#include FT_MODULE_H
#include FT_OUTLINE_H

enum { MOST_SIZES = 8 };

static int sizes;

/* The advance is that of the phantom points, whatever the table hdmx has. For `full`, faults of programs are told. */
static FT_Int32 how = FT_LOAD_TARGET_MONO | FT_LOAD_NO_AUTOHINT | FT_LOAD_NO_BITMAP | FT_LOAD_COMPUTE_METRICS;

static void need(FT_Error error, const char *what) {
  if (!error) return;
  fprintf(stderr, "fitted_by_freetype: %s: error %d\n", what, error);
  exit(1);
}

static void print_ends(const FT_Outline *outline) {
  for (int i = 0; i < outline->n_contours; i++) printf("%s%d", i ? "," : " ", outline->contours[i] + 1);
  if (outline->n_contours == 0) printf(" -");
}

/* The signs are those of a difference above, below and of 0. */
static void print_difference(long by, const char *signs) {
  if (by == 0)
    printf("%c", signs[2]);
  else
    printf("%c%ld", signs[by < 0], labs(by));
}

static void print_points(const FT_Outline *outline) {
  long x = 0, y = 0;
  if (outline->n_points == 0) {
    printf(" - -");
    return;
  }
  printf(" ");
  for (int i = 0; i < outline->n_points; i++) {
    print_difference(outline->points[i].x - x, FT_CURVE_TAG(outline->tags[i]) == FT_CURVE_TAG_ON ? "+-." : "><:");
    x = outline->points[i].x;
  }
  printf(" ");
  for (int i = 0; i < outline->n_points; i++) {
    print_difference(outline->points[i].y - y, "+-.");
    y = outline->points[i].y;
  }
}

/* The same face is open once for each size, so that its programs are run for each size once. */
static void print_glyph(FT_Face *faces, long glyph) {
  for (int i = 0; i < sizes; i++)
    if (FT_Load_Glyph(faces[i], glyph, how)) return;
  printf("%ld", glyph);
  print_ends(&faces[0]->glyph->outline);
  for (int i = 0; i < sizes; i++) {
    printf(" %ld", (faces[i]->glyph->metrics.horiAdvance + 32) & -64);
    print_points(&faces[i]->glyph->outline);
  }
  printf("\n");
}

int main(int count, char **words) {
  FT_Library library;
  FT_Face faces[MOST_SIZES];
  FT_UInt version = 35;
  char *at;

  if (count < 5) need(1, "a word is missing");
  if (strcmp(words[2], "full") == 0)
    how |= FT_LOAD_PEDANTIC;
  else if (strcmp(words[2], "unhinted") == 0)
    how |= FT_LOAD_NO_HINTING;
  else if (strcmp(words[2], "best") != 0)
    need(1, "full, best or unhinted");
  need(FT_Init_FreeType(&library), "start");
  need(FT_Property_Set(library, "truetype", "interpreter-version", &version), "version 35");
  for (at = words[3]; *at; sizes++) {
    need(sizes == MOST_SIZES, "more than eight sizes");
    need(FT_New_Face(library, words[1], 0, &faces[sizes]), words[1]);
    need(FT_Set_Pixel_Sizes(faces[sizes], 0, strtol(at, &at, 10)), "a size");
    at += *at == ',';
  }
  if (strcmp(words[4], "all") == 0)
    for (long glyph = 0; glyph < faces[0]->num_glyphs; glyph++) print_glyph(faces, glyph);
  else
    for (int i = 4; i < count; i++) print_glyph(faces, atol(words[i]));
  return 0;
}
