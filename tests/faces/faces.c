/* Answers questions of rows.txt by the library: a question a line of standard input, an answer a line of standard
 * output.
 *
 *   map FONT FACE TEXT
 *   faces FONT
 *   draw FONT FACE TEXT FIT
 *
 * FONT is a file, without blanks in its name, FACE a number, or `strict`. TEXT has hexadecimal digits, or is "-" where
 * it is empty; FIT is a number of the header. An answer is what the program writes, with '/' behind each line, but that
 * `faces` has no names; for `draw` at 16 pixels per em it is the picture in hexadecimal. A refusal is "refused" and the
 * program's line. */
#include <inttypes.h>
#include <stdio.h>
#include <stdlib.h>
#include <string.h>

#include "tt_render.h"

static uint8_t font[1 << 23], text[1 << 15], rows[1 << 16];
static struct tt_glyph units[1 << 13];
static struct tt_glyph glyphs[1 << 13];
static size_t font_bytes, text_bytes;

static void read_font(const char *name) {
  FILE *file = fopen(name, "rb");
  if (!file) exit(3);
  font_bytes = fread(font, 1, sizeof font, file);
  fclose(file);
}

static void read_text(const char *digits) {
  unsigned byte;
  for (text_bytes = 0; sscanf(digits, "%2x", &byte) == 1; digits += 2) text[text_bytes++] = (uint8_t)byte;
}

/* Prints the line of a refusal behind a word, from a place on, and says whether there was one. */
static int is_refused_from(const struct tt_answer *answer, const char *word, size_t from) {
  char line[90];
  struct tt_answer said;
  if (answer->status == TT_DONE) return 0;
  tt_message(answer, (uint8_t *)line, sizeof line, &said);
  printf("%s%s", word, line + from);
  return 1;
}

static int is_refused(const struct tt_answer *answer) { return is_refused_from(answer, "refused ", 0); }

static void write_map(uint32_t face) {
  struct tt_answer answer;
  if (face == 0) {
    tt_map(font, font_bytes, text, text_bytes, glyphs, sizeof glyphs / sizeof *glyphs, &answer);
  } else {
    tt_map_face(font, font_bytes, face, text, text_bytes, units, sizeof units / sizeof *units, &answer);
  }
  if (is_refused(&answer)) return;
  for (size_t i = 0; i < answer.count; i++) {
    if (face == 0) {
      printf("U+%04" PRIX32 " %" PRIu32 " %" PRIu32 "/", glyphs[i].code_point, glyphs[i].glyph, glyphs[i].advance);
      continue;
    }
    printf("U+%04" PRIX32 " ", units[i].code_point);
    if (units[i].selector) printf("U+%04" PRIX32 " ", units[i].selector);
    printf("%" PRIu32 " %" PRIu32 "/", units[i].glyph, units[i].advance);
  }
}

static void write_faces(void) {
  struct tt_answer answer;
  struct tt_font told;
  tt_faces(font, font_bytes, &answer);
  if (is_refused(&answer)) return;
  uint64_t count = answer.count;
  printf("faces %" PRIu64 "/", count);
  for (uint32_t face = 0; face < count && face < 256; face++) {
    printf("%" PRIu32 " ", face);
    tt_open_face(font, font_bytes, face + 1, &told, &answer);
    if (!is_refused_from(&answer, "", strlen("tt_render: "))) printf("%" PRIu32 " %" PRIu32, told.glyphs, told.units_per_em);
    putchar('/');
  }
}

static int are_alike(const struct tt_answer *one, const struct tt_answer *other) {
  return one->status == other->status && one->number == other->number && one->offset == other->offset &&
         memcmp(one->table, other->table, sizeof one->table) == 0;
}

/* Says whether each other call with a job answers as tt_draw does. */
static int are_calls_alike(const struct tt_job *job, const struct tt_answer *drawn, const struct tt_picture *picture) {
  static uint8_t others[1 << 16];
  static struct tt_character characters[1 << 13];
  struct tt_answer answer;
  struct tt_measure measure;
  struct tt_picture told;
  struct tt_line line;
  uint64_t end = text_bytes;
  int good = 1, done = drawn->status == TT_DONE;
  tt_measure(font, font_bytes, text, text_bytes, job, &measure, &answer);
  good &= are_alike(drawn, &answer) && (!done || measure.width == picture->width);
  tt_characters(font, font_bytes, text, text_bytes, job, characters, sizeof characters / sizeof *characters, &answer);
  good &= are_alike(drawn, &answer);
  tt_draw_band(font, font_bytes, text, text_bytes, job, 0, UINT32_MAX, others, sizeof others, &told, &answer);
  good &= are_alike(drawn, &answer) && (!done || memcmp(rows, others, (size_t)drawn->bytes) == 0);
  memset(others, 0, sizeof others);
  tt_draw_lines(font, font_bytes, text, text_bytes, &end, 1, job, 1 << 20, others, sizeof others, &line, 1, &answer);
  return good && are_alike(drawn, &answer) && (!done || memcmp(rows, others, (size_t)drawn->bytes) == 0);
}

static void write_picture(uint32_t face, uint32_t fit) {
  struct tt_job job = {.size = 16, .fit = fit, .face = face};
  struct tt_picture told;
  struct tt_answer answer;
  tt_draw(font, font_bytes, text, text_bytes, &job, rows, sizeof rows, &told, &answer);
  if (!are_calls_alike(&job, &answer, &told)) fputs("another call answers otherwise: ", stdout);
  if (is_refused(&answer)) return;
  printf("%" PRIu32 " %" PRIu32 " ", told.width, told.height);
  for (uint64_t i = 0; i < answer.bytes; i++) printf("%02x", rows[i]);
}

int main(void) {
  static char line[1 << 16], call[8], name[4096], face_word[16], digits[1 << 16];
  while (fgets(line, sizeof line, stdin)) {
    uint32_t fit = 0;
    strcpy(face_word, "strict");
    strcpy(digits, "-");
    sscanf(line, "%7s %4095s %15s %65535s %" SCNu32, call, name, face_word, digits, &fit);
    /* As in a job: 0 without a face, else the number and 1. */
    uint32_t face = strcmp(face_word, "strict") == 0 ? 0 : (uint32_t)strtoul(face_word, NULL, 10) + 1;
    read_font(name);
    read_text(digits);
    if (strcmp(call, "map") == 0) write_map(face);
    if (strcmp(call, "faces") == 0) write_faces();
    if (strcmp(call, "draw") == 0) write_picture(face, fit);
    putchar('\n');
  }
  return 0;
}
