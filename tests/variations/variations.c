/* Answers questions of rows.txt by the library: a question a line of standard input, an answer a line of standard
 * output.
 *
 *   map FONT FIT SIZE INSTANCE TEXT TAG=VALUE ..
 *   draw FONT FIT SIZE INSTANCE TEXT TAG=VALUE ..
 *   pens FONT FIT SIZE INSTANCE TEXT TAG=VALUE ..
 *   axes FONT FIT SIZE INSTANCE TEXT TAG=VALUE ..
 *
 * FONT is a file, without blanks in its name, FIT a number of the header, INSTANCE that of a job. TEXT and TAG have
 * hexadecimal digits, or TEXT is "-" where it is empty; VALUE is in 16.16. An answer of `map` is what the program
 * writes, with '/' behind each line; of `draw` the picture in hexadecimal; of `pens` the second pen of the kerned line;
 * of `axes` a line for each axis and each named instance, with places in 16.16. A refusal is "refused" and the program's
 * line. */
#include <inttypes.h>
#include <stdio.h>
#include <stdlib.h>
#include <string.h>

#include "tt_render.h"

static uint8_t font[1 << 23], text[1 << 15], rows[1 << 21];
static size_t font_bytes, text_bytes;
static struct tt_job job;

static void read_font(const char *name) {
  FILE *file = fopen(name, "rb");
  if (!file) exit(3);
  font_bytes = fread(font, 1, sizeof font, file);
  fclose(file);
}

static void read_text(const char *digits) {
  unsigned byte;
  for (text_bytes = 0; sscanf(digits, "%2x", &byte) == 1; digits += 2) text[text_bytes++] = (uint8_t)byte;
}

/* Prints the line of a refusal, and says whether there was one. */
static int is_refused(const struct tt_answer *answer) {
  char line[90];
  struct tt_answer said;
  if (answer->status == TT_DONE) return 0;
  tt_message(answer, (uint8_t *)line, sizeof line, &said);
  printf("refused %s", line);
  return 1;
}

static void write_map(void) {
  static struct tt_glyph units[1 << 13];
  struct tt_answer answer;
  tt_map_job(font, font_bytes, text, text_bytes, &job, units, sizeof units / sizeof *units, &answer);
  if (is_refused(&answer)) return;
  for (size_t i = 0; i < answer.count; i++)
    printf("U+%04" PRIX32 " %" PRIu32 " %" PRIu32 "/", units[i].code_point, units[i].glyph, units[i].advance);
}

static void write_pens(void) {
  static struct tt_pen pens[1 << 13];
  struct tt_answer answer;
  job.kern = 1;
  tt_pens(font, font_bytes, text, text_bytes, &job, pens, sizeof pens / sizeof *pens, &answer);
  if (!is_refused(&answer)) printf("%" PRId64, answer.count > 1 ? pens[1].pen : 0);
}

static int are_alike(const struct tt_answer *one, const struct tt_answer *other) {
  return one->status == other->status && one->number == other->number && one->offset == other->offset &&
         memcmp(one->table, other->table, sizeof one->table) == 0;
}

/* Says whether each other call with a job answers as tt_draw does. */
static int are_calls_alike(const struct tt_answer *drawn, const struct tt_picture *picture) {
  static uint8_t others[sizeof rows];
  static struct tt_character characters[1 << 13];
  struct tt_answer answer;
  struct tt_measure measure;
  struct tt_picture told;
  struct tt_line line;
  uint64_t end = text_bytes;
  int good, done = drawn->status == TT_DONE;
  tt_measure(font, font_bytes, text, text_bytes, &job, &measure, &answer);
  good = are_alike(drawn, &answer) && (!done || measure.width == picture->width);
  tt_characters(font, font_bytes, text, text_bytes, &job, characters, sizeof characters / sizeof *characters, &answer);
  good &= are_alike(drawn, &answer);
  tt_draw_band(font, font_bytes, text, text_bytes, &job, 0, UINT32_MAX, others, sizeof others, &told, &answer);
  good &= are_alike(drawn, &answer) && (!done || memcmp(rows, others, (size_t)drawn->bytes) == 0);
  memset(others, 0, sizeof others);
  tt_draw_lines(font, font_bytes, text, text_bytes, &end, 1, &job, 1 << 20, others, sizeof others, &line, 1, &answer);
  good &= are_alike(drawn, &answer) && (!done || memcmp(rows, others + line.at, (size_t)drawn->bytes) == 0);
  return good;
}

static void write_picture(void) {
  struct tt_picture told;
  struct tt_answer answer;
  tt_draw(font, font_bytes, text, text_bytes, &job, rows, sizeof rows, &told, &answer);
  if (!are_calls_alike(&answer, &told)) fputs("another call answers otherwise: ", stdout);
  if (is_refused(&answer)) return;
  printf("%" PRIu32 " %" PRIu32 " ", told.width, told.height);
  for (uint64_t i = 0; i < answer.bytes; i++) printf("%02x", rows[i]);
}

static void write_name(const uint8_t *name) { printf(" %.64s/", (const char *)name); }

static void write_axes(void) {
  static struct tt_axis_range axes[64];
  static struct tt_instance instances[256];
  struct tt_answer answer;
  uint64_t count;
  tt_axes(font, font_bytes, 1, axes, sizeof axes / sizeof *axes, &answer);
  if (is_refused(&answer)) return;
  count = answer.count;
  for (size_t i = 0; i < count; i++) {
    printf("axis %08" PRIX32 " %" PRId32 " %" PRId32 " %" PRId32, axes[i].tag, axes[i].least, axes[i].default_value,
           axes[i].greatest);
    write_name(axes[i].name);
  }
  tt_instances(font, font_bytes, 1, instances, sizeof instances / sizeof *instances, &answer);
  if (is_refused(&answer)) return;
  for (size_t k = 0; k < answer.count; k++) {
    printf("instance %" PRIu32, instances[k].instance);
    for (size_t i = 0; i < count; i++) printf(" %" PRId32, instances[k].place[i]);
    write_name(instances[k].name);
  }
}

/* Reads the values of axes that are left of a line. A job has room for 16; one more is counted, and not there. */
static void read_axes(void) {
  const char *word;
  for (job.axes = 0; (word = strtok(NULL, " \n")); job.axes++) {
    struct tt_axis axis = {0, 0};
    sscanf(word, "%" SCNx32 "=%" SCNd32, &axis.tag, &axis.value);
    if (job.axes < 16) job.axis[job.axes] = axis;
  }
}

int main(void) {
  static char line[1 << 17];
  while (fgets(line, sizeof line, stdin)) {
    const char *call = strtok(line, " \n");
    memset(&job, 0, sizeof job);
    read_font(strtok(NULL, " \n"));
    job.fit = (uint32_t)strtoul(strtok(NULL, " \n"), NULL, 10);
    job.size = (uint32_t)strtoul(strtok(NULL, " \n"), NULL, 10);
    job.instance = (uint32_t)strtoul(strtok(NULL, " \n"), NULL, 10);
    read_text(strtok(NULL, " \n"));
    read_axes();
    if (strcmp(call, "map") == 0) write_map();
    if (strcmp(call, "draw") == 0) write_picture();
    if (strcmp(call, "pens") == 0) write_pens();
    if (strcmp(call, "axes") == 0) write_axes();
    putchar('\n');
  }
  return 0;
}
