/* Answers questions as the program does, by the library: a question a line of standard input, an answer a line of
 * standard output, WRONG and a reason where a call does not keep to what tt_render.h says of it.
 *
 *   draw FONT TEXT SIZE MARGIN FIT GROW KERN ROUNDED
 *   label FONT TEXT SIZE MARGIN FIT ALIGN KERN ROUNDED WIDTH BOX_WIDTH BOX_HEIGHT
 *   measure FONT TEXT SIZE MARGIN FIT GROW KERN ROUNDED
 *   map FONT TEXT
 *   lines FONT TEXT,TEXT.. SIZE MARGIN FIT GROW KERN ROUNDED
 *
 * FONT is a file, without blanks in its name, TEXT has hexadecimal digits, or is "-" where it is empty. An answer
 * begins with the status. After 0 come for `draw` how many glyphs are not fitted and the picture in hexadecimal, for
 * `measure` and `map` the program's lines, each with '/' behind it; else the line of the refusal. For `lines` the
 * number of the lines that are drawn, of all glyphs in them that are not fitted, and their pictures come before that.
 * For `label` the numbers of missing characters, and of columns that are cut at the left and at the right, stand between
 * the number of glyphs that are not fitted and the picture.
 */
#define _DEFAULT_SOURCE
#include <inttypes.h>
#include <stdio.h>
#include <stdlib.h>
#include <string.h>

#include "calls.h"
#include "lines.h"

static struct room read_font(const char *name) {
  static uint8_t bytes[1 << 23];
  FILE *file = fopen(name, "rb");
  if (!file) stop("cannot read a font");
  size_t size = fread(bytes, 1, sizeof bytes, file);
  if (ferror(file) || size == sizeof bytes) stop("cannot read a font");
  fclose(file);
  return held(bytes, size);
}

static void write_hex(const uint8_t *bytes, size_t count) {
  for (size_t i = 0; i < count; i++) {
    putchar("0123456789abcdef"[bytes[i] >> 4]);
    putchar("0123456789abcdef"[bytes[i] & 15]);
  }
}

static void write_picture(const struct tt_picture *told, const uint8_t *rows) {
  char head[64];
  int count = snprintf(head, sizeof head, "P4\n%" PRIu32 " %" PRIu32 "\n", told->width, told->height);
  write_hex((const uint8_t *)head, (size_t)count);
  write_hex(rows, (size_t)told->row_bytes * told->height);
}

/* A picture is that of its bands, whatever their rows are. */
static void compare_bands(struct question q, const struct outcome *whole) {
  struct tt_picture told = *(struct tt_picture *)whole->told.at;
  uint32_t height = told.height;
  const uint32_t counts[] = {height <= 12 ? 1 : height / 3, height / 2 + 1, height, UINT32_MAX};
  for (size_t i = 0; i < sizeof counts / sizeof *counts; i++) {
    q.count = counts[i];
    for (q.first = 0; q.first < height; q.first += q.count < height ? q.count : height) {
      uint32_t rows = height - q.first < q.count ? height - q.first : q.count;
      struct outcome band = q.first == 0 ? tried(&draws_band, &q) : asked(&draws_band, &q, rows * told.row_bytes);
      expect(band.answer.status == TT_DONE && band.answer.count == rows && band.answer.bytes == rows * told.row_bytes &&
                 memcmp(band.room.at, whole->room.at + (size_t)q.first * told.row_bytes, band.answer.bytes) == 0,
             "tt_draw_band: from row %u on %u rows are not the picture's", q.first, q.count);
      expect(memcmp(band.told.at, &told, sizeof told) == 0, "tt_draw_band tells of another picture than tt_draw");
      forget(band);
    }
  }
  const struct {
    uint32_t first, count;
  } none[] = {{height, 1}, {height, UINT32_MAX}, {UINT32_MAX, UINT32_MAX}, {UINT32_MAX, 1}, {0, 0}, {height / 2, 0}};
  for (size_t i = 0; i < sizeof none / sizeof *none; i++) {
    q.first = none[i].first;
    q.count = none[i].count;
    struct outcome band = tried(&draws_band, &q);
    expect(band.answer.status == TT_DONE && band.answer.bytes == 0 && band.answer.count == 0 && band.room.size == 0 &&
               memcmp(band.told.at, &told, sizeof told) == 0,
           "tt_draw_band: status %u for no row from row %u on", band.answer.status, q.first);
    forget(band);
  }
}

static void write_draw(const struct question *q) {
  struct outcome it = tried(&draws, q);
  printf("%u ", it.answer.status);
  if (it.answer.status != TT_DONE) {
    struct outcome band = tried(&draws_band, q);
    expect(are_alike(&it.answer, &band.answer), "tt_draw_band: status %u, where tt_draw has %u", band.answer.status,
           it.answer.status);
    forget(band);
    fputs(message_of(&it.answer), stdout);
  } else {
    struct tt_picture told = *(struct tt_picture *)it.told.at;
    expect(told.row_bytes == (told.width + 7) / 8 && it.answer.count == told.height &&
               it.answer.bytes == it.room.size && it.room.size == (size_t)told.row_bytes * told.height,
           "tt_draw: %u columns, %u rows of %" PRIu64 " bytes in %zu", told.width, told.height, told.row_bytes,
           it.room.size);
    compare_bands(*q, &it);
    printf("%" PRIu64 " ", told.unfitted);
    write_picture(&told, it.room.at);
  }
  struct outcome measure = tried(&measures, q);
  if (it.answer.status == TT_DONE && measure.answer.status == TT_DONE) {
    struct tt_picture drawn = *(struct tt_picture *)it.told.at;
    struct tt_measure told = *(struct tt_measure *)measure.told.at;
    expect(drawn.width == told.width && drawn.height == told.height && drawn.unfitted == told.unfitted &&
               drawn.baseline == told.baseline,
           "tt_measure tells of another picture than tt_draw");
  }
  forget(measure);
  forget(it);
}

static void write_label(const struct question *q) {
  struct outcome it = tried(&labels, q);
  printf("%u ", it.answer.status);
  if (it.answer.status != TT_DONE) {
    fputs(message_of(&it.answer), stdout);
  } else {
    struct tt_label told = *(struct tt_label *)it.told.at;
    const struct tt_picture *picture = &told.picture;
    expect(picture->row_bytes == (picture->width + 7) / 8 && it.answer.count == picture->height &&
               it.answer.bytes == it.room.size && it.room.size == (size_t)picture->row_bytes * picture->height,
           "tt_label: %u columns, %u rows of %" PRIu64 " bytes in %zu", picture->width, picture->height,
           picture->row_bytes, it.room.size);
    uint32_t most = ((const struct tt_job *)q->job.at)->size;
    expect(told.size == most || (q->box_width != 0 && 0 < told.size && told.size < most), "tt_label: size %" PRIu64,
           told.size);
    expect(q->width == 0 || picture->width == q->width, "tt_label: %u columns, and not %u", picture->width, q->width);
    expect(q->box_width == 0 || (picture->width == q->box_width && picture->height == q->box_height),
           "tt_label: %u columns and %u rows, and not %u and %u", picture->width, picture->height, q->box_width,
           q->box_height);
    printf("%" PRIu64 " %" PRIu64 " %" PRIu64 " %" PRIu64 " ", picture->unfitted, told.missing, told.cut_left,
           told.cut_right);
    write_picture(picture, it.room.at);
  }
  forget(it);
}

static void write_box(uint64_t has_ink, struct tt_box box) {
  if (has_ink) {
    printf("%" PRId64 " %" PRId64 " %" PRId64 " %" PRId64 "/", box.left, box.top, box.right, box.bottom);
  } else {
    expect(box.left == 0 && box.top == 0 && box.right == 0 && box.bottom == 0, "a box of no ink is not 0");
    printf("none/");
  }
}

/* Expects that this piece of the text has these units alone, none or one. */
static void expect_piece(struct question q, size_t from, size_t end, const struct tt_pen *pen) {
  q.text = held(q.text.at + from, end - from);
  struct outcome map = tried(&maps_face, &q);
  const struct tt_glyph *glyph = (const struct tt_glyph *)map.room.at;
  expect(map.answer.status == TT_DONE && map.answer.count == (pen ? 1 : 0), "a piece of bytes %zu to %zu has %" PRIu64 " units",
         from, end, map.answer.count);
  expect(!pen || map.answer.count != 1 ||
             (glyph->code_point == pen->code_point && glyph->selector == pen->selector && glyph->glyph == pen->glyph),
         "bytes %zu to %zu have another unit than the text there", from, end);
  forget(map);
  give_up(q.text);
}

/* The offsets rise, and cut the text into its units. */
static void compare_offsets(const struct question *q, const struct outcome *places) {
  struct outcome it = tried(&pens, q);
  const struct tt_pen *all = (const struct tt_pen *)it.room.at;
  const struct tt_character *characters = (const struct tt_character *)places->room.at;
  size_t count = it.answer.count;
  if (expect(it.answer.status == TT_DONE && count == places->answer.count, "tt_pens: status %u, %zu pens",
             it.answer.status, count)) {
    expect_piece(*q, 0, count ? all[0].offset : q->text.size, NULL);
    for (size_t i = 0; i < count; i++) {
      size_t from = all[i].offset, end = i + 1 < count ? all[i + 1].offset : q->text.size;
      expect(characters[i].offset == from, "tt_characters and tt_pens have two offsets of character %zu", i);
      if (expect(from < end && end <= q->text.size, "an offset %zu before %zu", from, end)) {
        expect_piece(*q, from, end, all + i);
      }
    }
  }
  forget(it);
}

/* A strike tells the rows of each of its lines. */
static void compare_strike(const struct question *q) {
  struct outcome it = tried(&strikes, q), layout = tried(&layouts, q);
  if (layout.answer.status == TT_DONE) {
    struct tt_strike told = *(struct tt_strike *)it.told.at;
    struct tt_layout line = *(struct tt_layout *)layout.told.at;
    expect(it.answer.status == TT_DONE && told.rise == line.rise && told.depth == line.depth && told.gap == line.gap &&
               told.step == line.step,
           "tt_strike: status %u, and other rows than tt_layout", it.answer.status);
    expect(told.underline.exists ? told.underline.thickness > 0 : told.underline.top == 0 && !told.underline.thickness,
           "tt_strike: an underline of %" PRIu64 " rows", told.underline.thickness);
  }
  forget(it);
  forget(layout);
}

static void write_characters(const struct question *q) {
  struct outcome it = tried(&characters, q), map = tried(&maps_face, q);
  size_t count = it.room.size / sizeof(struct tt_character);
  expect(it.answer.status == TT_DONE && it.answer.count == count && map.answer.status == TT_DONE &&
             map.answer.count == count && map.room.size == count * sizeof(struct tt_glyph),
         "tt_characters: status %u, %zu characters; tt_map_face: status %u", it.answer.status, count, map.answer.status);
  for (size_t i = 0; i < count && i < map.answer.count; i++) {
    struct tt_character *one = (struct tt_character *)it.room.at + i;
    struct tt_glyph *glyph = (struct tt_glyph *)map.room.at + i;
    expect(one->glyph == glyph->glyph, "tt_characters: glyph %u, and tt_map_face has %u", one->glyph, glyph->glyph);
    printf("U+%04X %u %" PRId64 " %u ", glyph->code_point, one->glyph, one->pen, one->advance);
    write_box(one->has_ink, one->ink);
  }
  compare_offsets(q, &it);
  forget(it);
  forget(map);
}

static void write_measure(const struct question *q) {
  struct outcome it = tried(&measures, q), open = tried(&opens_face, q);
  printf("%u ", it.answer.status);
  if (it.answer.status != TT_DONE) {
    struct outcome each = tried(&characters, q);
    expect(are_alike(&it.answer, &each.answer), "tt_characters: status %u, where tt_measure has %u", each.answer.status,
           it.answer.status);
    forget(each);
    fputs(message_of(&it.answer), stdout);
  } else if (expect(open.answer.status == TT_DONE, "tt_open_face: status %u", open.answer.status)) {
    struct tt_font font = *(struct tt_font *)open.told.at;
    struct tt_measure told = *(struct tt_measure *)it.told.at;
    printf("font %u %d %d %u %d/", font.units_per_em, font.ascent, font.descent, font.glyphs, font.line_gap);
    printf("picture %u %u baseline %" PRId64 " ink ", told.width, told.height, told.baseline);
    write_box(told.has_ink, told.ink);
    write_characters(q);
    compare_strike(q);
  }
  forget(it);
  forget(open);
}

static void write_map(const struct question *q) {
  struct outcome it = tried(&maps, q), open = tried(&opens, q);
  printf("%u ", it.answer.status);
  if (it.answer.status != TT_DONE) {
    expect(it.answer.status != TT_FONT || are_alike(&it.answer, &open.answer),
           "tt_open: status %u, where tt_map has %u", open.answer.status, it.answer.status);
    fputs(message_of(&it.answer), stdout);
  } else {
    for (size_t i = 0; i < it.answer.count; i++) {
      struct tt_glyph *glyph = (struct tt_glyph *)it.room.at + i;
      printf("U+%04X %u %u/", glyph->code_point, glyph->glyph, glyph->advance);
    }
    expect(open.answer.status == TT_DONE, "tt_open: status %u, where tt_map is done", open.answer.status);
  }
  forget(it);
  forget(open);
}

static void write_lines(struct question *q) {
  struct drawn_lines it = tried_lines(q);
  const struct tt_line *lines = (const struct tt_line *)it.told.at;
  uint64_t unfitted = 0;
  for (size_t i = 0; i < it.answer.count; i++) unfitted += lines[i].picture.unfitted;
  printf("%u %" PRIu64 " %" PRIu64 " ", it.answer.status, it.answer.count, unfitted);
  for (size_t i = 0; i < it.answer.count; i++) write_picture(&lines[i].picture, it.rows.at + lines[i].at);
  if (it.answer.status != TT_DONE) printf(" %s", message_of(&it.answer));
  forget_lines(it);
}

/* Texts with commas between them, put together; `ends` becomes where each ends. */
static struct room read_texts(char *words, struct room *ends) {
  static uint64_t places[4096];
  size_t count = 0, digits = 0;
  char *to = words;
  for (char *at = words;; at++) {
    if (*at == ',' || *at == 0) {
      if (count == sizeof places / sizeof *places) stop("too many lines");
      places[count++] = digits / 2;
      if (*at == 0) break;
    } else if (*at != '-') {
      *to++ = *at;
      digits++;
    }
  }
  *ends = held(places, count * sizeof *places);
  return held_hex(words, digits);
}

static void answer(char *line) {
  const char *words[12] = {"", "", "", "0", "0", "0", "0", "0", "0", "0", "0", "0"};
  size_t count = 0;
  for (char *word = strtok(line, " \n"); word && count < 12; word = strtok(NULL, " \n")) words[count++] = word;
  struct tt_job job = {.size = (uint32_t)strtoul(words[3], NULL, 10),
                       .margin = (uint32_t)strtoul(words[4], NULL, 10),
                       .fit = (uint32_t)strtoul(words[5], NULL, 10),
                       .grow = (uint32_t)strtoul(words[6], NULL, 10),
                       .kern = (uint32_t)strtoul(words[7], NULL, 10),
                       .rounded = (uint32_t)strtoul(words[8], NULL, 10)};
  bool are_lines = strcmp(words[0], "lines") == 0;
  struct question q = question_of(read_font(words[1]), held(NULL, 0), job);
  give_up(q.text);
  if (are_lines) give_up(q.ends);
  q.text = are_lines ? read_texts((char *)words[2], &q.ends) : held_hex(words[2], strlen(words[2]));
  if (strcmp(words[0], "draw") == 0) write_draw(&q);
  if (strcmp(words[0], "label") == 0) {
    q.align = (uint32_t)strtoul(words[6], NULL, 10);
    q.width = (uint32_t)strtoul(words[9], NULL, 10);
    q.box_width = (uint32_t)strtoul(words[10], NULL, 10);
    q.box_height = (uint32_t)strtoul(words[11], NULL, 10);
    write_label(&q);
  }
  if (strcmp(words[0], "measure") == 0) write_measure(&q);
  if (strcmp(words[0], "map") == 0) write_map(&q);
  if (are_lines) write_lines(&q);
  give_up(q.font);
  give_up(q.text);
  give_up_question(q);
}

int main(void) {
  char *line = NULL;
  size_t room = 0;
  while (getline(&line, &room, stdin) > 0) {
    answer(line);
    const char *why = noted();
    if (why) printf(" WRONG %s", why);
    putchar('\n');
    fflush(stdout);
  }
  free(line);
  return 0;
}
