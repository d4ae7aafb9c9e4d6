/* Prints a label on a receipt printer, 384 dots across:
 *
 *   escpos FONT SIZE TEXT >/dev/usb/lp0
 *
 * Each line of the text is a paragraph, which is broken into rows at its spaces. The pens of its characters say where a
 * row is full, and their offsets where to cut the bytes. One call says how much room the rows' pictures need, and one
 * draws them. The rows go out as raster images (GS v 0) of at most 255 dot lines, which printers with little memory
 * take. README.md has the commands. The exit status is the library's. It is 2 also for a fault of the command line, 3
 * where the font cannot be read, 4 where the label cannot be written, and 5 without memory.
 */
#include <stdio.h>
#include <stdlib.h>
#include <string.h>

#include "tt_render.h"

enum { DOTS = 384, ROW_BYTES = DOTS / 8, BAND = 255, FEED = 3, KEEP = 1 << 20 };

/* The text as it is drawn: the rows one after the other, without the spaces and line feeds between them. */
struct rows {
  uint8_t *text;
  uint64_t *ends;
  size_t count;
};

static int complain(int status, const char *why) {
  fprintf(stderr, "escpos: %s\n", why);
  return status;
}

/* Prints the message of a refused call, and returns its status. */
static int refused(const struct tt_answer *answer) {
  uint8_t text[TT_MESSAGE_BYTES] = "tt_render: refused";
  struct tt_answer told;
  tt_message(answer, text, sizeof text, &told);
  fprintf(stderr, "%s\n", (const char *)text);
  return (int)answer->status;
}

/* Adds bytes of a text as a row. */
static void add(struct rows *rows, const uint8_t *text, size_t bytes) {
  size_t from = rows->count > 0 ? rows->ends[rows->count - 1] : 0;
  memcpy(rows->text + from, text, bytes);
  rows->ends[rows->count++] = from + bytes;
}

/* The first pen of the row after the one that begins at a pen: behind the last space before the edge, or where there is
 * none, the first pen whose character does not fit. A row has at least one character. */
static size_t next_row(const struct tt_pen *pens, size_t first, size_t count) {
  size_t space = 0, i = first;
  while (i < count && pens[i].pen + pens[i].advance - pens[first].pen <= DOTS) {
    if (pens[i].code_point == ' ') space = i + 1;
    i++;
  }
  if (i == count) return count;
  if (pens[i].code_point == ' ') return i + 1; /* a space may stand past the edge */
  if (space > first) return space;
  return i > first ? i : first + 1;
}

/* Breaks a paragraph into rows. Returns the status. */
static int break_up(const uint8_t *font, size_t font_bytes, const struct tt_job *job, const uint8_t *text, size_t bytes,
                    struct rows *rows) {
  struct tt_answer answer;
  struct tt_pen *pens = calloc(bytes + 1, sizeof *pens);
  if (!pens) return complain(5, "no memory");
  if (bytes == 0) {
    add(rows, text, 0);
  } else if (tt_pens(font, font_bytes, text, bytes, job, pens, bytes, &answer) != TT_DONE) {
    free(pens);
    return refused(&answer);
  } else {
    for (size_t first = 0; first < answer.count;) {
      size_t next = next_row(pens, first, answer.count);
      size_t from = pens[first].offset, end = next < answer.count ? pens[next].offset : bytes;
      while (end > from && text[end - 1] == ' ') end--;
      add(rows, text + from, end - from);
      first = next;
    }
  }
  free(pens);
  return 0;
}

/* Puts a row's picture into the label, from a dot line on. What passes the edge is cut. */
static void copy(const struct tt_picture *picture, const uint8_t *from, uint8_t *to) {
  size_t bytes = picture->row_bytes < ROW_BYTES ? picture->row_bytes : ROW_BYTES;
  for (size_t y = 0; y < picture->height; y++) {
    for (size_t x = 0; x < bytes; x++) to[y * ROW_BYTES + x] |= from[y * picture->row_bytes + x];
  }
}

/* Writes so many dot lines to the printer. */
static int print(const uint8_t *dots, size_t height) {
  static const uint8_t begin[] = {0x1B, '@'}, feed[] = {0x1B, 'd', FEED};
  int written = fwrite(begin, 1, sizeof begin, stdout) == sizeof begin;
  for (size_t from = 0; from < height; from += BAND) {
    size_t count = height - from < BAND ? height - from : BAND, bytes = count * ROW_BYTES;
    const uint8_t head[] = {0x1D, 'v', '0', 0, ROW_BYTES, 0, (uint8_t)count, 0};
    written = written && fwrite(head, 1, sizeof head, stdout) == sizeof head &&
              fwrite(dots + from * ROW_BYTES, 1, bytes, stdout) == bytes;
  }
  return written && fwrite(feed, 1, sizeof feed, stdout) == sizeof feed && fflush(stdout) == 0;
}

/* Draws the rows, one below the other, and prints them. */
static int draw(const uint8_t *font, size_t font_bytes, const struct tt_job *job, const struct rows *rows) {
  struct tt_answer answer;
  struct tt_strike strike;
  size_t bytes = rows->count > 0 ? rows->ends[rows->count - 1] : 0;
  if (tt_strike(font, font_bytes, job, &strike, &answer) != TT_DONE) return refused(&answer);
  if (tt_lines_room(font, font_bytes, rows->text, bytes, rows->ends, rows->count, job, KEEP, &answer) != TT_DONE)
    return refused(&answer);
  size_t room = answer.bytes, height = (rows->count - 1) * strike.step + (size_t)(strike.rise + strike.depth);
  uint8_t *pictures = malloc(room + 1), *dots = calloc(height + 1, ROW_BYTES);
  struct tt_line *lines = calloc(rows->count, sizeof *lines);
  int status = 5;
  if (!pictures || !dots || !lines) {
    complain(status, "no memory");
  } else if (tt_draw_lines(font, font_bytes, rows->text, bytes, rows->ends, rows->count, job, KEEP, pictures, room,
                           lines, rows->count, &answer) != TT_DONE) {
    status = refused(&answer);
  } else {
    for (size_t i = 0; i < rows->count; i++)
      copy(&lines[i].picture, pictures + lines[i].at, dots + i * strike.step * ROW_BYTES);
    status = print(dots, height) ? 0 : complain(4, "cannot write the label");
  }
  free(lines);
  free(dots);
  free(pictures);
  return status;
}

int main(int count, char **words) {
  static uint8_t font[1 << 26];
  struct tt_job job = {.fit = TT_BEST, .face = 1, .blank = 1};
  char *end;

  if (count != 4) return complain(2, "want FONT SIZE TEXT");
  unsigned long size = strtoul(words[2], &end, 10);
  if (end == words[2] || *end || size > 300) return complain(2, "SIZE is a number of pixels, 1 to 300");
  job.size = (uint32_t)size;
  FILE *file = fopen(words[1], "rb");
  if (!file) return complain(3, "cannot read the font");
  size_t font_bytes = fread(font, 1, sizeof font, file);
  int failed = ferror(file);
  fclose(file);
  if (failed) return complain(3, "cannot read the font");
  size_t bytes = strlen(words[3]);
  struct rows rows = {malloc(bytes + 1), calloc(bytes + 1, sizeof *rows.ends), 0};
  int status = rows.text && rows.ends ? 0 : complain(5, "no memory");
  for (const char *text = words[3]; status == 0;) {
    size_t length = strcspn(text, "\n");
    status = break_up(font, font_bytes, &job, (const uint8_t *)text, length, &rows);
    if (text[length] == 0) break;
    text += length + 1;
  }
  if (status == 0) status = draw(font, font_bytes, &job, &rows);
  free(rows.ends);
  free(rows.text);
  return status;
}
