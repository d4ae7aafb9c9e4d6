/* Draws 1,000 labels, each as a picture in the format P4, one after the other:
 *
 *   labels FONT SIZE >labels.pbm
 *
 * One call draws as many labels as the room holds: the font's programs run once in it, and a glyph that is cached is
 * not fitted again. So that all have one height, the pictures are not grown; their margin has room for ink that reaches
 * out of the line. README.md has the commands. The exit status is the library's. It is 2 also for a fault of the
 * command line, 3 where the font cannot be read, and 4 where the pictures cannot be written.
 */
#include <stdio.h>
#include <stdlib.h>

#include "tt_render.h"

enum { LABELS = 1000, LENGTH = 16, KEEP = 1 << 20 };

static uint8_t texts[LABELS * LENGTH + 1]; /* the labels without anything between them, and snprintf's last zero */
static uint64_t ends[LABELS];
static struct tt_line lines[LABELS];
static uint8_t rows[1 << 20];

static int complain(int status, const char *why) {
  fprintf(stderr, "labels: %s\n", why);
  return status;
}

/* Prints the message of a refused call, and returns its status. */
static int refused(const struct tt_answer *answer) {
  uint8_t text[90] = "tt_render: refused"; /* the longest message has 90 bytes */
  struct tt_answer told;
  tt_message(answer, text, sizeof text, &told);
  fprintf(stderr, "%s\n", (const char *)text);
  return (int)answer->status;
}

/* Writes the first pictures of the room. Returns 0 where that fails. */
static int write_pictures(uint64_t count) {
  for (uint64_t it = 0; it < count; it++) {
    const struct tt_picture *picture = &lines[it].picture;
    size_t bytes = (size_t)(picture->row_bytes * picture->height);
    if (printf("P4\n%u %u\n", (unsigned)picture->width, (unsigned)picture->height) < 0 ||
        fwrite(rows + lines[it].at, 1, bytes, stdout) != bytes)
      return 0;
  }
  return fflush(stdout) == 0;
}

/* Draws all labels, as many with each call as the room holds. */
static int draw(const uint8_t *font, size_t font_bytes, const struct tt_job *job) {
  struct tt_answer answer;
  for (size_t done = 0; done < LABELS; done += (size_t)answer.count) {
    size_t count = LABELS - done;
    const uint8_t *text = texts + done * LENGTH;
    uint32_t status = tt_draw_lines(font, font_bytes, text, count * LENGTH, ends, count, job, KEEP, rows, sizeof rows,
                                    lines, count, &answer);
    if (!write_pictures(answer.count)) return complain(4, "cannot write the pictures");
    if (status != TT_DONE && (status != TT_ROOM || answer.count == 0)) return refused(&answer);
  }
  return 0;
}

int main(int count, char **words) {
  static uint8_t font[1 << 26];
  struct tt_job job = {.size = 0, .margin = 4, .fit = TT_BEST, .grow = 0};
  char *end;

  if (count != 3) return complain(2, "want FONT SIZE");
  unsigned long size = strtoul(words[2], &end, 10);
  if (end == words[2] || *end || size > 300) return complain(2, "SIZE is a number of pixels, 1 to 300");
  job.size = (uint32_t)size;
  FILE *file = fopen(words[1], "rb");
  if (!file) return complain(3, "cannot read the font");
  size_t font_bytes = fread(font, 1, sizeof font, file);
  int failed = ferror(file);
  fclose(file);
  if (failed) return complain(3, "cannot read the font");
  for (unsigned it = 0; it < LABELS; it++) {
    snprintf((char *)texts + it * LENGTH, LENGTH + 1, "Shelf %04u bin %u", it + 1, it % 9 + 1);
    ends[it] = (it + 1) * LENGTH;
  }
  return draw(font, font_bytes, &job);
}
