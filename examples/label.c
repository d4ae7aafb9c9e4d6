/* Draws a line of text as a picture in the format P4:
 *
 *   label FONT SIZE TEXT >label.pbm
 *
 * README.md has the commands. The exit status is the library's. It is 2 also for a fault of the command line, 3 where
 * the font cannot be read, and 4 where the picture cannot be written.
 */
#include <stdio.h>
#include <stdlib.h>
#include <string.h>

#include "tt_render.h"

static int complain(int status, const char *why) {
  fprintf(stderr, "label: %s\n", why);
  return status;
}

/* The bytes of a file, in memory that the caller frees; NULL where the file cannot be read. */
static uint8_t *read_file(const char *name, size_t *size) {
  uint8_t *bytes = NULL;
  long end;
  FILE *file = fopen(name, "rb");
  if (!file) return NULL;
  if (fseek(file, 0, SEEK_END) == 0 && (end = ftell(file)) >= 0 && fseek(file, 0, SEEK_SET) == 0) {
    *size = (size_t)end;
    bytes = malloc(*size + 1);
    if (bytes && fread(bytes, 1, *size, file) != *size) {
      free(bytes);
      bytes = NULL;
    }
  }
  fclose(file);
  return bytes;
}

/* Prints the message of a refused call, and returns its status. */
static int refused(const struct tt_answer *answer) {
  uint8_t text[90] = "tt_render: refused"; /* the longest message has 90 bytes */
  struct tt_answer told;
  tt_message(answer, text, sizeof text, &told);
  fprintf(stderr, "%s\n", (const char *)text);
  return (int)answer->status;
}

/* Draws the text, in a room of the size that its measure gives. */
static int draw(const uint8_t *font, size_t font_bytes, const char *words, const struct tt_job *job) {
  const uint8_t *text = (const uint8_t *)words;
  size_t text_bytes = strlen(words), room;
  struct tt_measure measure;
  struct tt_picture picture;
  struct tt_answer answer;
  int status = 0;

  if (tt_measure(font, font_bytes, text, text_bytes, job, &measure, &answer) != TT_DONE) return refused(&answer);
  room = (size_t)(measure.width + 7) / 8 * measure.height;
  uint8_t *rows = malloc(room);
  if (!rows) return complain(TT_MEMORY, "out of memory");
  if (tt_draw(font, font_bytes, text, text_bytes, job, rows, room, &picture, &answer) != TT_DONE) {
    status = refused(&answer);
  } else if (printf("P4\n%u %u\n", (unsigned)picture.width, (unsigned)picture.height) < 0 ||
             fwrite(rows, 1, room, stdout) != room || fflush(stdout) != 0) {
    status = complain(4, "cannot write the picture");
  }
  free(rows);
  return status;
}

int main(int count, char **words) {
  struct tt_job job = {.size = 0, .margin = 0, .fit = TT_BEST, .grow = 1};
  size_t font_bytes;
  char *end;
  int status;

  if (count != 4) return complain(2, "want FONT SIZE TEXT");
  unsigned long size = strtoul(words[2], &end, 10);
  if (end == words[2] || *end || size > 300) return complain(2, "SIZE is a number of pixels, 1 to 300");
  job.size = (uint32_t)size;
  uint8_t *font = read_file(words[1], &font_bytes);
  if (!font) return complain(3, "cannot read the font");
  status = draw(font, font_bytes, words[3], &job);
  free(font);
  return status;
}
