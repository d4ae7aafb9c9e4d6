/* What the peers in C share: the words, the characters of the text, the picture, and how it is written. A peer includes
   this, and has a `name` and a `draw_line`. */
#include <stdint.h>
#include <stdio.h>
#include <stdlib.h>

enum { CHARACTERS = 4096 };

struct line {
  long size, margin; /* pixels per em, pixels */
  const char *font, *text;
};

struct place {
  int glyph;
  long pen; /* pixels */
};

struct picture {
  long width, height, stride; /* pixels, pixels, bytes */
  long base;                  /* rows above the base line */
  unsigned char *bits;
};

/* The peer's own. */
static const char *const name;
static struct picture draw_line(const struct line *line);

static void stop(const char *why) {
  fprintf(stderr, "%s: %s\n", name, why);
  exit(1);
}

/* n / d for a positive d, rounded down. */
static long divided(long n, long d) { return n >= 0 ? n / d : -((d - 1 - n) / d); }

/* A length in font units as whole pixels, the nearest, and from halves the upper. */
static long pixels(long units, long size, long em) { return divided(2 * units * size + em, 2 * em); }

/* Takes a character off well-formed UTF-8. */
static uint32_t next_character(const char **text) {
  const unsigned char *at = (const unsigned char *)*text;
  int more = at[0] < 0x80 ? 0 : at[0] < 0xE0 ? 1 : at[0] < 0xF0 ? 2 : 3;
  uint32_t value = more ? at[0] & (0x3Fu >> more) : at[0];

  for (int it = 1; it <= more; it++) {
    if ((at[it] & 0xC0) != 0x80) stop("the text is no UTF-8");
    value = value << 6 | (at[it] & 0x3F);
  }
  *text += 1 + more;
  return value;
}

/* A white picture for advances in pixels, and for the font's ascent and descent in its units. */
static struct picture white(const struct line *line, long em, long ascent, long descent, long advances) {
  long rise = -divided(-ascent * line->size, em), depth = -divided(descent * line->size, em);
  struct picture it;

  it.width = advances + 2 * line->margin;
  it.height = rise + depth + 2 * line->margin;
  it.base = rise + line->margin;
  it.stride = (it.width + 7) / 8;
  if (it.width < 1 || it.height < 1) stop("an empty picture");
  it.bits = calloc(it.height, it.stride);
  if (!it.bits) stop("out of memory");
  return it;
}

int main(int argc, char **argv) {
  struct line line;
  struct picture it;

  if (argc != 5) stop("the words are SIZE MARGIN FONT TEXT");
  line = (struct line){atol(argv[1]), atol(argv[2]), argv[3], argv[4]};
  if (line.size < 1 || line.size > 300 || line.margin < 0 || line.margin > 64)
    stop("a size of 1 to 300 and a margin of 0 to 64 pixels");
  it = draw_line(&line);
  printf("P4\n%ld %ld\n", it.width, it.height);
  fwrite(it.bits, it.stride, it.height, stdout);
  if (fflush(stdout) || ferror(stdout)) stop("cannot write");
  free(it.bits);
  return 0;
}
