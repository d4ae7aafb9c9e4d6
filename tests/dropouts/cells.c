/* Cuts a picture, which comes as P4 on standard input, into cells: CELLS has a line for each, which begins with its
   first column and how many it has.

     cells CELLS

   For each cell a line: the sum of its bytes by FNV-1a of 64 bits, where each pixel is a byte, row by row from the top,
   '#' for black and '.' for white, with '/' after each row; and these bytes. */
#include <inttypes.h>
#include <stdint.h>
#include <stdio.h>
#include <stdlib.h>

enum { LARGEST = 1 << 24 };

static unsigned char bits[LARGEST];

static long width, height;

static void need(int failed, const char *what) {
  if (!failed) return;
  fprintf(stderr, "cells: %s\n", what);
  exit(1);
}

static char pixel(long c, long r) {
  long stride = (width + 7) / 8;
  return bits[r * stride + c / 8] >> (7 - c % 8) & 1 ? '#' : '.';
}

static void print_cell(long first, long count) {
  static char text[LARGEST];
  uint64_t sum = UINT64_C(0xCBF29CE484222325);
  long length = 0;
  need(first < 0 || count < 0 || first + count > width, "a cell is not in the picture");
  need((count + 1) * height >= LARGEST, "a cell too large");
  for (long r = 0; r < height; r++) {
    for (long c = 0; c < count; c++) text[length++] = pixel(first + c, r);
    text[length++] = '/';
  }
  for (long i = 0; i < length; i++) sum = (sum ^ (unsigned char)text[i]) * UINT64_C(0x100000001B3);
  printf("%016" PRIx64 " %.*s\n", sum, (int)length, text);
}

int main(int count, char **words) {
  char line[200];
  long first, columns;
  need(count != 2, "the word is CELLS");
  FILE *cells = fopen(words[1], "r");
  need(!cells, "a file is not opened");
  need(scanf("P4 %ld %ld", &width, &height) != 2 || width < 1 || height < 1 || getchar() != '\n', "no picture");
  need((width + 7) / 8 > LARGEST / height, "a picture too large");
  size_t bytes = (size_t)((width + 7) / 8 * height);
  need(fread(bits, 1, bytes, stdin) != bytes, "a picture cut short");
  while (fgets(line, sizeof line, cells)) {
    need(sscanf(line, "%ld %ld", &first, &columns) != 2, "no cell");
    print_cell(first, columns);
  }
  return 0;
}
