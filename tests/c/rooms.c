/* See rooms.h. */
#define _DEFAULT_SOURCE
#include "rooms.h"

#include <stdarg.h>
#include <stdio.h>
#include <stdlib.h>
#include <string.h>
#include <sys/mman.h>
#include <unistd.h>

/* So many bytes before a room have the pattern too. */
#define BEFORE 64

_Noreturn void stop(const char *why) {
  fprintf(stderr, "tests/c: %s\n", why);
  exit(3);
}

/* Pages that were given up, each with the one behind it that nobody may touch, for rooms that lie in one page. */
static uint8_t *spares[64];
static size_t spares_count;

static size_t page_size(void) {
  static size_t size;
  if (size == 0) size = (size_t)sysconf(_SC_PAGESIZE);
  return size;
}

/* The bytes of the pages that a room lies in. */
static size_t pages_of(size_t size) {
  size_t page = page_size();
  return (size + BEFORE + page - 1) / page * page;
}

static uint8_t *pages_for(size_t size) {
  size_t pages = pages_of(size), page = page_size();
  if (pages == page && spares_count > 0) return spares[--spares_count];
  uint8_t *start = mmap(NULL, pages + page, PROT_READ | PROT_WRITE, MAP_PRIVATE | MAP_ANONYMOUS, -1, 0);
  if (start == MAP_FAILED || mprotect(start + pages, page, PROT_NONE) != 0) stop("no pages for a room");
  return start;
}

static struct room placed(size_t size) { return (struct room){pages_for(size) + pages_of(size) - size, size}; }

/* The pattern's byte at so many bytes from the front of the room, or in front of it. */
static uint8_t pattern(ptrdiff_t place) { return (uint8_t)(0xC9 + 29 * place); }

struct room room_of(size_t size) {
  struct room room = placed(size);
  for (ptrdiff_t i = -BEFORE; i < (ptrdiff_t)size; i++) room.at[i] = pattern(i);
  return room;
}

bool kept_from(struct room room, size_t from) {
  for (ptrdiff_t i = -BEFORE; i < 0; i++) {
    if (room.at[i] != pattern(i)) return false;
  }
  for (ptrdiff_t i = (ptrdiff_t)from; i < (ptrdiff_t)room.size; i++) {
    if (room.at[i] != pattern(i)) return false;
  }
  return true;
}

/* Takes away the right to write to a room. */
static struct room read_only(struct room room) {
  size_t pages = pages_of(room.size);
  if (mprotect(room.at + room.size - pages, pages, PROT_READ) != 0) stop("no pages to read alone");
  return room;
}

struct room held(const void *bytes, size_t size) {
  struct room room = placed(size);
  if (size > 0) memcpy(room.at, bytes, size);
  return read_only(room);
}

static int digit(char c) {
  if (c >= '0' && c <= '9') return c - '0';
  if (c >= 'a' && c <= 'f') return c - 'a' + 10;
  stop("no hexadecimal digits");
}

struct room held_hex(const char *digits, size_t count) {
  if (count == 1 && digits[0] == '-') count = 0;
  struct room room = placed(count / 2);
  for (size_t i = 0; i < room.size; i++) room.at[i] = (uint8_t)(16 * digit(digits[2 * i]) + digit(digits[2 * i + 1]));
  return read_only(room);
}

void give_up(struct room room) {
  size_t pages = pages_of(room.size), page = page_size();
  uint8_t *start = room.at + room.size - pages;
  if (pages == page && spares_count < sizeof spares / sizeof *spares &&
      mprotect(start, pages, PROT_READ | PROT_WRITE) == 0) {
    spares[spares_count++] = start;
  } else {
    munmap(start, pages + page);
  }
}

static bool is_noted;
static char note[512];

bool expect(bool holds, const char *format, ...) {
  if (!holds && !is_noted) {
    va_list words;
    va_start(words, format);
    vsnprintf(note, sizeof note, format, words);
    va_end(words);
    is_noted = true;
  }
  return holds;
}

const char *noted(void) {
  const char *found = is_noted ? note : NULL;
  is_noted = false;
  return found;
}

void verdict(const char *format, ...) {
  const char *why = noted();
  va_list words;
  fputs(why ? "FAILED " : "passed ", stdout);
  va_start(words, format);
  vprintf(format, words);
  va_end(words);
  if (why) printf(": %s", why);
  putchar('\n');
  fflush(stdout);
}
