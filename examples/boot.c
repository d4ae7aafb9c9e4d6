/* Draws a picture without a C library and without a heap, as early in the start of a system. The font is part of the
 * program, memory comes from an arena, and the picture goes to standard output as P4. The program is for x86-64, and
 * for Linux because of its two system calls. README.md has the commands.
 *
 * The exit status is the library's; 4 where the picture cannot be written.
 */
#include "tt_render.h"

#define TEXT "Starting"

extern const uint8_t font[], font_end[];

__asm__(
    ".section .rodata\n"
    ".globl font, font_end\n"
    "font: .incbin \"" FONT "\"\n"
    "font_end:\n"
    ".text\n"
    ".globl _start\n"
    "_start: andq $-16, %rsp\n"
    "  call start\n");

static uint8_t rows[1 << 16];

/* The library's memory: blocks of an arena, one after the other. The last block can grow in its place, and its place is
 * free again after rattle_dealloc. After a call no block is in use, so `used = 0` frees all. */
static _Alignas(16) uint8_t arena[1 << 20];
static size_t used, last;

/* Makes a block at place `at`, after all others. A block of size 0 has its own place too. */
static struct tt_block put_block(size_t at, size_t size) {
  if (size >= sizeof arena - at) return (struct tt_block){0, arena};
  last = at;
  used = at + (size | 15) + 1;
  return (struct tt_block){1, arena + at};
}

struct tt_block rattle_alloc(size_t size, size_t align) {
  (void)align;
  return put_block(used, size);
}

struct tt_block rattle_realloc(void *block, size_t kept, size_t size, size_t align) {
  (void)align;
  if (block == arena + last) return put_block(last, size);
  struct tt_block made = put_block(used, size);
  if (made.got) __builtin_memcpy(made.block, block, kept < size ? kept : size);
  return made;
}

void rattle_dealloc(void *block) {
  if (block == arena + last) used = last;
}

/* The three memory functions that compiled code calls, here without a C library. */
void *memcpy(void *to, const void *from, size_t count) {
  void *place = to;
  __asm__ volatile("rep movsb" : "+D"(place), "+S"(from), "+c"(count) : : "memory");
  return to;
}

void *memmove(void *to, const void *from, size_t count) {
  if ((uintptr_t)to - (uintptr_t)from >= count) return memcpy(to, from, count);
  uint8_t *place = (uint8_t *)to + count - 1;
  const uint8_t *source = (const uint8_t *)from + count - 1;
  __asm__ volatile("std; rep movsb; cld" : "+D"(place), "+S"(source), "+c"(count) : : "memory");
  return to;
}

void *memset(void *to, int byte, size_t count) {
  void *place = to;
  __asm__ volatile("rep stosb" : "+D"(place), "+c"(count) : "a"(byte) : "memory");
  return to;
}

static long system_call(long number, long first, const void *second, size_t third) {
  __asm__ volatile("syscall" : "+a"(number) : "D"(first), "S"(second), "d"(third) : "rcx", "r11", "memory");
  return number;
}

static _Noreturn void end(uint32_t status) {
  for (;;) system_call(60, status, 0, 0);
}

static void write_out(const void *bytes, size_t count) {
  for (const uint8_t *at = bytes; count > 0;) {
    long wrote = system_call(1, 1, at, count);
    if (wrote <= 0) end(4);
    at += wrote;
    count -= (size_t)wrote;
  }
}

static void write_number(uint32_t number, char after) {
  char text[11];
  size_t at = sizeof text;
  text[--at] = after;
  do text[--at] = (char)('0' + number % 10);
  while ((number /= 10) > 0);
  write_out(text + at, sizeof text - at);
}

__attribute__((used)) static _Noreturn void start(void) {
  const struct tt_job job = {.size = 24, .margin = 4, .fit = TT_BEST, .grow = 0};
  struct tt_picture picture;
  struct tt_answer answer;

  if (tt_draw(font, (size_t)(font_end - font), (const uint8_t *)TEXT, sizeof TEXT - 1, &job, rows, sizeof rows,
              &picture, &answer) == TT_DONE) {
    write_out("P4\n", 3);
    write_number(picture.width, ' ');
    write_number(picture.height, '\n');
    write_out(rows, answer.bytes);
  }
  end(answer.status);
}
