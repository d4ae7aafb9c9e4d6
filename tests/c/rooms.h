/* Rooms for calls. Each ends where a page begins that nobody may touch, so that a byte read or written past it stops
 * the test; what a call only reads nobody may write. In a room that is written to, and before it, stands a pattern,
 * which shows what was written.
 */
#ifndef ROOMS_H
#define ROOMS_H

#include <stdbool.h>
#include <stddef.h>
#include <stdint.h>

struct room {
  uint8_t *at;
  size_t size;
};

/* A room to write to. */
struct room room_of(size_t size);

/* Bytes to be read alone. */
struct room held(const void *bytes, size_t size);

/* The bytes that hexadecimal digits name, to be read alone; "-" names none. */
struct room held_hex(const char *digits, size_t count);

/* Whether the bytes from this one on, and those before the room, are as they were. */
bool kept_from(struct room room, size_t from);

void give_up(struct room room);

/* Notes what is wrong unless this holds; the first that is noted stays. */
bool expect(bool holds, const char *format, ...) __attribute__((format(printf, 2, 3)));

/* What was noted since the last call, or NULL. */
const char *noted(void);

/* Prints whether a case passed: whether anything was noted since the one before. */
void verdict(const char *format, ...) __attribute__((format(printf, 1, 2)));

/* Ends the program, for what the test itself cannot go on without. */
_Noreturn void stop(const char *why);

#endif
