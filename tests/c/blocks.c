/* See blocks.h. A block keeps no more than the header of the library owes: it is aligned to no more than what divides
 * its size, is filled with a pattern, always moves when it grows, and then has no more of what it had than is asked
 * for.
 */
#include "blocks.h"

#include <stdint.h>
#include <stdlib.h>
#include <string.h>

#include "rooms.h"
#include "tt_render.h"

_Thread_local long blocks_in_use = 0, blocks_granted = -1, blocks_refused = 0;

/* Stands in 16 bytes before a block's, of which the block's address says where they are. */
struct head {
  size_t size;
  size_t mark;
};
#define MARK ((size_t)0x5EED5EED)

static bool is_refused(void) {
  if (blocks_granted < 0) return false;
  if (blocks_granted > 0) {
    blocks_granted--;
    return false;
  }
  blocks_granted = -1;
  blocks_refused++;
  return true;
}

/* How far past a multiple of 16 a block of that size begins; 1 where it need not be aligned at all. */
static size_t shift_of(size_t size) {
  size_t power = size & (~size + 1);
  return size == 0 ? 1 : power < 16 ? power : 0;
}

static struct head *head_of(void *block) {
  struct head *head = (struct head *)((uint8_t *)block - (uintptr_t)block % 16 - 16);
  if (head->mark != MARK) stop("no block of the library's is given back or made larger");
  return head;
}

static void *made(size_t size) {
  uint8_t *start = malloc(16 + shift_of(size) + size);
  if (!start) stop("out of memory");
  *(struct head *)start = (struct head){size, MARK};
  blocks_in_use++;
  memset(start + 16 + shift_of(size), 0xA6, size);
  return start + 16 + shift_of(size);
}

static void test_size(size_t size, size_t align) {
  if (size > PTRDIFF_MAX) stop("a size is more than PTRDIFF_MAX");
  if (align == 0 || align > 16 || (align & (align - 1)) != 0) stop("an alignment is no power of two up to 16");
  if (size % align != 0) stop("an alignment does not divide a size");
}

struct tt_block rattle_alloc(size_t size, size_t align) {
  test_size(size, align);
  if (is_refused()) return (struct tt_block){0, &blocks_refused};
  return (struct tt_block){1, made(size)};
}

struct tt_block rattle_realloc(void *block, size_t kept, size_t size, size_t align) {
  struct head *head = head_of(block);
  test_size(size, align);
  if (kept > head->size || kept > size) stop("more is kept of a block than it has or gets");
  if (is_refused()) return (struct tt_block){0, &blocks_refused};
  void *new = made(size);
  memcpy(new, block, kept);
  rattle_dealloc(block);
  return (struct tt_block){1, new};
}

void rattle_dealloc(void *block) {
  struct head *head = head_of(block);
  head->mark = 0;
  blocks_in_use--;
  free(head);
}
