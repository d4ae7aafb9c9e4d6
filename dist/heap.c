/* The memory functions of the program and the C library of tt_render, over malloc, realloc and free. A host with its
 * own heap defines these three itself, and omits this file. tt_render.h has their contract.
 */
#include <stddef.h>
#include <stdlib.h>

#include "tt_render.h"

/* No address needs an alignment above 16. malloc aligns a block for each type that fits in it, so `align` is unused. */
_Static_assert(_Alignof(max_align_t) >= 16 || sizeof(void *) < 8, "malloc aligns to less than 16 bytes");

/* The address of a refused block: nobody reads or writes it. */
static char nothing;

static struct tt_block answer(void *block) {
  return block ? (struct tt_block){1, block} : (struct tt_block){0, &nothing};
}

/* malloc(0) may return NULL, and realloc to 0 bytes may free the block: so a block of size 0 has one byte. */
static size_t at_least_one(size_t size) { return size ? size : 1; }

struct tt_block rattle_alloc(size_t size, size_t align) {
  (void)align;
  return answer(malloc(at_least_one(size)));
}

/* realloc preserves all bytes, so the first `kept` too. Where it refuses memory, the old block is unchanged. */
struct tt_block rattle_realloc(void *block, size_t kept, size_t size, size_t align) {
  (void)kept;
  (void)align;
  return answer(realloc(block, at_least_one(size)));
}

void rattle_dealloc(void *block) { free(block); }
