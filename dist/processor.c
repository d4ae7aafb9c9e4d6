/* Whether the code of tt_render runs on this processor. That code is compiled for x86-64-v2, or for every aarch64; this
 * file is for every x86-64, and asks before. tt_render.h has the contract.
 */
#include "tt_render.h"

#if defined(__x86_64__)
#include <cpuid.h>

/* A test names another function here, which answers as an older processor would. */
#ifndef TT_CPUID
#define TT_CPUID __get_cpuid
#endif

/* What x86-64-v2 adds to the first x86-64, as cpuid reports it in ecx. */
enum {
  SSE3 = 1,
  SSSE3 = 1 << 9,
  CMPXCHG16B = 1 << 13,
  SSE4_1 = 1 << 19,
  SSE4_2 = 1 << 20,
  POPCNT = 1 << 23,
  OF_LEAF_1 = SSE3 | SSSE3 | CMPXCHG16B | SSE4_1 | SSE4_2 | POPCNT,
  LAHF = 1, /* in the leaf 0x80000001 */
};

/* Whether a leaf of cpuid reports all these features. */
static int has(unsigned leaf, unsigned features) {
  unsigned eax, ebx, ecx, edx;
  return TT_CPUID(leaf, &eax, &ebx, &ecx, &edx) && (ecx & features) == features;
}

int tt_supported(void) { return has(1, OF_LEAF_1) && has(0x80000001, LAHF); }
#else
int tt_supported(void) { return 1; }
#endif
