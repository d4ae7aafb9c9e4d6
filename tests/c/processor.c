/* Tries tt_supported on processors that lack one feature of x86-64-v2, by a function in the place of cpuid. */
#include "rooms.h"

#if defined(__x86_64__)
static int pretended(unsigned leaf, unsigned *eax, unsigned *ebx, unsigned *ecx, unsigned *edx);
#define TT_CPUID pretended
#endif
#include "../../c/processor.c"

#if defined(__x86_64__)
/* What cpuid reports in ecx, of the leaf 1 and of 0x80000001, and up to which of the two it goes. */
static unsigned basic, extended, leaves;

static int pretended(unsigned leaf, unsigned *eax, unsigned *ebx, unsigned *ecx, unsigned *edx) {
  unsigned known = leaf == 1 ? basic : extended;
  *eax = *ebx = *edx = UINT32_MAX;
  *ecx = known;
  return leaf == 1 ? leaves > 0 : leaf == 0x80000001 && leaves > 1;
}

static void try_processor(const char *name, unsigned of_basic, unsigned of_extended, unsigned of_leaves, int wanted) {
  basic = of_basic;
  extended = of_extended;
  leaves = of_leaves;
  int got = tt_supported();
  expect(got == wanted, "tt_supported: %d", got);
  verdict("%s", name);
}

/* The bits are those of Intel's manual, volume 2, CPUID. */
int main(void) {
  static const struct {
    const char *name;
    unsigned bit;
  } features[] = {{"SSE3", 0},    {"SSSE3", 9},   {"CMPXCHG16B", 13},
                  {"SSE4.1", 19}, {"SSE4.2", 20}, {"POPCNT", 23}};
  unsigned all = 0;
  for (size_t i = 0; i < sizeof features / sizeof *features; i++) all |= 1u << features[i].bit;
  try_processor("x86-64-v2", all, 1, 2, 1);
  try_processor("a newer processor", UINT32_MAX, UINT32_MAX, 2, 1);
  for (size_t i = 0; i < sizeof features / sizeof *features; i++)
    try_processor(features[i].name, ~(1u << features[i].bit), UINT32_MAX, 2, 0);
  try_processor("LAHF", UINT32_MAX, UINT32_MAX - 1, 2, 0);
  try_processor("the first x86-64", 0, 0, 2, 0);
  try_processor("no extended leaf", UINT32_MAX, UINT32_MAX, 1, 0);
  try_processor("no leaf", UINT32_MAX, UINT32_MAX, 0, 0);
  return 0;
}
#else
int main(void) {
  expect(tt_supported() == 1, "tt_supported: %d", tt_supported());
  verdict("another processor than x86-64");
  return 0;
}
#endif
