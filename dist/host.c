/* The host functions of the program beside the C library's own and the heap: its arguments, and the error number. The
 * program is linked with -Wl,--wrap=main, so that the main here is called first.
 */
#include <errno.h>
#include <stddef.h>
#include <stdint.h>
#include <unistd.h>

#include "tt_render.h"

/* The status on a processor that is too old. No status of the program's own is above 5. */
enum { TOO_OLD = 70 };

static const char too_old[] =
    "tt_render: this processor lacks a feature of x86-64-v2, which the program needs\n"
    "tt_render: run it on a newer one, or here by qemu-x86_64 -cpu max; for every x86-64 the Rattle toolchain compiles "
    "the sources with --cpu x86-64\n";

static int count;
static char **words;

int __real_main(int argc, char **argv);
int __wrap_main(int argc, char **argv);

/* Stores the arguments, and calls the program's own main, which reads none. The processor is tested before: no code
 * that was proved has run yet.
 */
int __wrap_main(int argc, char **argv) {
  if (!tt_supported()) {
    ptrdiff_t written = write(STDERR_FILENO, too_old, sizeof too_old - 1);
    (void)written;
    return TOO_OLD;
  }
  count = argc;
  words = argv;
  return __real_main(argc, argv);
}

/* Copies argument `number`, where 0 is the program's name, to the start of the room, without its final zero. Returns
 * its length; -1 where there is no such argument; -2 where it is longer than the room, which then is full.
 */
ptrdiff_t rattle_arg(size_t number, uint8_t *to, size_t room) {
  if (count < 0 || number >= (size_t)count || !words[number]) return -1;
  const char *word = words[number];
  size_t length = 0;
  for (; word[length]; length++) {
    if (length == room) return -2;
    to[length] = (uint8_t)word[length];
  }
  return (ptrdiff_t)length;
}

/* Returns the error number of the last call that failed. */
int32_t rattle_errno(void) { return errno; }

/* Sets the error number. */
void rattle_set_errno(int32_t error) { errno = error; }

/* The program takes these functions from glibc, which has the first from 2.33 on and statx from 2.28 on. For other
 * systems they are here.
 */

#if defined(__GLIBC__)
#define GLIBC_HAS(minor) (__GLIBC__ > 2 || __GLIBC_MINOR__ >= (minor))
#else
#define GLIBC_HAS(minor) 0
#endif

#if defined(__x86_64__) && !GLIBC_HAS(33)
#include <cpuid.h>

/* The features that cpuid reports in eax, ebx, ecx and edx, and those that the system lets a program use. */
struct features {
  unsigned told[4], usable[4];
};

const struct features *__x86_get_cpuid_feature_leaf(unsigned number);

/* Returns the features of cpuid's leaf 1 for number 0, of its leaf 0x80000001 for number 2, and no features for other
 * numbers. The program looks for the features that x86-64-v2 adds to the first x86-64; every system permits their use.
 */
const struct features *__x86_get_cpuid_feature_leaf(unsigned number) {
  static struct features leaves[2], none;
  if (number != 0 && number != 2) return &none;
  struct features *leaf = &leaves[number / 2];
  unsigned *told = leaf->told;
  if (!__get_cpuid(number == 0 ? 1 : 0x80000001, &told[0], &told[1], &told[2], &told[3])) return &none;
  for (int it = 0; it < 4; it++) leaf->usable[it] = told[it];
  return leaf;
}
#endif

#if defined(__x86_64__) && !defined(__GLIBC__)
ptrdiff_t __write(int file, const void *from, size_t size);

/* write, under the name by which the program reports that its processor is too old. */
ptrdiff_t __write(int file, const void *from, size_t size) { return write(file, from, size); }
#endif

#if defined(__linux__) && !GLIBC_HAS(28)
#include <sys/syscall.h>

long syscall(long number, ...);
int statx(int folder, const char *path, int flags, unsigned fields, void *to);

/* statx, by which the program tells a folder from a file. musl has statx from 1.2.5 on. */
int statx(int folder, const char *path, int flags, unsigned fields, void *to) {
  return (int)syscall(SYS_statx, folder, path, flags, fields, to);
}
#endif
