/* For LD_PRELOAD: the allocation whose number is in FAIL_NTH answers NULL, and each other one is the C library's. The
 * count is of malloc and of realloc, which are all that the program calls. A refusal leaves the file FAIL_MARK. */
#define _GNU_SOURCE
#include <dlfcn.h>
#include <fcntl.h>
#include <stddef.h>
#include <stdlib.h>
#include <unistd.h>

static unsigned long calls, nth;

static int refused(void) {
  if (nth == 0) {
    const char *text = getenv("FAIL_NTH");
    nth = text ? strtoul(text, NULL, 10) : 0;
    if (nth == 0) return 0;
  }
  if (++calls != nth) return 0;
  const char *mark = getenv("FAIL_MARK");
  int file = mark ? open(mark, O_WRONLY | O_CREAT, 0600) : -1;
  if (file >= 0) close(file);
  return 1;
}

void *malloc(size_t size) {
  static void *(*next)(size_t);
  if (!next) next = (void *(*)(size_t))dlsym(RTLD_NEXT, "malloc");
  return refused() ? NULL : next(size);
}

void *realloc(void *old, size_t size) {
  static void *(*next)(void *, size_t);
  if (!next) next = (void *(*)(void *, size_t))dlsym(RTLD_NEXT, "realloc");
  return refused() ? NULL : next(old, size);
}
