/* The quick half of the launcher, ../tt_render: becomes the program if no source is newer, and else the script launch,
 * which builds the program. The words are the root of the tree and then the program's own.
 *
 * out/tt_render.sources names the sources and their folders, each name ended by a zero. launch writes that file beside
 * each program that it builds. A source that is added, taken away or moved changes the date of its folder. No date shows
 * a source that an older file overwrites together with its date, as by `cp -p`; dist/check tells of that source.
 */
#include <fcntl.h>
#include <limits.h>
#include <stdio.h>
#include <string.h>
#include <sys/stat.h>
#include <unistd.h>

enum { NOT_STARTED = 70 };

/* Whether the first file was changed after the second. */
static int is_newer(const struct stat *file, const struct stat *other) {
  const struct timespec *it = &file->st_mtim, *that = &other->st_mtim;
  return it->tv_sec != that->tv_sec ? it->tv_sec > that->tv_sec : it->tv_nsec > that->tv_nsec;
}

/* Whether the program is there, and each source is there and is not newer. */
static int is_fresh(int root) {
  static char names[1 << 20];
  struct stat program, source;
  int list = openat(root, "out/tt_render.sources", O_RDONLY | O_CLOEXEC);
  if (list < 0 || fstatat(root, "out/tt_render", &program, 0)) return 0;
  ssize_t size = read(list, names, sizeof names);
  if (size <= 0 || size == sizeof names || names[size - 1]) return 0;
  for (const char *name = names; name < names + size; name += strlen(name) + 1)
    if (fstatat(root, name, &source, 0) || is_newer(&source, &program)) return 0;
  return 1;
}

int main(int count, char **words) {
  static char path[PATH_MAX];
  if (count < 2) return NOT_STARTED;
  const char *root = words[1];
  int folder = open(root, O_RDONLY | O_DIRECTORY | O_CLOEXEC);
  words[1] = path;
  if (folder >= 0 && is_fresh(folder) && snprintf(path, sizeof path, "%s/out/tt_render", root) < (int)sizeof path)
    execv(path, words + 1);
  if (snprintf(path, sizeof path, "%s/dist/launch", root) < (int)sizeof path) execv(path, words + 1);
  perror("tt_render: dist/launch");
  return NOT_STARTED;
}
