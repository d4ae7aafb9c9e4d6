/* Draws in four threads at once, which have to agree with one alone; and in a thread whose stack has 64 KiB, and
 * nothing around it. threads FONT TEXT.., the texts in hexadecimal.
 */
#define _DEFAULT_SOURCE
#include <pthread.h>
#include <stdio.h>
#include <stdlib.h>
#include <string.h>

#include "calls.h"

#define THREADS 4
#define STACK (64 << 10)

static struct room font;
static struct room *texts;
static size_t texts_count;

/* What a thread does: `turns` times pictures, measures and labels of all texts with all ways to fit, in its own room.
 * `sum` is of all that it got, and `wrong` says how many calls were not done. */
struct work {
  unsigned turns, wrong;
  uint64_t sum;
  uint8_t rows[1 << 16];
};

static struct work alone, each[THREADS];

static uint64_t added(uint64_t sum, const void *bytes, size_t count) {
  for (size_t i = 0; i < count; i++) sum = (sum ^ ((const uint8_t *)bytes)[i]) * UINT64_C(0x100000001B3);
  return sum;
}

static void label_once(struct work *work, struct room text, const struct tt_label_job *job) {
  struct tt_label told;
  struct tt_answer answer;
  if (tt_label(font.at, font.size, text.at, text.size, job, work->rows, sizeof work->rows, &told, &answer) != TT_DONE) {
    work->wrong++;
  }
  work->sum = added(added(work->sum, &told, sizeof told), work->rows, answer.bytes);
}

static void draw_once(struct work *work, struct room text, const struct tt_job *job) {
  struct tt_picture told;
  struct tt_measure measure;
  struct tt_answer answer;
  if (tt_draw(font.at, font.size, text.at, text.size, job, work->rows, sizeof work->rows, &told, &answer) != TT_DONE) {
    work->wrong++;
  }
  work->sum = added(added(work->sum, &told, sizeof told), work->rows, answer.bytes);
  if (tt_measure(font.at, font.size, text.at, text.size, job, &measure, &answer) != TT_DONE) work->wrong++;
  work->sum = added(work->sum, &measure, sizeof measure);
  struct tt_label_job label = {.size = job->size, .margin = job->margin, .fit = job->fit, .width = 20 * job->grow};
  struct tt_label_job box = {.size = job->size, .fit = job->fit, .box_width = 90, .box_height = 60};
  label_once(work, text, &label);
  label_once(work, text, &box);
}

static void *draw_all(void *given) {
  struct work *work = given;
  for (unsigned turn = 0; turn < work->turns; turn++) {
    for (uint32_t fit = TT_FULL; fit <= TT_BEST; fit++) {
      struct tt_job job = {.size = 9 + turn % 30, .margin = turn % 3, .fit = fit, .grow = turn % 2};
      for (size_t i = 0; i < texts_count; i++) draw_once(work, texts[i], &job);
    }
  }
  return NULL;
}

static void begin(struct work *work, unsigned turns) {
  work->turns = turns;
  work->wrong = 0;
  work->sum = 0;
}

static void try_threads(void) {
  pthread_t threads[THREADS];
  begin(&alone, 60);
  for (int i = 0; i < THREADS; i++) {
    begin(&each[i], 60);
    if (pthread_create(&threads[i], NULL, draw_all, &each[i]) != 0) stop("no thread");
  }
  draw_all(&alone);
  expect(alone.wrong == 0, "%u calls were not done", alone.wrong);
  for (int i = 0; i < THREADS; i++) {
    pthread_join(threads[i], NULL);
    expect(each[i].sum == alone.sum && each[i].wrong == 0, "thread %d has other pictures", i);
  }
  verdict("four threads that draw at once");
}

/* The stack is a room, so a byte below it is its pattern's, and what was used of it can be seen. */
static void try_stack(void) {
  struct room stack = room_of(STACK);
  pthread_attr_t how;
  pthread_t thread;
  begin(&alone, 3);
  begin(&each[0], 3);
  memset(stack.at, 0xC9, stack.size);
  if (pthread_attr_init(&how) != 0 || pthread_attr_setstack(&how, stack.at, stack.size) != 0)
    stop("no stack of 64 KiB");
  if (pthread_create(&thread, &how, draw_all, &each[0]) != 0) stop("no thread with a stack of 64 KiB");
  pthread_join(thread, NULL);
  draw_all(&alone);
  size_t unused = 0;
  while (unused < stack.size && stack.at[unused] == 0xC9) unused++;
  expect(each[0].sum == alone.sum && each[0].wrong == 0, "other pictures, or %u calls not done", each[0].wrong);
  expect(unused > 0 && kept_from(stack, stack.size), "the stack's end was reached");
  verdict("a stack of 64 KiB, of which %zu bytes were used", stack.size - unused);
  pthread_attr_destroy(&how);
  give_up(stack);
}

int main(int count, char **words) {
  static uint8_t bytes[1 << 23];
  if (count < 3) stop("want FONT TEXT..");
  FILE *file = fopen(words[1], "rb");
  if (!file) stop("cannot read the font");
  font = held(bytes, fread(bytes, 1, sizeof bytes, file));
  fclose(file);
  texts_count = (size_t)count - 2;
  texts = calloc(texts_count, sizeof *texts);
  if (!texts) stop("out of memory");
  for (size_t i = 0; i < texts_count; i++) texts[i] = held_hex(words[i + 2], strlen(words[i + 2]));
  try_threads();
  try_stack();
  free(texts);
  return 0;
}
