/* Prints the table TT_REFUSALS, a number and a name a line, and whether tt_message names each of them; and tries it on
 * answers that no call gives.
 */
#include <inttypes.h>
#include <stdio.h>
#include <string.h>

#include "calls.h"

struct refusal {
  uint32_t number;
  const char *name;
};

static const struct refusal refusals[] = {
#define X(number, name) {number, #name},
    TT_REFUSALS(X)
#undef X
};
#define REFUSALS (sizeof refusals / sizeof *refusals)

static void try_message(const struct tt_answer *answer, const char *wanted) {
  const char *got = message_of(answer);
  expect(strcmp(got, wanted) == 0, "'%s', and not '%s'", got, wanted);
}

static void try_refusal(const struct refusal *it) {
  char wanted[128];
  struct tt_answer answer = {.number = it->number};
  if (it->number < 60) {
    static const uint32_t offsets[] = {0, 14, UINT32_MAX};
    answer.status = TT_FONT;
    memcpy(answer.table, "glyf", 4);
    for (size_t i = 0; i < sizeof offsets / sizeof *offsets; i++) {
      answer.offset = offsets[i];
      snprintf(wanted, sizeof wanted, "tt_render: glyf+%" PRIu32 ": %" PRIu32 " %s", offsets[i], it->number, it->name);
      try_message(&answer, wanted);
    }
  } else {
    answer.status = TT_JOB;
    snprintf(wanted, sizeof wanted, "tt_render: %" PRIu32 " %s", it->number, it->name);
    try_message(&answer, wanted);
  }
  verdict("the message of %" PRIu32 " %s", it->number, it->name);
}

static bool is_refusal(uint32_t number) {
  for (size_t i = 0; i < REFUSALS; i++) {
    if (refusals[i].number == number) return true;
  }
  return false;
}

/* Each has some line that begins as all do, in printable characters. */
static void try_strange(const struct tt_answer *answer) {
  const char *text = message_of(answer);
  expect(strncmp(text, "tt_render: ", 11) == 0 && text[11] != 0, "status %u: '%s'", answer->status, text);
  for (const char *at = text; *at; at++) expect(*at >= 32 && *at < 127, "status %u: a byte %d", answer->status, *at);
}

static void try_answers(void) {
  static const uint32_t statuses[] = {0, 1, 2, 4, 5, 6, 7, 8, UINT32_MAX};
  static const uint32_t numbers[] = {0, 51, 52, 58, 59, 74, 255, 256 + 2, UINT32_MAX};
  for (size_t i = 0; i < sizeof statuses / sizeof *statuses; i++) {
    for (size_t j = 0; j < sizeof numbers / sizeof *numbers; j++) {
      struct tt_answer answer = {statuses[i], numbers[j], {'g', 'l', 'y', 'f'}, UINT32_MAX, UINT64_MAX, UINT64_MAX};
      if (answer.status == TT_FONT || answer.status == TT_JOB) {
        const char *text = message_of(&answer);
        expect(!is_refusal(answer.number) && strstr(text, "glyf") == NULL, "number %u: '%s'", answer.number, text);
      }
      try_strange(&answer);
    }
  }
  struct tt_answer answer = {.status = TT_FONT, .number = 2, .table = {'f', 'i', 0xC3, 0xA9}};
  try_strange(&answer);
  verdict("messages of answers that no call gives");
  try_message(&(struct tt_answer){.status = TT_MEMORY}, "tt_render: out of memory");
  try_message(&(struct tt_answer){.status = TT_FONT_LARGE}, "tt_render: font larger than 67108864 bytes");
  try_message(&(struct tt_answer){.status = TT_NOT_UTF8}, "tt_render: not UTF-8");
  verdict("messages without a number");
}

int main(void) {
  for (size_t i = 0; i < REFUSALS; i++) printf("%" PRIu32 " %s\n", refusals[i].number, refusals[i].name);
  for (size_t i = 0; i < REFUSALS; i++) try_refusal(&refusals[i]);
  try_answers();
  return 0;
}
