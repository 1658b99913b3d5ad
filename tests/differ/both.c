/* both.c: the calls of both.h, and how they are compared. */

#define _DEFAULT_SOURCE

#include "both.h"

#include <inttypes.h>
#include <signal.h>
#include <stdio.h>
#include <stdlib.h>
#include <string.h>
#include <unistd.h>

#include "guarded.h"
#include "where.h"

enum { FENCE = 8 };

static const uint64_t fence_word = 0x5555555555555555, other_word = 0x3333333333333333;

struct chance chance;
uint64_t seed, calls_before, calls, seen[CODES];
struct reader reader;
uint64_t *mirror;
struct lent lent_desk, lent_core, lent_other, lent_first, lent_second;
uint64_t *desk_before, desk_words, core_length;

/* ---- lent memory */

/* For up to so many numbers. */
static struct lent lent_make(uint64_t most) {
  return (struct lent){guarded_end(most + FENCE), NULL};
}

uint64_t *lend(struct lent *lent, uint64_t length) {
  lent->start = lent->end - length;
  for (int i = 1; i <= FENCE; i++)
    lent->start[-i] = fence_word;
  return lent->start;
}

const uint64_t *lend_copy(struct lent *lent, const uint64_t *numbers, uint64_t length) {
  if (length == 0)
    return NULL;
  return memcpy(lend(lent, length), numbers, length * sizeof *numbers);
}

bool fence_stands(const uint64_t *start) {
  for (int i = 1; i <= FENCE; i++)
    if (start[-i] != fence_word)
      return false;
  return true;
}

/* Memory was touched that is not lent: tells in which call. */
static void stopped(int signal_number) {
  char line[160];
  int length = snprintf(line, sizeof line, "differ: seed %" PRIu64 ", call %" PRIu64 ": signal %d\n%" PRIu64 " passed, 1 failed\n",
                        seed, calls + 1 - calls_before, signal_number, calls);
  _exit(write(STDOUT_FILENO, line, (size_t)length) == length ? 1 : 2);
}

void set_up(void) {
  signal(SIGSEGV, stopped);
  signal(SIGBUS, stopped);
  desk_words = clamp_desk_words();
  lent_desk = lent_make(desk_words);
  lent_core = lent_make(CORE_MOST);
  lent_other = lent_make((desk_words > CORE_MOST ? desk_words : CORE_MOST) + 1);
  lent_first = lent_make(NUMBERS_MOST);
  lent_second = lent_make(NUMBERS_MOST);
  desk_before = calloc(desk_words, sizeof *desk_before);
  mirror = calloc(CORE_MOST, sizeof *mirror);
  if (desk_before == NULL || mirror == NULL)
    abort();
  lend(&lent_desk, desk_words);
}

/* The loader reads no core word, so that words may be more than 36 bits before they are written. */
void begin_core(uint64_t length) {
  core_length = length;
  lend(&lent_core, length);
  for (uint64_t i = 0; i < length; i++)
    lent_core.start[i] = mirror[i] = any(&chance);
}

/* ---- comparing */

static void print_answer(const char *who, uint64_t answer) {
  printf(", %s %" PRIu64 " %" PRIu64, who, CLAMP_CODE(answer), CLAMP_VALUE(answer));
}

_Noreturn void fail(const char *call, const char *what, uint64_t proved, uint64_t plain, uint64_t answer) {
  printf("differ: seed %" PRIu64 ", call %" PRIu64 ", %s: %s", seed, calls - calls_before, call, what);
  print_answer("proved", proved);
  print_answer("reader", plain);
  if (answer != 0)
    print_answer("foretold", answer);
  printf("\n%" PRIu64 " passed, 1 failed\n", calls - 1);
  exit(1);
}

void check(bool holds, const char *what) {
  calls++;
  if (!holds)
    fail("check", what, 0, 0, 0);
}

bool desk_is_as_before(void) {
  return memcmp(lent_desk.start, desk_before, desk_words * sizeof *desk_before) == 0;
}

bool cores_agree(void) {
  return memcmp(lent_core.start, mirror, core_length * sizeof *mirror) == 0 && fence_stands(lent_core.start);
}

/* One call: what the proved loader answered, what the reader did, and what was foretold or 0. */
static void compare_answers(const char *call, uint64_t proved, uint64_t plain, uint64_t answer) {
  calls++;
  if (proved != plain)
    fail(call, "the answers differ", proved, plain, answer);
  if (answer != 0 && proved != answer)
    fail(call, "another answer was foretold", proved, plain, answer);
}

/* The same of a call on a desk, and what it has left. */
static void compare(const char *call, uint64_t proved, uint64_t plain, uint64_t answer) {
  compare_answers(call, proved, plain, answer);
  if (!cores_agree())
    fail(call, "the cores differ", proved, plain, answer);
  if (changes_nothing(CLAMP_CODE(proved)) && !desk_is_as_before())
    fail(call, "refused, and the desk changed", proved, plain, answer);
  if (!fence_stands(lent_desk.start))
    fail(call, "written before the desk", proved, plain, answer);
  memcpy(desk_before, lent_desk.start, desk_words * sizeof *desk_before);
  seen[CLAMP_CODE(proved)]++;
}

/* ---- the four calls */

/* The core, or another of the length said. */
static uint64_t *core_of(uint64_t length) {
  if (length == core_length)
    return lent_core.start;
  uint64_t *other = lend(&lent_other, length);
  for (uint64_t i = 0; i < length; i++)
    other[i] = other_word;
  return other;
}

static void check_other_core(const char *call, uint64_t length, uint64_t answer) {
  for (uint64_t i = 0; length != core_length && i < length; i++)
    if (lent_other.start[i] != other_word)
      fail(call, "a core of another length was written", answer, answer, 0);
}

uint64_t both_make(uint64_t length, const struct numbers *map, uint64_t answer) {
  uint64_t proved = clamp_make(lent_desk.start, desk_words, length, lend_copy(&lent_first, map->at, map->count), map->count);
  uint64_t plain = reader_make(&reader, length, map->at, map->count);
  compare("make", proved, plain, answer);
  return proved;
}

uint64_t both_open(uint64_t length, uint64_t room, struct run area, const struct numbers *io, const struct numbers *tables,
                   uint64_t answer) {
  uint64_t proved = clamp_open(lent_desk.start, desk_words, core_of(length), length, room, area.start, area.length,
                               lend_copy(&lent_first, io->at, io->count), io->count,
                               lend_copy(&lent_second, tables->at, tables->count), tables->count);
  uint64_t plain =
      reader_open(&reader, mirror, length, room, area.start, area.length, io->at, io->count, tables->at, tables->count);
  compare("open", proved, plain, answer);
  check_other_core("open", length, proved);
  return proved;
}

uint64_t both_feed(uint64_t length, uint64_t room, uint64_t place, const struct numbers *block, uint64_t answer) {
  const struct load *load = &reader.places[place < PLACES ? place : 0]; /* a place that there is not is refused with 9 at most */
  enum stage due = load->stage;
  bool later = load->entry_words > 0;
  uint64_t proved = clamp_feed(lent_desk.start, desk_words, core_of(length), length, room, place,
                               lend_copy(&lent_first, block->at, block->count), block->count);
  uint64_t plain = reader_feed(&reader, mirror, length, room, place, block->at, block->count);
  compare("feed", proved, plain, answer);
  check_other_core("feed", length, proved);
  if (tells_where(CLAMP_CODE(proved)) && !note_where(due, later, proved))
    fail("feed", "a refusal that cannot be at that word and half", proved, plain, answer);
  return proved;
}

uint64_t both_release(uint64_t length, uint64_t room, uint64_t place, uint64_t answer) {
  uint64_t proved = clamp_release(lent_desk.start, desk_words, length, room, place);
  uint64_t plain = reader_release(&reader, length, room, place);
  compare("release", proved, plain, answer);
  return proved;
}

struct numbers map_of(const struct run *stretches) {
  struct numbers map = {.count = MAP_LENGTH};
  for (unsigned room = 0; room < ROOMS; room++) {
    map.at[2 * room] = stretches[room].start;
    map.at[2 * room + 1] = stretches[room].length;
  }
  return map;
}

/* ---- reseal: it is lent nothing but the block. Its refusals are not counted among those of the four calls. */

uint64_t both_reseal(struct numbers *block, uint64_t index, uint64_t answer) {
  uint64_t bytes = block->count * sizeof block->at[0];
  uint64_t *lent = block->count == 0 ? NULL : memcpy(lend(&lent_first, block->count), block->at, bytes);
  uint64_t proved = clamp_reseal(lent, block->count, index), plain = reader_reseal(block->at, block->count, index);
  compare_answers("reseal", proved, plain, answer);
  if (lent != NULL && (memcmp(lent, block->at, bytes) != 0 || !fence_stands(lent)))
    fail("reseal", "the blocks differ, or written before one", proved, plain, answer);
  if (!cores_agree() || !desk_is_as_before() || !fence_stands(lent_desk.start))
    fail("reseal", "desk or core changed", proved, plain, answer);
  return proved;
}
