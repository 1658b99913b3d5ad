/* lent.c: counting, the memory that is lent, and the calls on both versions. */

#define _DEFAULT_SOURCE

#include <inttypes.h>
#include <signal.h>
#include <stdio.h>
#include <string.h>
#include <unistd.h>

#include "book.h"
#include "guarded.h"

struct given given;

/* ---- counting */

enum { TOLD_MOST = 50 };

uint64_t passed, failed, seed;

bool check(bool holds, const char *what) {
  if (holds) {
    passed++;
    return true;
  }
  if (++failed <= TOLD_MOST) {
    printf("not so: %s", what);
    if (seed != 0)
      printf(", seed %" PRIu64, seed);
    printf("\n");
  }
  return false;
}

/* A check of an answer: tells the library's and the one that was due. */
static bool check_answer(const char *name, const char *what, uint64_t answer, uint64_t due) {
  if (answer != due && failed < TOLD_MOST)
    printf("%s: %s: answer %" PRIu64 " %" PRIu64 " where %" PRIu64 " %" PRIu64 " is due\n", name, what, CLAMP_CODE(answer),
           CLAMP_VALUE(answer), CLAMP_CODE(due), CLAMP_VALUE(due));
  return check(answer == due, name);
}

/* ---- lent memory */

enum { FENCE = 8 };

static const uint64_t fence_word = 0x5555555555555555;
static uint64_t *words_end, *io_end, *tables_end;
static uint8_t *book_end;

static const char *calling; /* the name of the check whose call is made */

/* Memory was touched that is not lent: tells in which check. */
static void stopped(int signal_number) {
  char line[240];
  int length = snprintf(line, sizeof line, "%s, seed %" PRIu64 ": signal %d\n%" PRIu64 " passed, %" PRIu64 " failed\n", calling,
                        seed, signal_number, passed, failed + 1);
  _exit(write(STDOUT_FILENO, line, (size_t)length) == length ? 1 : 2);
}

void set_up(void) {
  signal(SIGSEGV, stopped);
  signal(SIGBUS, stopped);
  words_end = guarded_end(sizeof given.words / sizeof given.words[0]);
  book_end = (uint8_t *)guarded_end((sizeof given.book + sizeof(uint64_t) - 1) / sizeof(uint64_t));
  io_end = guarded_end(LIST_MOST + FENCE);
  tables_end = guarded_end(LIST_MOST + FENCE);
}

/* What stands in a list before a call, from a fence before it on: no number of a record is so large. */
static uint64_t before(uint64_t i) {
  return fence_word + i;
}

static uint64_t *lend_list(uint64_t *end, uint64_t length) {
  for (uint64_t i = 0; i < length + FENCE; i++)
    (end - length - FENCE)[i] = before(i);
  return length == 0 ? NULL : end - length;
}

static bool fence_stands(const uint64_t *end, uint64_t length) {
  for (uint64_t i = 0; i < FENCE; i++)
    if ((end - length - FENCE)[i] != before(i))
      return false;
  return true;
}

static bool is_untouched(const uint64_t *end, uint64_t length) {
  for (uint64_t i = 0; i < length + FENCE; i++)
    if ((end - length - FENCE)[i] != before(i))
      return false;
  return true;
}

/* ---- the calls */

const uint64_t *got_io, *got_tables;

static bool same(const uint64_t *one, const uint64_t *other, uint64_t length) {
  return length == 0 || memcmp(one, other, length * sizeof *one) == 0;
}

/* Whether the library left the lists as the second version did: untouched where it refused. */
static bool lists_agree(uint64_t answer, const uint64_t *io, const uint64_t *tables) {
  if (CLAMP_CODE(answer) != ASSIGNED)
    return is_untouched(io_end, given.io_length) && is_untouched(tables_end, given.tables_length);
  return same(io_end - given.io_length, io, given.io_length) &&
         same(tables_end - given.tables_length, tables, given.tables_length) && fence_stands(io_end, given.io_length) &&
         fence_stands(tables_end, given.tables_length);
}

uint64_t both_assign(const char *name) {
  static uint64_t io[LIST_MOST], tables[LIST_MOST];
  uint64_t *words = words_end - given.length, words_bytes = given.length * sizeof *words;
  uint8_t *book = book_end - given.book_length;
  uint64_t *lent_io = lend_list(io_end, given.io_length), *lent_tables = lend_list(tables_end, given.tables_length);
  memcpy(words, given.words, words_bytes);
  memcpy(book, given.book, given.book_length);
  calling = name;
  uint64_t proved = clamp_assign(given.book_length == 0 ? NULL : book, given.book_length, given.length == 0 ? NULL : words,
                                 given.length, lent_io, given.io_length, lent_tables, given.tables_length);
  uint64_t plain =
      second_assign(given.book, given.book_length, given.words, given.length, io, given.io_length, tables, given.tables_length);
  if (check_answer(name, "library and second version", proved, plain))
    check(lists_agree(proved, io, tables), name);
  if (memcmp(words, given.words, words_bytes) != 0 || memcmp(book, given.book, given.book_length) != 0)
    check(false, "book and blocks are as they were");
  got_io = io_end - given.io_length;
  got_tables = tables_end - given.tables_length;
  return proved;
}

uint64_t both_needs(const char *name, const uint64_t *label, uint64_t length) {
  uint64_t *words = words_end - length;
  memcpy(words, label, length * sizeof *words);
  calling = name;
  uint64_t proved = clamp_needs(length == 0 ? NULL : words, length);
  check_answer(name, "needs, library and second version", proved, second_needs(label, length));
  return proved;
}

void assign_is(const char *name, uint64_t answer) {
  check_answer(name, "assign", both_assign(name), answer);
}

void assign_gives(const char *name, const uint64_t *io, const uint64_t *tables) {
  if (!check_answer(name, "assign", both_assign(name), told(ASSIGNED, 0)))
    return;
  check(same(got_io, io, given.io_length), name);
  check(same(got_tables, tables, given.tables_length), name);
}

void needs_is(const char *name, const uint64_t *label, uint64_t length, uint64_t answer) {
  check_answer(name, "needs", both_needs(name, label, length), answer);
}
