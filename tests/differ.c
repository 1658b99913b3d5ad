/* differ.c: holds the proved loader, called through clamp.h as the emulator calls it, against the reader. Both get the same calls,
   by chance from a seed: loads in many rooms, interleaved, right files and faulty ones, and arguments of any size. After each call the
   answers and the whole cores must agree, and a refusal from 1 to 12 must have left the desk as it was, byte for byte. At its end
   each round reseals blocks and a file: there every word of the block must agree.

     differ SEED ROUNDS          so many rounds, with the seeds SEED, SEED + 1, ..
     differ --seconds N SEED     rounds for so many seconds

   It ends with a line 'N passed, M failed', N being the calls compared. The first difference ends it, and tells the seed of its
   round: differ SEED 1 does that round again. An answer or a kind of fault that was never seen is a failure too, and so is it where
   blocks were never seen in whose sum no carry arises, or one, or several, where a kind of block was never given to reseal, or
   where a refusal was seen at too few words or not in both halves (where.c). */

#include <inttypes.h>
#include <stdio.h>
#include <stdlib.h>
#include <string.h>
#include <time.h>

#include "differ/deck.h"
#include "differ/reseal.h"
#include "differ/steps.h"
#include "differ/where.h"

enum { STEPS_IN_ROUND = 300, RUSH = 40 };

/* ---- rounds */

/* The steps, and how often of a hundred each is taken. */
static const struct {
  void (*step)(void);
  unsigned often;
} steps[] = {{step_feed, 62},         {step_open, 13},      {step_release, 3},     {step_wrong_feed, 8}, {step_wrong_open, 6},
             {step_wrong_release, 3}, {step_wrong_make, 1}, {step_desk_length, 1}, {step_any_desk, 1},   {step_changed_desk, 2}};

static void step(void) {
  uint64_t which = below(&chance, 100);
  unsigned i = 0;
  while (which >= steps[i].often)
    which -= steps[i++].often;
  steps[i].step();
}

/* Mostly a small core, for the whole of it is compared after each call. */
static uint64_t any_core_length(void) {
  switch (below(&chance, 40)) {
  case 0:
    return CORE_MOST;
  case 1:
    return between(&chance, 1, 20);
  case 2:
    return between(&chance, 3000, CORE_MOST);
  default:
    return between(&chance, 100, 3000);
  }
}

static void play_round(uint64_t round_seed) {
  uint64_t length;
  struct numbers map;
  seed = chance.state = round_seed;
  calls_before = calls;
  length = any_core_length();
  map = any_map(length);
  forget_loads();
  begin_core(length);
  both_make(length, &map, told(MADE, 0));
  for (unsigned i = one_in(&chance, 4) ? RUSH : 0; i > 0; i--) /* as many loads as the desk will have */
    step_open();
  for (unsigned i = 0; i < STEPS_IN_ROUND; i++)
    step();
  reseal_blocks();
  reseal_file();
}

/* ---- the result */

/* How often each answer was seen, and what was never seen. Gives whether all was. */
static bool print_table(void) {
  static const char *const names[] = {"made", "opened", "more", "done", "released"};
  bool all = changed_desks_refused > 0;
  for (unsigned code = REFUSED_DESK; code <= RELEASED; code = code == REFUSED_START ? MADE : code + 1) {
    if (code <= REFUSED_START)
      printf("refused %2u %12" PRIu64 "\n", code, seen[code]);
    else
      printf("%-10s %12" PRIu64 "\n", names[code - MADE], seen[code]);
    all = all && seen[code] > 0;
  }
  for (unsigned fault = 1; fault < FAULT_KINDS; fault++) {
    if (faults_seen[fault] == 0)
      printf("never seen: %s\n", fault_text(fault));
    all = all && faults_seen[fault] > 0;
  }
  for (unsigned carries = 0; carries < 3; carries++)
    all = all && carries_seen[carries] > 0;
  printf("blocks with no carry in the sum: %" PRIu64 ", with one: %" PRIu64 ", with several: %" PRIu64 "\n", carries_seen[0],
         carries_seen[1], carries_seen[2]);
  printf("desks with one number changed: %" PRIu64 ", refused %" PRIu64 "\n", changed_desks, changed_desks_refused);
  all = print_where() && all;
  return print_reseals() && all;
}

/* ---- the program */

static _Noreturn void usage(void) {
  printf("usage: differ SEED ROUNDS, or differ --seconds N SEED\n0 passed, 1 failed\n");
  exit(2);
}

static uint64_t number(const char *text) {
  char *end;
  uint64_t value = strtoull(text, &end, 10);
  if (*text < '0' || *text > '9' || *end != 0)
    usage();
  return value;
}

int main(int count, char **arguments) {
  bool timed = count == 4 && strcmp(arguments[1], "--seconds") == 0;
  if (!timed && count != 3)
    usage();
  uint64_t first = number(arguments[timed ? 3 : 1]), amount = number(arguments[2]), rounds = 0;
  time_t begin = time(NULL);
  set_up();
  hand_deck();
  while (timed ? (uint64_t)(time(NULL) - begin) < amount : rounds < amount)
    play_round(first + rounds++);
  forget_loads();
  bool all = print_table();
  printf("seed %" PRIu64 ", %" PRIu64 " rounds\n", first, rounds);
  printf("%" PRIu64 " passed, %d failed\n", calls, all ? 0 : 1);
  return all ? 0 : 1;
}
