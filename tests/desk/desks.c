/* desks.c: desks to begin with, and numbers for what is wrong with one. */

#include "desk.h"

#define TOP UINT64_MAX

const uint64_t empty_map[MAP_LENGTH];

const uint64_t other_lengths[OTHER_LENGTHS] = {0, 1, EVEN_CORE - 1, EVEN_CORE + 1, CORE_MOST - 1, CORE_MOST, CORE_MOST + 1};

/* ---- desks */

static void fresh_desk(uint64_t core_words, const uint64_t *map) {
  lend_desk(DESK_WORDS);
  lend_core(core_words);
  fill_desk();
  fill_core();
  MAKE(told(MADE, 0), core_words, map);
}

void even_desk(void) {
  uint64_t map[MAP_LENGTH];
  for (uint64_t room = 0; room < ROOMS; room++) {
    map[2 * room] = even_stretch(room);
    map[2 * room + 1] = STRETCH;
  }
  fresh_desk(EVEN_CORE, map);
}

uint64_t even_stretch(uint64_t room) {
  return STRETCH * room;
}

uint64_t even_area(uint64_t room, uint64_t load) {
  return even_stretch(room) + LOAD * load;
}

void whole_desk(uint64_t core_words) {
  const uint64_t map[MAP_LENGTH] = {0, core_words};
  fresh_desk(core_words, map);
}

/* ---- numbers */

/* The number and the ones beside it. */
#define BESIDE(number) (number) - 1, (number), (number) + 1
#define POWER(bits) ((uint64_t)1 << (bits))

const uint64_t tops[TOPS] = {
    TOP,       TOP - 1,       TOP - (STRETCH - 1), TOP - (EVEN_CORE - 1), TOP - (CORE_MOST - 1), /* near 2^64 */
    POWER(63), POWER(63) - 1, POWER(32),           POWER(BITS_IN_WORD)};

/* After the small ones: beside limits of 01 and of the even desk, where parts of a number begin, and near 2^64. */
static const uint64_t wilds[FIXED_WILDS - SMALL_WILDS] = {64,
                                                          ENTRIES_MOST - 2,
                                                          BESIDE(ENTRIES_MOST),
                                                          BESIDE(PAIRS_MOST),
                                                          BESIDE(STRETCH),
                                                          BESIDE(2 * STRETCH),
                                                          BESIDE(EVEN_CORE),
                                                          BESIDE(CORE_MOST),
                                                          POWER(20),
                                                          POWER(24),
                                                          POWER(32),
                                                          POWER(40),
                                                          POWER(60),
                                                          POWER(61),
                                                          POWER(63) - 1,
                                                          POWER(63),
                                                          TOP - CORE_MOST,
                                                          TOP - STRETCH,
                                                          TOP - ROOMS,
                                                          TOP - 1,
                                                          TOP};

uint64_t wild(unsigned which, uint64_t old) {
  if (which < SMALL_WILDS)
    return which;
  if (which < FIXED_WILDS)
    return wilds[which - SMALL_WILDS];
  if (which == FIXED_WILDS)
    return old + 1;
  if (which == FIXED_WILDS + 1)
    return old - 1;
  return old ^ bit_at(which - FEW_WILDS);
}
