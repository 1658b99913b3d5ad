/* make.c: tests of make. */

#include "desk.h"

/* A small core for maps by hand, with a stretch of eight words for each room. */
enum { SMALL_CORE = 64, SMALL_STRETCH = SMALL_CORE / ROOMS };

/* A desk to be made, and no core. */
static void lend_old_desk(void) {
  lend_desk(DESK_WORDS);
  lend_core(0);
  fill_desk();
}

void test_make_order(void) {
  enum { BAD_DESK = 1, BAD_CORE = 2, BAD_MAP = 4, ALL = 8 };
  const uint64_t shared[MAP_LENGTH] = {0, 2, 1, 2};
  for (int faults = 0; faults < ALL; faults++) {
    lend_desk(faults & BAD_DESK ? DESK_WORDS - 1 : DESK_WORDS);
    lend_core(SMALL_CORE);
    fill_desk();
    fill_core();
    uint64_t want = faults & BAD_DESK   ? REFUSED(DESK)
                    : faults & BAD_CORE ? REFUSED(CORE_LENGTH)
                    : faults & BAD_MAP  ? REFUSED(MAP)
                                        : told(MADE, 0);
    const uint64_t *map = faults & BAD_MAP ? shared : empty_map;
    MAKE(want, faults & BAD_CORE ? 0 : SMALL_CORE, map);
    MAKE_LENGTH(want, faults & BAD_CORE ? CORE_MOST + 1 : SMALL_CORE, map, faults & BAD_MAP ? MAP_LENGTH - 1 : MAP_LENGTH);
  }
}

void test_make_lengths(void) {
  const uint64_t lengths[] = {0, 1, PLACES_AT - 1, PLACES_AT, DESK_WORDS - 1, DESK_WORDS + 1};
  CHECK(clamp_desk_words() == DESK_WORDS);
  CHECK(clamp_desk_words() == clamp_desk_words());
  lend_core(SMALL_CORE);
  fill_core();
  for (unsigned i = 0; i < sizeof lengths / sizeof lengths[0]; i++) {
    lend_desk(lengths[i]);
    fill_desk();
    MAKE(REFUSED(DESK), SMALL_CORE, empty_map);
    OPEN(REFUSED(DESK), 0, 0, 1);
    RELEASE(REFUSED(DESK), 0, 0);
  }
  desk = NULL;
  desk_len = 0;
  CHECK(clamp_make(NULL, 0, SMALL_CORE, empty_map, MAP_LENGTH) == REFUSED(DESK));
  CHECK(clamp_release(NULL, 0, SMALL_CORE, 0, 0) == REFUSED(DESK));
  CHECK(clamp_open(NULL, 0, NULL, 0, 0, 0, 1, NULL, 0, NULL, 0) == REFUSED(DESK));
}

void test_make_core_lengths(void) {
  lend_old_desk();
  MAKE(REFUSED(CORE_LENGTH), 0, empty_map);
  MAKE(told(MADE, 0), 1, empty_map);
  MAKE(told(MADE, 0), CORE_MOST - 1, empty_map);
  MAKE(told(MADE, 0), CORE_MOST, empty_map);
  MAKE(REFUSED(CORE_LENGTH), CORE_MOST + 1, empty_map);
  for (int i = 0; i < TOPS; i++)
    MAKE(REFUSED(CORE_LENGTH), tops[i], empty_map);
}

void test_make_map_lengths(void) {
  const uint64_t zeros[2 * MAP_LENGTH] = {0};
  lend_old_desk();
  MAKE_LENGTH(REFUSED(MAP), SMALL_CORE, NULL, 0);
  for (uint64_t length = 1; length <= 2 * MAP_LENGTH; length++)
    MAKE_LENGTH(length == MAP_LENGTH ? told(MADE, 0) : REFUSED(MAP), SMALL_CORE, zeros, length);
}

/* ---- stretches */

/* A map of empty stretches but for one or two rooms: whether it obeys its rule. */
static void stretch_is(const char *from, uint64_t want, uint64_t room, uint64_t start, uint64_t length) {
  uint64_t map[MAP_LENGTH] = {0};
  map[2 * room] = start, map[2 * room + 1] = length;
  make_is(from, want, EVEN_CORE, map, MAP_LENGTH);
}

#define STRETCH_IS(want, start, length) stretch_is(HERE, want, room, start, length)

/* Beside a stretch of 20 words at 10. */
static void beside_is(const char *from, uint64_t want, uint64_t room, uint64_t other, uint64_t start, uint64_t length) {
  uint64_t map[MAP_LENGTH] = {0};
  map[2 * room] = 10, map[2 * room + 1] = 20;
  map[2 * other] = start, map[2 * other + 1] = length;
  make_is(from, want, SMALL_CORE, map, MAP_LENGTH);
}

#define BESIDE_IS(want, start, length) beside_is(HERE, want, room, other, start, length)

void test_make_stretches(void) {
  lend_old_desk();
  for (uint64_t room = 0; room < ROOMS; room++) {
    STRETCH_IS(told(MADE, 0), 0, EVEN_CORE); /* the whole core, with seven empty stretches in it */
    STRETCH_IS(REFUSED(MAP), 0, EVEN_CORE + 1);
    STRETCH_IS(told(MADE, 0), 1, EVEN_CORE - 1);
    STRETCH_IS(REFUSED(MAP), 1, EVEN_CORE);
    STRETCH_IS(told(MADE, 0), EVEN_CORE - 1, 1);
    STRETCH_IS(REFUSED(MAP), EVEN_CORE, 1);
    STRETCH_IS(told(MADE, 0), EVEN_CORE, 0); /* an empty stretch at the core's end, and one past it */
    STRETCH_IS(REFUSED(MAP), EVEN_CORE + 1, 0);
  }
  /* every two rooms: stretches that touch, share a word at either end, lie one in the other; an empty one in the middle */
  for (uint64_t room = 0; room < ROOMS; room++)
    for (uint64_t other = 0; other < ROOMS; other++) {
      if (room == other)
        continue;
      BESIDE_IS(told(MADE, 0), 30, 5);
      BESIDE_IS(REFUSED(MAP), 29, 5);
      BESIDE_IS(REFUSED(MAP), 12, 5);
      BESIDE_IS(REFUSED(MAP), 10, 20);
      BESIDE_IS(told(MADE, 0), 5, 5);
      BESIDE_IS(REFUSED(MAP), 5, 6);
      BESIDE_IS(told(MADE, 0), 15, 0);
      BESIDE_IS(REFUSED(MAP), 15, 1);
    }
}

void test_make_near_top(void) {
  lend_old_desk();
  for (int i = 0; i < MAP_LENGTH; i++)
    for (int k = 0; k < TOPS; k++) {
      uint64_t map[MAP_LENGTH], end = (uint64_t)(i / 2 + 1) * SMALL_STRETCH, *other = &map[i ^ 1];
      for (uint64_t room = 0; room < ROOMS; room++)
        map[2 * room] = SMALL_STRETCH * room, map[2 * room + 1] = SMALL_STRETCH;
      MAKE(told(MADE, 0), SMALL_CORE, map);
      map[i] = tops[k];
      MAKE(REFUSED(MAP), SMALL_CORE, map);
      /* with the other number of the pair such that their sum wraps to the old end, to the core's, or to 0 */
      *other = end - tops[k];
      MAKE(REFUSED(MAP), SMALL_CORE, map);
      *other = SMALL_CORE - tops[k];
      MAKE(REFUSED(MAP), SMALL_CORE, map);
      *other = 0 - tops[k];
      MAKE(REFUSED(MAP), SMALL_CORE, map);
    }
}

/* A desk in use is made again: its loads are forgotten. */
void test_make_again(void) {
  const uint64_t room = 3, at = even_stretch(room);
  even_desk();
  OPEN(told(OPENED, 0), room, at, STRETCH);
  OPEN(REFUSED(AREA), room, at, 1);
  MAKE(REFUSED(CORE_LENGTH), 0, empty_map);
  RELEASE(told(RELEASED, 0), room, 0);
  OPEN(told(OPENED, 0), room, at, STRETCH);
  whole_desk(EVEN_CORE);
  RELEASE(REFUSED(PLACE), room, 0);
  OPEN(told(OPENED, 0), 0, 0, EVEN_CORE);
}
