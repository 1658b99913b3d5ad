/* wild.c: desks that were written into. A desk is sound by docs/DESK.md, or meets refusal 1. */

#include <inttypes.h>
#include <stdio.h>
#include <string.h>

#include "block_layout.h"
#include "desk.h"

static unsigned long met_sound, met_unsound;

/* No desk's core has 0 words, so a sound desk answers 2 to a core of none, and 4 to room 8. */
static bool met_right(const char *from) {
  bool sound = is_sound(desk);
  met_sound += sound;
  met_unsound += !sound;
  memcpy(was_desk, desk, DESK_WORDS * sizeof *desk);
  uint64_t room_8 = clamp_release(desk, DESK_WORDS, desk[CORE_LENGTH_AT], ROOMS, 0);
  bool ok = CHECK_FOR(from, room_8 == (sound ? REFUSED(ROOM) : REFUSED(DESK)));
  uint64_t no_core = clamp_open(desk, DESK_WORDS, NULL, 0, 0, 0, 1, NULL, 0, NULL, 0);
  ok &= CHECK_FOR(from, no_core == (sound ? REFUSED(CORE_LENGTH) : REFUSED(DESK)));
  ok &= CHECK_FOR(from, same(was_desk, desk, DESK_WORDS));
  return ok;
}

#define MET_RIGHT() met_right(HERE)

/* The desk is sound or not, as said, and is met so. */
static void sound_is(const char *from, bool sound) {
  CHECK_FOR(from, is_sound(desk) == sound);
  met_right(from);
}

#define SOUND_IS(sound) sound_is(HERE, sound)

/* One number of the desk, made wild in the first so many ways. */
static void wild_at(const char *from, uint64_t at, unsigned ways) {
  uint64_t old = desk[at];
  for (unsigned i = 0; i < ways; i++) {
    desk[at] = wild(i, old);
    if (!met_right(from)) {
      printf("%s: number %" PRIu64 " was %" PRIu64 " and is %" PRIu64 "\n", from, at, old, desk[at]);
      break;
    }
  }
  desk[at] = old;
}

#define WILD_AT(at, ways) wild_at(HERE, at, ways)

/* ---- a desk in use */

/* Seven rooms hold ten places, with lists; two areas of a room touch, and stretches have words to spare; two places are free. */
static void used_desk(void) {
  enum { MARGIN = 8 };
  const uint64_t io[5] = {1, 2, 3, VALUE_MOST, 5};
  even_desk();
  for (uint64_t room = 0; room < 7; room++) {
    uint64_t at = even_area(room, 0) + MARGIN;
    const uint64_t tables[8] = {at + 100, 20, at + 50, 0, at + 10, 40, at + 50, 50};
    OPEN_LISTS(told(OPENED, room), room, at, LOAD - MARGIN, io, room % 6, tables, 2 * (room % 5));
  }
  for (uint64_t room = 0; room < 3; room++)
    OPEN(told(OPENED, 7 + room), room, even_area(room, 1), LOAD);
}

void test_wild_numbers(void) {
  enum { FOUR_TABLES = 4, MET_LEAST = 1000 }; /* place 4 has four tables */
  used_desk();
  SOUND_IS(true);
  for (uint64_t i = 0; i < PLACES_AT; i++)
    WILD_AT(i, WILDS);
  for (uint64_t place = 0; place < PLACES; place++)
    for (uint64_t i = 0; i < IO_AT; i++)
      WILD_AT(place_at(place) + i, WILDS);
  for (uint64_t i = IO_AT; i < PLACE_WORDS; i++)
    WILD_AT(place_at(FOUR_TABLES) + i, WILDS);
  CHECK(met_sound > MET_LEAST);
  CHECK(met_unsound > MET_LEAST);
}

/* ---- one load, at place 0: 400 words of room 2 */

enum { ONE_ROOM = 2, ONE_SIZE = 400 };

/* Of tables of two words each one after another, some are empty. */
static void open_one(uint64_t io_len, uint64_t pairs, uint64_t from, bool some_empty) {
  uint64_t io[ENTRIES_MOST] = {0}, tables[PAIRS_MOST], at = even_stretch(ONE_ROOM);
  for (uint64_t i = 0; i < ENTRIES_MOST; i++) {
    tables[2 * i] = at + from + 2 * i;
    tables[2 * i + 1] = some_empty && i % 4 == 0 ? 0 : 2;
  }
  even_desk();
  OPEN_LISTS(told(OPENED, 0), ONE_ROOM, at, ONE_SIZE, io, io_len, tables, pairs);
}

/* Stage numbers that are in range whatever is due. */
static void set_stage(uint64_t *place, uint64_t due) {
  const uint64_t stage[STAGE_WORDS] = {due, 5, 4, due == DUE_ENTRIES ? 0 : 3, 2, 300, 100, ONE_SIZE, 0};
  memcpy(place + STAGE_AT, stage, sizeof stage);
}

static void wild_stage(uint64_t due, bool few) {
  unsigned ways = due == DUE_TABLE_GROUP ? WILDS : FEW_WILDS;
  open_one(few ? 5 : ENTRIES_MOST, few ? 8 : PAIRS_MOST, 11, true);
  set_stage(desk + PLACES_AT, due);
  SOUND_IS(true);
  for (uint64_t i = STAGE_AT; i < STAGE_AT + STAGE_WORDS; i++)
    WILD_AT(PLACES_AT + i, FEW_WILDS);
  for (uint64_t table = 0; table < 12; table++) { /* the count of a section of this table, empty or not */
    desk[PLACES_AT + NUMBER_AT] = table;
    WILD_AT(PLACES_AT + COUNT_AT, FEW_WILDS);
  }
  set_stage(desk + PLACES_AT, due);
  for (uint64_t i = IO_COUNT_AT; i <= KEPT_COUNT_AT; i++)
    WILD_AT(PLACES_AT + i, FEW_WILDS);
  for (uint64_t i = 0; i < 6; i++) {
    WILD_AT(PLACES_AT + RANKS_AT + i, ways);
    WILD_AT(PLACES_AT + KEPT_AT + i, ways);
  }
  RELEASE(told(RELEASED, 0), ONE_ROOM, 0); /* a load at any stage is released */
}

/* Each stage in which a load can be, and its numbers made wild. */
void test_wild_stages(void) {
  for (uint64_t due = DUE_LABEL; due <= LOAD_BROKEN + 1; due++) {
    wild_stage(due, false);
    wild_stage(due, true);
  }
}

/* The block of the entries is one that there is: two words for each I/O reference and three for each table, 254 to a block. */
void test_wild_blocks(void) {
  const uint64_t ios[] = {0, 1, 63, 64, 126, 127, ENTRIES_MOST};
  uint64_t *place;
  even_desk();
  OPEN(told(OPENED, 0), ONE_ROOM, even_stretch(ONE_ROOM), ONE_SIZE);
  place = desk + PLACES_AT;
  place[DUE_AT] = DUE_ENTRIES;
  for (unsigned i = 0; i < sizeof ios / sizeof ios[0]; i++)
    for (uint64_t tables = 0; tables <= ENTRIES_MOST; tables++)
      for (uint64_t block = 0; block < 4; block++) {
        place[IO_COUNT_AT] = ios[i];
        place[TABLE_COUNT_AT] = tables;
        place[NUMBER_AT] = block;
        SOUND_IS(WORDS_BETWEEN * block < IO_ENTRY_WORDS * ios[i] + CORE_ENTRY_WORDS * tables);
      }
}

/* Kept tables fill their numbers of the desk, and a count of one more would take in what follows. */
void test_wild_kept(void) {
  uint64_t *place, after = even_stretch(ONE_ROOM) + 376;
  open_one(0, PAIRS_MOST, 0, false);
  place = desk + PLACES_AT;
  place[RANKS_AT] = kept_table(after, 0, ONE_SIZE - 376); /* a table in the area, after the others */
  SOUND_IS(true);
  place[KEPT_COUNT_AT] = ENTRIES_MOST + 1;
  SOUND_IS(false);
}

/* ---- holders and areas, in places that have nothing else to be found fault with */

enum { SMALL = 40 };

static void hold(uint64_t place, uint64_t holder, uint64_t area, uint64_t size) {
  uint64_t *numbers = desk + place_at(place);
  memset(numbers, 0, (OWN_WORDS + STAGE_WORDS) * sizeof *numbers);
  numbers[HOLDER_AT] = holder;
  numbers[AREA_AT] = area;
  numbers[SIZE_AT] = size;
}

/* The areas of one room's two places, in any two places: touching, or sharing a word. */
void test_wild_areas(void) {
  const uint64_t room = 5, at = even_stretch(room) + SMALL;
  for (uint64_t one = 0; one < PLACES; one++)
    for (uint64_t other = 0; other < PLACES; other++) {
      if (one == other)
        continue;
      even_desk();
      hold(one, room + 1, at, SMALL);
      hold(other, room + 1, at + SMALL, SMALL);
      SOUND_IS(true);
      hold(one, room + 1, at, SMALL + 1);
      SOUND_IS(false);
      hold(one, room + 1, at, SMALL);
      hold(other, room + 1, at + SMALL - 1, SMALL);
      SOUND_IS(false);
    }
}

static void holders_are(const uint64_t *holders) {
  uint64_t taken[ROOMS + 1] = {0};
  for (uint64_t place = 0; place < PLACES; place++) {
    uint64_t holder = holders[place];
    if (holder == 0)
      hold(place, 0, 0, 0);
    else
      hold(place, holder, even_stretch(holder - 1) + SMALL * taken[holder]++, SMALL);
  }
}

static void shuffle(uint64_t *holders) {
  for (uint64_t place = PLACES - 1; place > 0; place--) {
    uint64_t other = below(place + 1), holder = holders[place];
    holders[place] = holders[other];
    holders[other] = holder;
  }
}

/* Who holds the places, as calls would leave it or not: every number of rooms that hold two and one, F at least H or not, in
   places and rooms at random; then the same with one holder changed, so that some rooms hold three. */
void test_wild_holders(void) {
  enum { TURNS = 16 };
  even_desk();
  for (uint64_t two = 0; two <= PLACES / 2; two++)
    for (uint64_t one = 0; two + one <= ROOMS && 2 * two + one <= PLACES; one++)
      for (int turn = 0; turn < TURNS; turn++) {
        uint64_t holders[PLACES] = {0}, count = 0, first = below(ROOMS);
        for (uint64_t i = 0; i < two + one; i++)
          for (int twice = i < two; twice >= 0; twice--)
            holders[count++] = (first + 3 * i) % ROOMS + 1;
        shuffle(holders);
        holders_are(holders);
        SOUND_IS(PLACES - 2 * two - one >= ROOMS - two - one);
        uint64_t *changed = &holders[below(PLACES)];
        *changed = below(ROOMS + 1);
        holders_are(holders);
        MET_RIGHT();
      }
}

/* ---- desks at random */

void test_random_desks(void) {
  enum { STEPS = 200, WITH_LENGTH = 64, WITH_MAP = 128 };
  lend_desk(DESK_WORDS);
  lend_core(EVEN_CORE);
  for (int step = 0; step < STEPS; step++) {
    for (uint64_t i = 0; i < DESK_WORDS; i++)
      desk[i] = any() >> step % 64;
    fill_core();
    if (step >= WITH_LENGTH) /* and with as much right as brings the test further in: the core length, then the map */
      desk[CORE_LENGTH_AT] = EVEN_CORE;
    for (uint64_t room = 0; step >= WITH_MAP && room < ROOMS; room++) {
      desk[stretch_at(room)] = even_stretch(room);
      desk[stretch_at(room) + 1] = STRETCH;
    }
    CHECK(!is_sound(desk));
    uint64_t size = 1 + below(64), area = below(EVEN_CORE), room = below(ROOMS);
    OPEN(REFUSED(DESK), room, area, size);
    uint64_t place = below(PLACES);
    RELEASE(REFUSED(DESK), below(ROOMS), place);
  }
}
