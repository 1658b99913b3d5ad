/* open.c: tests of open: the order of its refusals, rooms and areas. */

#include "desk.h"

/* Room 4 holds none, or two, or one while four others hold two (F = 3 = H). Gives the next place. */
enum { HOLDS_NONE, HOLDS_TWO, HOLDS_ONE, HOLDS_WAYS };

static uint64_t room_4_holds(int way) {
  uint64_t next = 0;
  even_desk();
  if (way == HOLDS_TWO)
    for (; next < HELD_MOST; next++)
      OPEN(told(OPENED, next), 4, even_area(4, next), 10);
  if (way == HOLDS_ONE) {
    for (uint64_t room = 0; room < 4; room++)
      for (uint64_t load = 0; load < HELD_MOST; load++, next++)
        OPEN(told(OPENED, next), room, even_area(room, load), 10);
    OPEN(told(OPENED, next), 4, even_area(4, 0), 10);
    next++;
  }
  return next;
}

void test_open_order(void) {
  enum { BAD_DESK = 1, BAD_CORE = 2, BAD_ROOM = 4, BAD_AREA = 8, BAD_LIST = 16, ALL = 32 };
  const uint64_t over[1] = {VALUE_MOST + 1};
  for (int faults = 0; faults < ALL; faults++)
    for (int way = HOLDS_NONE; way < HOLDS_WAYS; way++) {
      uint64_t next = room_4_holds(way);
      if (faults & BAD_DESK)
        desk[place_at(PLACES - 1) + HOLDER_AT] = ROOMS + 1;
      if (faults & BAD_CORE)
        lend_core(EVEN_CORE - 1);
      uint64_t want = faults & BAD_DESK   ? REFUSED(DESK)
                      : faults & BAD_CORE ? REFUSED(CORE_LENGTH)
                      : faults & BAD_ROOM ? REFUSED(ROOM)
                      : way == HOLDS_TWO  ? REFUSED(HOLDS_TWO)
                      : way == HOLDS_ONE  ? REFUSED(HOLDS_ONE)
                      : faults & BAD_AREA ? REFUSED(AREA)
                      : faults & BAD_LIST ? REFUSED(LISTS)
                                          : told(OPENED, next);
      OPEN_IO(want, faults & BAD_ROOM ? ROOMS : 4, even_area(4, 2), faults & BAD_AREA ? 0 : 10, over, faults & BAD_LIST ? 1 : 0);
    }
}

void test_open_core_length(void) {
  even_desk();
  OPEN(told(OPENED, 0), 0, 0, 8);
  for (int i = 0; i < OTHER_LENGTHS; i++) {
    lend_core(other_lengths[i]);
    fill_core();
    OPEN(REFUSED(CORE_LENGTH), 0, 8, 8);
  }
  whole_desk(CORE_MOST);
  lend_core(CORE_MOST - 1);
  OPEN(REFUSED(CORE_LENGTH), 0, 8, 8);
  lend_core(CORE_MOST + 1);
  OPEN(REFUSED(CORE_LENGTH), 0, 8, 8);
  lend_core(CORE_MOST);
  OPEN(told(OPENED, 0), 0, 8, 8);
  whole_desk(1);
  OPEN(REFUSED(AREA), 0, 1, 1);
  OPEN(REFUSED(AREA), 0, 0, 2);
  OPEN(told(OPENED, 0), 0, 0, 1);
}

void test_open_rooms(void) {
  even_desk();
  for (uint64_t room = 0; room < ROOMS; room++)
    OPEN(told(OPENED, room), room, even_stretch(room), 8);
  for (uint64_t room = ROOMS; room < ROOMS + PLACES; room++)
    OPEN(REFUSED(ROOM), room, 8, 8);
  for (int i = 0; i < TOPS; i++)
    OPEN(REFUSED(ROOM), tops[i], 8, 8);
  for (uint64_t room = 0; room < ROOMS; room++) /* a room's number, and more in the bits above */
    OPEN(REFUSED(ROOM), room + bit_at(32), even_stretch(room) + 8, 8);
}

/* ---- areas */

/* Opened at place 0, and released. */
static void fits(const char *from, uint64_t room, uint64_t area, uint64_t size) {
  open_is(from, told(OPENED, 0), room, area, size, NULL, 0, NULL, 0);
  release_is(from, told(RELEASED, 0), core_len, room, 0);
}

void test_open_areas(void) {
  even_desk();
  for (uint64_t room = 0; room < ROOMS; room++) {
    uint64_t at = even_stretch(room), end = at + STRETCH;
    OPEN(REFUSED(AREA), room, at, 0); /* empty, also at the stretch's end */
    OPEN(REFUSED(AREA), room, end, 0);
    OPEN(REFUSED(AREA), room, at, STRETCH + 1); /* one past, at either end, and wholly outside */
    OPEN(REFUSED(AREA), room, at + 1, STRETCH);
    OPEN(REFUSED(AREA), room, end, 1);
    OPEN(REFUSED(AREA), room, at - 1, 2);
    OPEN(REFUSED(AREA), room, at - 1, 1);
    OPEN(REFUSED(AREA), room, (end + STRETCH) % EVEN_CORE, 4);
    for (int i = 0; i < TOPS; i++) {
      OPEN(REFUSED(AREA), room, tops[i], 1);
      OPEN(REFUSED(AREA), room, at, tops[i]);
      OPEN(REFUSED(AREA), room, at + 5, tops[i]); /* the sum wraps into the stretch */
      OPEN(REFUSED(AREA), room, tops[i], at + 9 - tops[i]);
      OPEN(REFUSED(AREA), room, tops[i], tops[i]);
    }
    fits(HERE, room, at, STRETCH); /* just the stretch; its first word; its last */
    fits(HERE, room, at, 1);
    fits(HERE, room, end - 1, 1);
  }
  /* a room with an empty stretch can have no area */
  whole_desk(EVEN_CORE);
  OPEN(REFUSED(AREA), 1, 0, 1);
  OPEN(REFUSED(AREA), 1, 0, 0);
  OPEN(told(OPENED, 0), 0, EVEN_CORE - 1, 1);
}

/* Beside an area of 50 words that the room holds. */
void test_open_beside(void) {
  const uint64_t room = 2, stretch = even_stretch(room), at = stretch + 76, size = 50, end = at + size;
  even_desk();
  OPEN(told(OPENED, 0), room, at, size);
  OPEN(REFUSED(AREA), room, end - 1, 10); /* shares the last word, the first, all, some */
  OPEN(REFUSED(AREA), room, at - 10, 11);
  OPEN(REFUSED(AREA), room, at, size);
  OPEN(REFUSED(AREA), room, at + 20, 1);
  OPEN(REFUSED(AREA), room, stretch, STRETCH);
  OPEN(told(OPENED, 1), room, end, 10); /* touches its end */
  RELEASE(told(RELEASED, 0), room, 1);
  OPEN(told(OPENED, 1), room, at - 10, 10); /* and its start */
  OPEN(REFUSED(HOLDS_TWO), room, end + 250, 10);
  RELEASE(told(RELEASED, 0), room, 0);
  OPEN(REFUSED(AREA), room, at - 1, 1); /* the one that is left is still looked at, and the other's area is free */
  OPEN(told(OPENED, 0), room, at, size);
  /* stretches that touch: areas of two rooms may, too */
  OPEN(told(OPENED, 2), 1, even_stretch(2) - 24, 24);
  OPEN(told(OPENED, 3), 0, even_stretch(1) - 1, 1);
  OPEN(told(OPENED, 4), 1, even_stretch(1), 1);
}
