/* grants.c: who is given a place. F places are free, and H rooms hold none. */

#include "desk.h"

/* The morning: room 0 asks until it is refused, and gets two; the others still get theirs. */
static void room_0_first(void) {
  even_desk();
  OPEN(told(OPENED, 0), 0, even_area(0, 0), 10);
  OPEN(told(OPENED, 1), 0, even_area(0, 1), 10);
  OPEN(REFUSED(HOLDS_TWO), 0, even_area(0, 2), 10);
  for (uint64_t room = 1; room < ROOMS; room++)
    OPEN(told(OPENED, room + 1), room, even_area(room, 0), 10);
  /* every room holds one and room 0 two: F = 3, H = 0, so three more */
  OPEN(told(OPENED, 9), 7, even_area(7, 1), 10);
  OPEN(told(OPENED, 10), 1, even_area(1, 1), 10);
  OPEN(told(OPENED, 11), 4, even_area(4, 1), 10);
  for (uint64_t room = 0; room < ROOMS; room++) {
    bool holds_two = room == 0 || room == 1 || room == 4 || room == 7;
    OPEN(holds_two ? REFUSED(HOLDS_TWO) : REFUSED(HOLDS_ONE), room, even_area(room, 2), 10);
  }
}

/* Greedy rooms: four get two each; from then on one each, so that none is left without. */
static void greedy_rooms(void) {
  even_desk();
  for (uint64_t room = 0; room < 4; room++) {
    OPEN(told(OPENED, 2 * room), room, even_area(room, 0), 10);
    OPEN(told(OPENED, 2 * room + 1), room, even_area(room, 1), 10);
    OPEN(REFUSED(HOLDS_TWO), room, even_area(room, 2), 10);
  }
  for (uint64_t room = 4; room < ROOMS; room++) {
    OPEN(told(OPENED, 4 + room), room, even_area(room, 0), 10);
    OPEN(REFUSED(HOLDS_ONE), room, even_area(room, 1), 10);
  }
}

void test_morning(void) {
  room_0_first();
  greedy_rooms();
}

/* ---- every number of rooms that hold two, one and none, given in eight ways to the rooms: each room asks once */

/* The rooms in one of these orders. */
static uint64_t in_order(int turn, int which) {
  return (uint64_t)(3 * which + turn) % ROOMS;
}

static void each_asks(int two, int one, int turn) {
  int free = PLACES - 2 * two - one, idle = ROOMS - two - one;
  uint64_t next = 0, room;
  if (free < idle)
    return;
  even_desk();
  for (int i = 0; i < two + one; i++, next++) {
    room = in_order(turn, i);
    OPEN(told(OPENED, next), room, even_area(room, 0), 10);
  }
  for (int i = 0; i < two; i++, next++) {
    room = in_order(turn, i);
    OPEN(told(OPENED, next), room, even_area(room, 1), 10);
  }
  for (int i = 0; i < ROOMS; i++) {
    uint64_t want = i < two ? REFUSED(HOLDS_TWO) : i < two + one && free <= idle ? REFUSED(HOLDS_ONE) : told(OPENED, next);
    room = in_order(turn, i);
    if (OPEN(want, room, even_area(room, 2), 10) && CLAMP_CODE(want) == OPENED)
      RELEASE(told(RELEASED, 0), room, next);
  }
}

void test_who_is_next(void) {
  for (int two = 0; two <= ROOMS; two++)
    for (int one = 0; two + one <= ROOMS; one++)
      for (int turn = 0; turn < ROOMS; turn++)
        each_asks(two, one, turn);
}

/* ---- a long day at random, against the rules kept in a few variables: F and H are counted from grants and releases */

enum { NOBODY = ROOMS, STEPS = 4000, OPENS_LEAST = 500 };

struct day {
  struct {
    uint64_t room, at, size; /* NOBODY: the place is free */
  } held[PLACES];
  int holds[ROOMS], free, idle, opens;
};

/* Room or any other releases a place or what is none; half the time it is the holder that does. */
static void day_release(struct day *day, uint64_t room) {
  uint64_t place = below(PLACES + 1), holder = place < PLACES ? day->held[place].room : NOBODY;
  if (holder != NOBODY && below(2))
    room = holder;
  RELEASE(room == holder ? told(RELEASED, 0) : REFUSED(PLACE), room, place);
  if (room != holder)
    return;
  day->held[place].room = NOBODY;
  day->free++;
  day->idle += --day->holds[room] == 0;
}

/* The lowest free place, or PLACES. */
static uint64_t lowest_free(const struct day *day) {
  uint64_t place = 0;
  while (place < PLACES && day->held[place].room != NOBODY)
    place++;
  return place;
}

static bool day_area_fits(const struct day *day, uint64_t room, uint64_t at, uint64_t size) {
  if (size == 0 || !inside(at, size, even_stretch(room), STRETCH))
    return false;
  for (int place = 0; place < PLACES; place++)
    if (day->held[place].room == room && !apart(at, size, day->held[place].at, day->held[place].size))
      return false;
  return true;
}

static void day_open(struct day *day, uint64_t room, uint64_t at, uint64_t size) {
  uint64_t lowest = lowest_free(day);
  uint64_t want = day->holds[room] == HELD_MOST                     ? REFUSED(HOLDS_TWO)
                  : day->holds[room] == 1 && day->free <= day->idle ? REFUSED(HOLDS_ONE)
                  : !day_area_fits(day, room, at, size)             ? REFUSED(AREA)
                                                                    : told(OPENED, lowest);
  uint64_t io[4] = {below(VALUE_MOST + 1), below(VALUE_MOST + 1), below(VALUE_MOST + 1), below(VALUE_MOST + 1)};
  uint64_t tables[4] = {at + size / 2, size - size / 2, at, size / 2}, pairs = below(3), io_len = below(5);
  OPEN_LISTS(want, room, at, size, io, io_len, tables, 2 * pairs);
  if (CLAMP_CODE(want) != OPENED)
    return;
  day->held[lowest].room = room;
  day->held[lowest].at = at;
  day->held[lowest].size = size;
  day->free--;
  day->idle -= day->holds[room]++ == 0;
  day->opens++;
}

void test_long_day(void) {
  struct day day = {.free = PLACES, .idle = ROOMS};
  for (int place = 0; place < PLACES; place++)
    day.held[place].room = NOBODY;
  even_desk();
  for (int step = 0; step < STEPS; step++) {
    uint64_t room = below(ROOMS), at = even_stretch(room) + below(STRETCH + 8), size = below(7) ? below(100) : below(STRETCH + 88);
    if (below(5) < 2) {
      day_release(&day, room);
      continue;
    }
    day_open(&day, room, at, size);
    if (step % 16 == 0)
      fill_core();
  }
  CHECK(day.opens > OPENS_LEAST);
}
