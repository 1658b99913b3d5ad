/* release.c: tests of release. */

#include "desk.h"

void test_release_order(void) {
  enum { BAD_DESK = 1, BAD_CORE = 2, BAD_ROOM = 4, BAD_PLACE = 8, ALL = 16 };
  for (int faults = 0; faults < ALL; faults++) {
    even_desk();
    OPEN(told(OPENED, 0), 4, even_stretch(4), 10);
    if (faults & BAD_DESK)
      desk[CORE_LENGTH_AT] = CORE_MOST + 1;
    uint64_t want = faults & BAD_DESK    ? REFUSED(DESK)
                    : faults & BAD_CORE  ? REFUSED(CORE_LENGTH)
                    : faults & BAD_ROOM  ? REFUSED(ROOM)
                    : faults & BAD_PLACE ? REFUSED(PLACE)
                                         : told(RELEASED, 0);
    RELEASE_LENGTH(want, faults & BAD_CORE ? EVEN_CORE - 1 : EVEN_CORE, faults & BAD_ROOM ? ROOMS : 4, faults & BAD_PLACE ? 1 : 0);
  }
}

/* ---- all places held: by each room one, and by rooms 0 to 3 a second */

static uint64_t holder_of(uint64_t place) {
  return place % ROOMS;
}

static void open_all(uint64_t size) {
  for (uint64_t place = 0; place < PLACES; place++)
    OPEN(told(OPENED, place), holder_of(place), even_area(holder_of(place), place / ROOMS), size);
}

static void no_place_is_held(void) {
  for (uint64_t place = 0; place < PLACES + 2; place++)
    for (uint64_t room = 0; room < ROOMS; room++)
      RELEASE(REFUSED(PLACE), room, place);
}

static void wrong_places(void) {
  for (uint64_t place = 0; place < PLACES; place++)
    for (uint64_t room = 0; room < ROOMS; room++)
      if (room != holder_of(place))
        RELEASE(REFUSED(PLACE), room, place); /* another room's */
  for (uint64_t room = 0; room < ROOMS; room++) {
    RELEASE(REFUSED(PLACE), room, PLACES);
    RELEASE(REFUSED(PLACE), room, PLACES + 1);
    for (int i = 0; i < TOPS; i++)
      RELEASE(REFUSED(PLACE), room, tops[i]);
    RELEASE(REFUSED(PLACE), room, room + bit_at(32));
    RELEASE(REFUSED(PLACE), room, room + bit_at(63));
  }
}

static void wrong_rooms_and_lengths(void) {
  for (uint64_t room = ROOMS; room < ROOMS + PLACES; room++)
    RELEASE(REFUSED(ROOM), room, 0);
  for (int i = 0; i < TOPS; i++) {
    RELEASE(REFUSED(ROOM), tops[i], 0);
    RELEASE(REFUSED(ROOM), tops[i], tops[i]);
    RELEASE_LENGTH(REFUSED(CORE_LENGTH), tops[i], 0, 0);
  }
  for (int i = 0; i < OTHER_LENGTHS; i++)
    RELEASE_LENGTH(REFUSED(CORE_LENGTH), other_lengths[i], 0, 0);
}

/* The place is released, and then it is free. */
static void released_once(uint64_t place) {
  RELEASE(told(RELEASED, 0), holder_of(place), place);
  RELEASE(REFUSED(PLACE), holder_of(place), place);
}

void test_release_edges(void) {
  even_desk();
  no_place_is_held();
  open_all(20);
  wrong_places();
  wrong_rooms_and_lengths();
  released_once(PLACES - 1);
  for (uint64_t place = 0; place < PLACES - 1; place++)
    released_once(place);
}

/* A released place and area serve again; the place given is the lowest that is free. */
void test_release_again(void) {
  even_desk();
  open_all(LOAD);
  for (uint64_t room = 0; room < ROOMS; room++)
    OPEN(room < PLACES - ROOMS ? REFUSED(HOLDS_TWO) : REFUSED(HOLDS_ONE), room, even_area(room, 2), LOAD);
  for (uint64_t place = 0; place < PLACES; place++) {
    uint64_t room = holder_of(place);
    RELEASE(told(RELEASED, 0), room, place);
    fill_core();
    OPEN(told(OPENED, place), room, even_area(room, place / ROOMS), LOAD);
  }
  RELEASE(told(RELEASED, 0), 1, 9);
  RELEASE(told(RELEASED, 0), 2, 2);
  RELEASE(told(RELEASED, 0), 3, 3);
  OPEN(told(OPENED, 2), 4, even_area(4, 1), LOAD);
  OPEN(told(OPENED, 3), 3, even_area(3, 0), LOAD);
  OPEN(told(OPENED, 9), 5, even_area(5, 2), LOAD);
  RELEASE(told(RELEASED, 0), 5, 9);
  RELEASE(told(RELEASED, 0), 0, 0);
  OPEN(told(OPENED, 0), 7, even_area(7, 2), LOAD);
  OPEN(told(OPENED, 9), 6, even_area(6, 2), LOAD);
}
