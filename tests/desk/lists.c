/* lists.c: tests of open's two lists. */

#include "desk.h"

void test_open_io(void) {
  const uint64_t room = 1, at = even_stretch(room), next = at + 8;
  uint64_t io[ENTRIES_MOST + 1];
  for (uint64_t i = 0; i <= ENTRIES_MOST; i++)
    io[i] = i * 511 % (VALUE_MOST + 1);
  for (uint64_t count = 0; count <= ENTRIES_MOST + 1; count++) {
    even_desk();
    OPEN_IO(count <= ENTRIES_MOST ? told(OPENED, 0) : REFUSED(LISTS), 0, 0, 8, io, count);
  }
  for (uint64_t i = 0; i < ENTRIES_MOST; i++) {
    even_desk();
    uint64_t old = io[i];
    io[i] = VALUE_MOST;
    OPEN_IO(told(OPENED, 0), room, at, 8, io, ENTRIES_MOST);
    io[i] = VALUE_MOST + 1;
    OPEN_IO(REFUSED(LISTS), room, next, 8, io, ENTRIES_MOST);
    OPEN_IO(REFUSED(LISTS), room, next, 8, io, i + 1);
    OPEN_IO(told(OPENED, 1), room, next, 8, io, i); /* the wrong number is not lent */
    io[i] = old;
  }
  for (int i = 0; i < TOPS; i++) {
    even_desk();
    io[77] = tops[i];
    OPEN_IO(REFUSED(LISTS), room, next, 8, io, ENTRIES_MOST);
  }
}

/* ---- tables of one area: words 1600 to 1699, of which room 3 has more on either side */

enum { ROOM = 3, AT = 1600, SIZE = 100, END = AT + SIZE, MIDDLE = AT + SIZE / 2 };

/* The list given, in that area. */
#define TABLES(want, ...)                                                                                                          \
  OPEN_PAIRS(want, ROOM, AT, SIZE, ((const uint64_t[]){__VA_ARGS__}), sizeof((const uint64_t[]){__VA_ARGS__}) / sizeof(uint64_t))

static void wrong_tables(void) {
  TABLES(REFUSED(LISTS), MIDDLE);         /* half a pair */
  TABLES(REFUSED(LISTS), AT, 10, MIDDLE); /* a pair and half a pair */
  TABLES(REFUSED(LISTS), AT, SIZE + 1);   /* one past the end */
  TABLES(REFUSED(LISTS), END - 1, 2);
  TABLES(REFUSED(LISTS), END, 1);
  TABLES(REFUSED(LISTS), AT - 1, 1); /* before the area */
  TABLES(REFUSED(LISTS), AT - 1, 5);
  TABLES(REFUSED(LISTS), AT - 1, 0); /* empty, but not inside */
  TABLES(REFUSED(LISTS), END + 1, 0);
  TABLES(REFUSED(LISTS), 0, 0);
  TABLES(REFUSED(LISTS), AT, 10, AT + 9, 10); /* sharing one word */
  TABLES(REFUSED(LISTS), AT + 9, 10, AT, 10);
  TABLES(REFUSED(LISTS), AT, 10, AT, 10);      /* the same */
  TABLES(REFUSED(LISTS), AT, SIZE, MIDDLE, 1); /* one in the other */
  TABLES(REFUSED(LISTS), MIDDLE, 1, AT, SIZE);
  TABLES(REFUSED(LISTS), AT, 1, MIDDLE, 0, AT + 90, 5, AT, 1); /* not neighbours in the list */
  TABLES(REFUSED(LISTS), MIDDLE, 1, AT + 40, 0, MIDDLE, 1);
  for (int i = 0; i < TOPS; i++) {
    TABLES(REFUSED(LISTS), tops[i], 0);
    TABLES(REFUSED(LISTS), tops[i], 1);
    TABLES(REFUSED(LISTS), AT, tops[i]);
    TABLES(REFUSED(LISTS), tops[i], MIDDLE - tops[i]); /* the sum wraps into the area */
    TABLES(REFUSED(LISTS), MIDDLE, tops[i]);
    TABLES(REFUSED(LISTS), AT, 10, AT + 20, 10, tops[i], tops[i]);
  }
  /* low bits that would be right, and more above: as much as a kept table has room for, and past that */
  for (unsigned k = 16; k < 64; k++) {
    TABLES(REFUSED(LISTS), AT + bit_at(k), 4);
    TABLES(REFUSED(LISTS), AT, 4 + bit_at(k));
  }
}

static void right_tables(void) {
  TABLES(told(OPENED, 0), AT, SIZE); /* all of the area */
  RELEASE(told(RELEASED, 0), ROOM, 0);
  TABLES(told(OPENED, 0), END - 1, 1, AT, 1); /* its last word, its first */
  RELEASE(told(RELEASED, 0), ROOM, 0);
  TABLES(told(OPENED, 0), END, 0, AT, 0, AT, SIZE, MIDDLE, 0, MIDDLE, 0); /* empty: at the ends, in another, twice */
  RELEASE(told(RELEASED, 0), ROOM, 0);
  TABLES(told(OPENED, 0), AT + 10, 10, AT, 10, AT + 20, 10); /* touching, in any order */
  RELEASE(told(RELEASED, 0), ROOM, 0);
  TABLES(told(OPENED, 0), MIDDLE, 0, AT + 40, 20, AT + 40, 0, AT + 60, 0, AT + 60, 1); /* empty ones where others start and end */
  RELEASE(told(RELEASED, 0), ROOM, 0);
}

/* ---- as many tables as there can be, of 3 words each in a longer area */

enum { LONG_SIZE = 400, EACH = 3 };

#define MANY(want, pairs, length) OPEN_PAIRS(want, ROOM, AT, LONG_SIZE, pairs, length)

/* 126 tables to 129, falling, with an empty one among every four; and with half a pair. */
static void many_tables(void) {
  uint64_t many[PAIRS_MOST + 2];
  for (uint64_t i = 0; i <= ENTRIES_MOST; i++) {
    many[2 * i] = AT + EACH * (ENTRIES_MOST - i);
    many[2 * i + 1] = i % 4 == 2 ? 0 : EACH;
  }
  for (uint64_t count = ENTRIES_MOST - 2; count <= ENTRIES_MOST + 1; count++) {
    MANY(count <= ENTRIES_MOST ? told(OPENED, 0) : REFUSED(LISTS), many, 2 * count);
    if (count <= ENTRIES_MOST)
      RELEASE(told(RELEASED, 0), ROOM, 0);
    MANY(REFUSED(LISTS), many, 2 * count - 1);
  }
}

/* Any two of all tables that share one word: the first with the last, neighbours, and some between. */
static void two_of_many(void) {
  uint64_t many[PAIRS_MOST];
  for (uint64_t i = 0; i < ENTRIES_MOST; i++) {
    uint64_t other = (i * 37 + 1) % ENTRIES_MOST;
    for (uint64_t k = 0; k < ENTRIES_MOST; k++) {
      many[2 * k] = AT + EACH * ((k * 45 + 7) % ENTRIES_MOST);
      many[2 * k + 1] = EACH;
    }
    if (i == other)
      continue;
    many[2 * i] = many[2 * other] + EACH - 1;
    many[2 * i + 1] = 1;
    MANY(REFUSED(LISTS), many, PAIRS_MOST);
    many[2 * other + 1] = EACH - 1;
    MANY(told(OPENED, 0), many, PAIRS_MOST);
    RELEASE(told(RELEASED, 0), ROOM, 0);
  }
}

void test_open_tables(void) {
  even_desk();
  wrong_tables();
  right_tables();
  many_tables();
  two_of_many();
}

/* The widest numbers that a sound desk can have. */
void test_open_widest(void) {
  const uint64_t io[2] = {0, VALUE_MOST};
  const uint64_t tables[6] = {CORE_MOST, 0, 0, CORE_MOST, 0, 0}, last[4] = {CORE_MOST - 1, 1, CORE_MOST, 0};
  whole_desk(CORE_MOST);
  OPEN_LISTS(told(OPENED, 0), 0, 0, CORE_MOST, io, 2, tables, 6);
  OPEN(REFUSED(AREA), 0, CORE_MOST - 1, 1);
  RELEASE(told(RELEASED, 0), 0, 0);
  OPEN(REFUSED(AREA), 0, 0, CORE_MOST + 1);
  OPEN(REFUSED(AREA), 0, CORE_MOST, 1);
  OPEN_LISTS(told(OPENED, 0), 0, CORE_MOST - 1, 1, io, 1, last, 4);
  OPEN_LISTS(told(OPENED, 1), 0, 0, CORE_MOST - 1, io, 2, NULL, 0);
}
