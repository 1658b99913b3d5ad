/* desk_layout.h: where the numbers of a desk stand. docs/DESK.md draws it and gives the range of each. */

#ifndef DESK_LAYOUT_H
#define DESK_LAYOUT_H

#include "bits.h"
#include "rules.h"

/* ---- a place, from its first number */

enum {
  HOLDER_AT = 0, /* 0: free; r + 1: room r */
  AREA_AT = 1,
  SIZE_AT = 2,
  IO_COUNT_AT = 3,
  TABLE_COUNT_AT = 4,
  KEPT_COUNT_AT = 5, /* the tables that are not empty */
  OWN_WORDS = 6,

  STAGE_AT = OWN_WORDS, /* nine numbers that feed changes: */
  DUE_AT = STAGE_AT,    /* what is due, see below */
  CHANNELS_AT = 7,      /* references of types 0 and 2 */
  SECTIONS_AT = 8,      /* table sections to come */
  NUMBER_AT = 9,        /* by what is due: a block's number or a table's */
  COUNT_AT = 10,        /* by what is due: words of a section; 1 where longer tables are forbidden */
  IBANK_AT = 11,        /* relative address, and the count after it */
  DBANK_AT = 13,
  STAGE_WORDS = 9,

  IO_AT = STAGE_AT + STAGE_WORDS, /* I/O numbers, four to a number */
  IO_IN_ONE = 4,
  IO_BITS = 16,
  IO_WORDS = ENTRIES_MOST / IO_IN_ONE,
  KEPT_AT = IO_AT + IO_WORDS, /* kept tables, rising */
  KEPT_WORDS = ENTRIES_MOST,
  RANKS_AT = KEPT_AT + KEPT_WORDS, /* for each table its rank among these */
  RANK_WORDS = ENTRIES_MOST,
  PLACE_WORDS = RANKS_AT + RANK_WORDS /* 303 */
};

/* What is due; any number over LOAD_COMPLETE is a broken load. */
enum {
  DUE_LABEL,
  DUE_ENTRIES,
  DUE_SEGMENT,
  DUE_SEGMENT_GROUP,
  DUE_TABLE_SECTION,
  DUE_TABLE_GROUP,
  DUE_TERMINATION,
  LOAD_COMPLETE,
  LOAD_BROKEN
};

/* ---- the desk */

enum {
  CORE_LENGTH_AT = 0,
  MAP_AT = 1,
  PLACES_AT = MAP_AT + MAP_LENGTH,              /* 17 */
  DESK_WORDS = PLACES_AT + PLACES * PLACE_WORDS /* 3,653 */
};

/* Where a place begins, and a room's stretch: its start, and its length after it. */
static inline uint64_t place_at(uint64_t place) {
  return PLACES_AT + place * PLACE_WORDS;
}

static inline uint64_t stretch_at(uint64_t room) {
  return MAP_AT + 2 * room;
}

/* ---- numbers that hold more than one */

/* I/O number k of a place. */
static inline uint64_t io_number(const uint64_t *place, uint64_t k) {
  return part(place[IO_AT + k / IO_IN_ONE] >> IO_BITS * (k % IO_IN_ONE), IO_BITS - 1, 0);
}

/* A kept table. */
static inline uint64_t kept_table(uint64_t address, uint64_t number, uint64_t length) {
  return address << 40 | number << 20 | length;
}

static inline uint64_t kept_address(uint64_t kept) {
  return part(kept, 63, 40);
}

static inline uint64_t kept_number(uint64_t kept) {
  return part(kept, 39, 20);
}

static inline uint64_t kept_length(uint64_t kept) {
  return part(kept, 19, 0);
}

/* A table's rank, and its address where it is empty. */
static inline uint64_t rank_of(uint64_t number) {
  return part(number, 19, 0);
}

static inline uint64_t rank_address(uint64_t number) {
  return part(number, 63, 20);
}

#endif
