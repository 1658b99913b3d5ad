/* rules.h: the limits, answers and refusals of document 01 ("01") by name. How a desk and a block are laid out is said in
   desk_layout.h and block_layout.h. */

#ifndef RULES_H
#define RULES_H

#include <stdbool.h>
#include <stdint.h>

/* ---- limits */

enum {
  ROOMS = 8,                     /* 0 to 7 */
  PLACES = 12,                   /* 0 to 11 */
  HELD_MOST = 2,                 /* places that a room may hold */
  CORE_MOST = 65536,             /* words of a core */
  MAP_LENGTH = 2 * ROOMS,        /* start and length of each room's stretch */
  ENTRIES_MOST = 128,            /* I/O numbers, and as many core tables */
  PAIRS_MOST = 2 * ENTRIES_MOST, /* numbers of a list of tables: address and length of each */
  VALUE_MOST = 65535,            /* a field of 16 bits, and an I/O number */
  CHANNELS_MOST = 16,            /* entries of types 0 and 2 together */
  CHANNEL_MOST = 15,             /* the number assigned to one of these */
  WORDS_IN_BLOCK = 256,
  BITS_IN_WORD = 36
};

/* ---- answers: code * 2^32 + value. A code is a refusal's number or one of these (docs/ANSWERS.md). */

enum { MADE = 64, OPENED = 65, MORE = 66, DONE = 67, RELEASED = 68, RESEALED = 72 };

enum {
  REFUSED_DESK = 1,         /* not of its length, or not sound */
  REFUSED_CORE_LENGTH = 2,  /* 0, over 65,536, or not the desk's */
  REFUSED_MAP = 3,          /* not eight pairs, or breaking its rule */
  REFUSED_ROOM = 4,         /* over 7 */
  REFUSED_HOLDS_TWO = 5,    /* open: the room holds two */
  REFUSED_HOLDS_ONE = 6,    /* open: the room holds one, and F is not greater than H */
  REFUSED_AREA = 7,         /* empty, not inside the stretch, or sharing a word */
  REFUSED_LISTS = 8,        /* open: a list is too long or has a wrong number or table */
  REFUSED_PLACE = 9,        /* over 11, free, or another room's */
  REFUSED_ENDED = 10,       /* feed: the load is complete or broken */
  REFUSED_BLOCK = 11,       /* not 256 words, or a word of 2^36 or more */
  REFUSED_CHECKSUM = 12,    /* the last one that changes nothing */
  REFUSED_RECORD = 13,      /* block of the wrong record; from here on the load is broken */
  REFUSED_TYPE_FLAG = 14,   /* not 001 */
  REFUSED_LABEL = 15,       /* label fault */
  REFUSED_ASSIGNMENTS = 16, /* they don't fit the file */
  REFUSED_SECTION = 17,     /* section fault */
  REFUSED_GROUP = 18,       /* group fault */
  REFUSED_FORM = 19,        /* modification type not carried, or field form wrong */
  REFUSED_REFERENCE = 20,   /* no such reference */
  REFUSED_VALUE = 21,       /* outside 0 to 65,535 */
  REFUSED_START = 22        /* not in the IBANK; those of a facility book stand in book_rules.h */
};

/* The whole answer. */
static inline uint64_t told(uint64_t code, uint64_t value) {
  return code << 32 | value;
}

/* Where a fault is, the value of refusals 13 to 22 (request #105): "the word number times 4, plus 1 for a left half, 2 for a right
   half, 0 otherwise". The word is counted in its block. */
enum { NO_HALF = 0, LEFT_HALF = 1, RIGHT_HALF = 2, HALVES = 3 };

static inline uint64_t where(uint64_t word, unsigned half) {
  return 4 * word + half;
}

/* "Refusals 1 to 12 still return 0" (#105): REFUSED(AREA) is the answer of refusal 7. REFUSED_AT(START, 1) is that of refusal 22,
   which is at word 1. */
#define REFUSED(why) told(REFUSED_##why, 0)
#define REFUSED_AT(why, word) told(REFUSED_##why, where(word, NO_HALF))

/* "Refusals 1 to 12 change nothing." */
static inline bool changes_nothing(uint64_t code) {
  return code <= REFUSED_CHECKSUM;
}

static inline bool tells_where(uint64_t code) {
  return REFUSED_RECORD <= code && code <= REFUSED_START;
}

#endif
