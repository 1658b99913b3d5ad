/* block_layout.h: where the words of a block stand, and the numbers in them that document 01 gives a meaning. The reader has its
   own, so that a slip here is seen. */

#ifndef BLOCK_LAYOUT_H
#define BLOCK_LAYOUT_H

#include "bits.h"
#include "rules.h"

/* ---- blocks other than the label: an identifier, words 1 to 254, and the checksum */

#define MODRC UINT64_C(0502224112710)
#define PRORC UINT64_C(0502527242710)
#define TRMRC UINT64_C(0503127222710)

enum { IDENTIFIER_WORD = 0, FIRST_WORD = 1, LAST_WORD = 254, CHECKSUM_WORD = 255, WORDS_BETWEEN = LAST_WORD - FIRST_WORD + 1 };

/* ---- the label */

enum {
  NAME_WORD = 0, /* two words */
  TYPE_FLAG_WORD = 2,
  COUNTS_WORD = 3,
  TABLES_WORD = 4, /* and those after it, one for each table */
  SECTIONS_WORD = 253,
  LABEL_CHECKSUM_WORD = 254,
  NAME_AGAIN_WORD = 255,

  NAME_CHARACTERS = 12,
  CHARACTERS_IN_WORD = 6,
  CHARACTER_BITS = 6,
  DIRECT_ROC = 1 /* the type flag */
};

/* Table types. */
enum { TYPE_JUMP_SWITCH = 0, TYPE_CHANNEL = 2, TYPE_UNIT = 3, TYPE_CORE = 12, TYPES = 16, TYPES_CARRIED = 4 };

/* Fieldata. */
enum {
  SPACE = 005,
  FIRST_LETTER = 006,
  LAST_LETTER = 037,
  HYPHEN = 041,
  ASTERISK = 050,
  FIRST_DIGIT = 060,
  LAST_DIGIT = 071,
  LETTERS = LAST_LETTER - FIRST_LETTER + 1,
  DIGITS = LAST_DIGIT - FIRST_DIGIT + 1
};

/* ---- entries, sections and groups */

enum {
  IO_ENTRY_WORDS = 2,
  CORE_ENTRY_WORDS = 3,
  SEGMENT_WORDS = 4,
  KIND_TABLE_SECTION = 1, /* an identifier's bits 35-34 */
  KIND_GROUP = 2
};

/* How many modification blocks a file has. */
static inline uint64_t entry_blocks(uint64_t io, uint64_t tables) {
  return (IO_ENTRY_WORDS * io + CORE_ENTRY_WORDS * tables + WORDS_BETWEEN - 1) / WORDS_BETWEEN;
}

/* ---- indicators and fields */

/* Modification types. */
enum { CHANGE_AREA = 0, CHANGE_PAIR = 1, CHANGE_TABLE = 2, CHANGE_CHANNEL = 4, CHANGE_UNIT = 7, MODIFICATION_TYPES = 8 };

/* How many bits an indicator has: for no change; with its type; and with nine more in the long form of type 010. */
enum { PLAIN_BITS = 1, CHANGE_BITS = 4, LONG_MORE_BITS = 9, LONG_BITS = CHANGE_BITS + LONG_MORE_BITS };

/* The constants of type 010. */
enum { SHORT_MOST = 63, LONG_LEAST = 64, LONG_MOST = 16383 };

/* How many words so many indicator bits need. */
static inline unsigned indicator_words(unsigned bits) {
  return (bits + BITS_IN_WORD - 1) / BITS_IN_WORD;
}

#endif
