/* generate.h: program files by chance, right ones and ones with a fault of a chosen kind, and what is to come of each.

   A file is made for an area: banks and tables are laid out in it first, which gives the lists for open, then the blocks are
   written so that they fit. While it writes, the generator notes what each word of the area is to be in the end, and which block is
   to be refused with which number, and at which word and half. So each load has three opinions: the proved loader's, the reader's
   and the generator's. */

#ifndef GENERATE_H
#define GENERATE_H

#include <stdbool.h>
#include <stdint.h>

#include "block_layout.h"
#include "reader.h"

/* ---- chance */

struct chance {
  uint64_t state;
};

uint64_t any(struct chance *chance);                                    /* any 64-bit number */
uint64_t any_size(struct chance *chance);                               /* a number of any size up to that */
uint64_t below(struct chance *chance, uint64_t bound);                  /* 0 to bound - 1; bound is at least 1 */
uint64_t between(struct chance *chance, uint64_t least, uint64_t most); /* least to most */
bool one_in(struct chance *chance, uint64_t count);                     /* true once in so many times */
uint64_t any_word(struct chance *chance);                               /* any 36-bit word */
uint64_t any_bit(struct chance *chance, uint64_t bits);                 /* one of the lowest so many bits, set alone */

/* ---- faults: name, the refusal that it draws, and what is wrong */

enum { NOT_FORETOLD = 0 };

#define FAULTS(X)                                                                             \
  X(OLD_SEAL, REFUSED_CHECKSUM, "a block sealed by the rule before request #104")             \
  X(RECORD, REFUSED_RECORD, "a block of another record")                                      \
  X(TYPE_FLAG, REFUSED_TYPE_FLAG, "another program type")                                     \
  X(TYPE_FLAG_THEN_LABEL, REFUSED_TYPE_FLAG, "another program type, and a later label fault") \
  X(LABEL_THEN_TYPE_FLAG, REFUSED_LABEL, "a fault in the name, and another program type")     \
  X(NAME_START, REFUSED_LABEL, "a name that begins with neither letter nor digit")            \
  X(NAME_FIRST_WORD, REFUSED_LABEL, "a character that no name has, in word 0")                \
  X(NAME_SECOND_WORD, REFUSED_LABEL, "a character that no name has, in word 1")               \
  X(NAME_GAP, REFUSED_LABEL, "a space inside the name")                                       \
  X(NAME_GAP_ACROSS, REFUSED_LABEL, "a space in word 0, and the next character in word 1")    \
  X(TABLES_FEWER, REFUSED_LABEL, "a count of fewer tables than there are")                    \
  X(TABLES_MORE, REFUSED_LABEL, "a count of more tables than there are")                      \
  X(TABLE_TYPE, REFUSED_LABEL, "a table type that is not carried")                            \
  X(TABLE_ORDER, REFUSED_LABEL, "table types that do not rise")                               \
  X(TABLE_TWICE, REFUSED_LABEL, "a table type twice")                                         \
  X(TABLE_EMPTY, REFUSED_LABEL, "a table with no entries")                                    \
  X(CHANNELS_MANY, REFUSED_LABEL, "over 16 entries of types 0 and 2")                         \
  X(IO_MANY, REFUSED_LABEL, "over 128 I/O entries")                                           \
  X(CORE_MANY, REFUSED_LABEL, "over 128 core entries")                                        \
  X(MANY_THEN_ORDER, REFUSED_LABEL, "over 16 of types 0 and 2, then a type too low")          \
  X(ENTRY_TOTAL, REFUSED_LABEL, "an entry total that is not theirs")                          \
  X(SEGMENTS, REFUSED_LABEL, "not one segment")                                               \
  X(SECTIONS_MANY, REFUSED_LABEL, "more table sections than core entries")                    \
  X(WORD_253, REFUSED_LABEL, "a bit in the rest of word 253")                                 \
  X(WORD_255, REFUSED_LABEL, "a word 255 that is not word 0")                                 \
  X(LABEL_THEN_LISTS, REFUSED_LABEL, "a label fault, and lists of another length")            \
  X(IO_COUNT, REFUSED_ASSIGNMENTS, "an I/O list of another length")                           \
  X(CORE_COUNT, REFUSED_ASSIGNMENTS, "a table list of another length")                        \
  X(CHANNEL_OVER_15, REFUSED_ASSIGNMENTS, "a jump switch or channel number over 15")          \
  X(LENGTH_SHORT, REFUSED_ASSIGNMENTS, "a table shorter than the least length")               \
  X(LENGTH_STRICT, REFUSED_ASSIGNMENTS, "a longer table where none may be longer")            \
  X(LENGTH_LATER, REFUSED_ASSIGNMENTS, "a table too short, in a later block")                 \
  X(BANK_BITS, REFUSED_SECTION, "a bit in a bank word that must be zero")                     \
  X(IBANK_EMPTY, REFUSED_SECTION, "an empty IBANK")                                           \
  X(BANK_LONG, REFUSED_SECTION, "a bank that ends past the area")                             \
  X(BANK_AWAY, REFUSED_SECTION, "a bank that starts past the area")                           \
  X(BANKS_SHARE, REFUSED_SECTION, "banks that share a word")                                  \
  X(BANK_ON_TABLE, REFUSED_SECTION, "a bank that shares a word with a table")                 \
  X(WHOLE_TABLE, REFUSED_SECTION, "a table as long as the area")                              \
  X(SECTION_KIND, REFUSED_SECTION, "not a table section where one is due")                    \
  X(SECTION_EMPTY, REFUSED_SECTION, "a table section of no words")                            \
  X(SECTION_LONG, REFUSED_SECTION, "a table section longer than the table")                   \
  X(SECTION_BITS, REFUSED_SECTION, "a bit in a table section word that must be zero")         \
  X(SECTION_NUMBER, REFUSED_SECTION, "a table section of no table")                           \
  X(SECTION_ORDER, REFUSED_SECTION, "table section numbers that do not rise")                 \
  X(GROUP_KIND, REFUSED_GROUP, "not a group where one is due")                                \
  X(GROUP_NO_WORDS, REFUSED_GROUP, "a group of no program words")                             \
  X(GROUP_FEW_WORDS, REFUSED_GROUP, "a group of fewer words than program words")              \
  X(GROUP_PAST_254, REFUSED_GROUP, "a group that ends past word 254")                         \
  X(GROUP_BIT_16, REFUSED_GROUP, "a group for the other bank")                                \
  X(GROUP_EMPTY_DBANK, REFUSED_GROUP, "a group for an empty DBANK")                           \
  X(GROUP_AWAY, REFUSED_GROUP, "a group outside its bank or count")                           \
  X(INDICATORS_MORE, REFUSED_GROUP, "an indicator word too many")                             \
  X(INDICATORS_FEWER, REFUSED_GROUP, "an indicator word too few")                             \
  X(TYPE_NOT_CARRIED, REFUSED_FORM, "a modification type that is not carried")                \
  X(CHANNEL_RIGHT, REFUSED_FORM, "type 100 on a right half")                                  \
  X(PAIR_FORM, REFUSED_FORM, "type 001 with bit 15 set")                                      \
  X(SHORT_MINUS_0, REFUSED_FORM, "type 010 short, minus constant 0")                          \
  X(LONG_SMALL, REFUSED_FORM, "type 010 long, a constant below 64")                           \
  X(LONG_BIT, REFUSED_FORM, "type 010 long, the bit before the number set")                   \
  X(NO_CHANNEL, REFUSED_REFERENCE, "type 100, no such number")                                \
  X(NO_UNIT, REFUSED_REFERENCE, "type 111, no such number")                                   \
  X(UNIT_IS_CHANNEL, REFUSED_REFERENCE, "type 111, a number of types 0 and 2")                \
  X(NO_PAIR, REFUSED_REFERENCE, "type 001, no such table")                                    \
  X(NO_SHORT, REFUSED_REFERENCE, "type 010 short, no such table")                             \
  X(NO_LONG, REFUSED_REFERENCE, "type 010 long, no such table")                               \
  X(AREA_OVER, REFUSED_VALUE, "type 000, a value over 65,535")                                \
  X(PAIR_OVER, REFUSED_VALUE, "type 001, a value outside")                                    \
  X(SHORT_OVER, REFUSED_VALUE, "type 010 short, a value outside")                             \
  X(LONG_OVER, REFUSED_VALUE, "type 010 long, a value outside")                               \
  X(START_AWAY, REFUSED_START, "a start outside the IBANK")                                   \
  X(WILD_FIELDS, NOT_FORETOLD, "fields and indicators by chance")                             \
  X(WILD_BITS, NOT_FORETOLD, "a few bits of one block turned over")                           \
  X(BLOCK_SKIPPED, NOT_FORETOLD, "a block left out")                                          \
  X(BLOCK_TWICE, NOT_FORETOLD, "a block twice")                                               \
  X(SECTIONS_PROMISED, NOT_FORETOLD, "a table section more than there are")

#define FAULT_NAME(name, answer, text) name,
enum fault { NO_FAULT, FAULTS(FAULT_NAME) FAULT_KINDS };
#undef FAULT_NAME

const char *fault_text(enum fault fault);

/* ---- files */

enum { BLOCKS_MOST = 96 };

struct file {
  struct run area; /* for open: the area and the two lists */
  uint64_t io[ENTRIES_MOST];
  uint64_t io_count;
  struct run tables[ENTRIES_MOST];
  uint64_t table_count;

  uint64_t entries[TYPES];               /* how many entries of each table type the label tells of */
  uint64_t channels;                     /* of types 0 and 2 together */
  uint64_t sections;                     /* how many table sections there are, */
  unsigned section_tables[ENTRIES_MOST]; /* and of which tables */
  bool no_longer_tables;
  struct run ibank, dbank; /* relative */

  enum fault wanted;     /* the kind of fault asked for, */
  bool faulty;           /* whether there was a place for it, */
  unsigned fault_block;  /* in which block, */
  unsigned fault_answer; /* which refusal it draws there, */
  uint64_t fault_where;  /* and at which word and half, as that refusal's value tells it */
  unsigned termination;  /* with no fault: the block that completes the load, */
  uint64_t start;        /* the absolute start, */
  uint64_t *image;       /* and each word of the area once done */

  unsigned count;
  uint64_t blocks[BLOCKS_MOST][WORDS_IN_BLOCK];
};

/* A file for this area, with a fault of this kind if there is a place for one. The area has at least one word. */
struct file *file_make(struct chance *chance, struct run area, enum fault wanted);
void file_drop(struct file *file);

/* Sets a block's checksum word, word 254 of a label and word 255 elsewhere. */
void seal(uint64_t *block, bool label);

/* Sets it, in a block that is sealed, by the rule before request #104: every carry out of bit 35 was dropped. Gives whether the two
   rules differ here. */
bool seal_as_before(uint64_t *block, bool label);

/* How many carries arise out of bit 35 when the block is sealed. */
uint64_t carries_in(const uint64_t *block, bool label);

/* Six characters as a word: capital letters, digits, space, hyphen and asterisk. */
uint64_t fieldata(const char *characters);

#endif
