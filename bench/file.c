/* file.c: the blocks of file.h. */
#include "file.h"

#include <string.h>

#include "block_layout.h"
#include "reader.h"

const struct entries full = {.channels = CHANNELS_MOST, .units = ENTRIES_MOST - CHANNELS_MOST, .tables = ENTRIES_MOST};

static void seal(uint64_t *block, unsigned at) {
  block[at] = reader_checksum(block, at);
}

static void begin(uint64_t *block, uint64_t identifier) {
  memset(block, 0, WORDS_IN_BLOCK * sizeof *block);
  block[IDENTIFIER_WORD] = identifier;
}

void write_label_block(uint64_t *block, struct entries entries) {
  const struct {
    uint64_t type, count;
  } lists[] = {{TYPE_CHANNEL, entries.channels}, {TYPE_UNIT, entries.units}, {TYPE_CORE, entries.tables}};
  const uint64_t spaces = UINT64_C(0050505050505);
  unsigned words = 0;
  begin(block, put(spaces, 35, 30, FIRST_LETTER)); /* the name is A */
  block[NAME_WORD + 1] = spaces;
  block[TYPE_FLAG_WORD] = put(0, 35, 33, DIRECT_ROC);
  for (unsigned i = 0; i < sizeof lists / sizeof lists[0]; i++)
    if (lists[i].count != 0)
      block[TABLES_WORD + words++] = put(0, 35, 32, lists[i].type) | put(0, 8, 0, lists[i].count);
  block[COUNTS_WORD] = put(0, 28, 18, words) | put(0, 10, 0, entries.channels + entries.units + entries.tables);
  block[SECTIONS_WORD] = put(0, 33, 18, 1);
  block[NAME_AGAIN_WORD] = block[NAME_WORD];
  seal(block, LABEL_CHECKSUM_WORD);
}

void write_entries_block(uint64_t *block) {
  begin(block, MODRC);
  seal(block, CHECKSUM_WORD);
}

unsigned entries_blocks(struct entries entries) {
  return (unsigned)entry_blocks(entries.channels + entries.units, entries.tables);
}

void write_segment_block(uint64_t *block) {
  begin(block, PRORC);
  block[FIRST_WORD] = put(0, 33, 18, TABLES_FROM);
  seal(block, CHECKSUM_WORD);
}

/* ---- a group */

/* The indicator bits of a group, the first one first. */
struct bits {
  unsigned count;
  unsigned char bit[WORDS_BETWEEN * 2 * LONG_BITS];
};

static void add(struct bits *bits, uint64_t value, unsigned count) {
  while (count-- > 0)
    bits->bit[bits->count++] = value >> count & 1;
}

/* No change; and a change of this type. */
static void add_plain(struct bits *bits) {
  add(bits, 0, PLAIN_BITS);
}

static void add_change(struct bits *bits, uint64_t type) {
  add(bits, bit_at(CHANGE_BITS - 1) | type, CHANGE_BITS);
}

/* What the halves of a dense block add to an address: by type 000 and the short form of type 010, and by its long form. */
enum { PLUS_SHORT = 5, PLUS_LONG = 100 };

/* The changes that a dense block has, in turn. Types 001 and 010 speak of table 0, or of the last one. */
static uint64_t dense_half(struct bits *bits, unsigned half, struct entries entries) {
  enum { CHANNEL, AREA, PAIR, TABLE_SHORT, TABLE_LONG, UNIT, CHANGES };
  uint64_t last = entries.tables - 1;
  switch (half % CHANGES) {
  case CHANNEL: /* left: 100, the last channel, in bits 25-22 of the word, which are the field's bits 7-4 */
    add_change(bits, CHANGE_CHANNEL);
    return put(0, 7, 4, entries.channels - 1);
  case AREA: /* 000 */
    add_change(bits, CHANGE_AREA);
    return PLUS_SHORT;
  case PAIR: /* 001: the last table's address plus table 0's length */
    add_change(bits, CHANGE_PAIR);
    return put(0, 13, 7, last);
  case TABLE_SHORT: /* 010 short: table 0's address plus 5 */
    add_change(bits, CHANGE_TABLE);
    return put(0, 5, 0, PLUS_SHORT);
  case TABLE_LONG: /* 010 long: the last table's address plus 100 */
    add_change(bits, CHANGE_TABLE);
    add(bits, put(0, 6, 0, last), LONG_MORE_BITS);
    return bit_at(15) | put(0, 13, 0, PLUS_LONG);
  default: /* UNIT, right: 111, the last unit */
    add_change(bits, CHANGE_UNIT);
    return entries.channels + entries.units - 1;
  }
}

static uint64_t next_word(struct bits *bits, unsigned i, enum shape shape, struct entries entries) {
  enum { ANY_WORD = 0123456701 };
  static const enum shape mixed[] = {RIGHT, PLAIN, RIGHT, RIGHT, PLAIN, PLAIN, RIGHT, DENSE};
  uint64_t left;
  switch (shape == MIXED ? mixed[i % (sizeof mixed / sizeof mixed[0])] : shape) {
  case PLAIN:
    add_plain(bits);
    add_plain(bits);
    return part((uint64_t)(i + 1) * ANY_WORD, 35, 0);
  case RIGHT:
    add_plain(bits);
    add_change(bits, CHANGE_AREA);
    return put(0, 35, 20, i) | put(0, 15, 0, i);
  default:
    left = dense_half(bits, 2 * i, entries);
    return put(0, 33, 18, left) | put(0, 15, 0, dense_half(bits, 2 * i + 1, entries));
  }
}

/* The identifier of a group for the IBANK. */
static uint64_t group_word(uint64_t words, uint64_t program_words, bool last, uint64_t relative) {
  return put(0, 35, 34, KIND_GROUP) | put(0, 33, 26, words) | put(0, 25, 18, program_words) | put(0, 17, 17, last) |
         put(0, 15, 0, relative);
}

/* A group at word `at` whose identifier, program words and indicators are at most this many words. A last indicator word that no
   bit needs is none: such a group is one word shorter. Gives how many program words it has, the first of them word `from` of the
   file. */
static unsigned write_group(uint64_t *block, unsigned at, unsigned most, unsigned from, enum shape shape, struct entries entries) {
  static struct bits bits;
  unsigned words = 0, before = 0, marks;
  bits.count = 0;
  for (;;) {
    uint64_t word = next_word(&bits, from + words, shape, entries);
    if (words + 1 + indicator_words(bits.count) > most - 1)
      break;
    before = bits.count;
    block[at + 1 + words++] = word;
  }
  marks = indicator_words(before);
  for (unsigned i = 0; i < before; i++)
    block[at + words + marks - i / BITS_IN_WORD] |= (uint64_t)bits.bit[i] << (BITS_IN_WORD - 1 - i % BITS_IN_WORD);
  block[at] = group_word(words + marks, words, false, from);
  return words;
}

unsigned write_group_block(uint64_t *block, enum shape shape, struct entries entries, unsigned groups) {
  unsigned words = 0, at = FIRST_WORD;
  begin(block, PRORC);
  for (unsigned k = 0; k < groups; k++) {
    words += write_group(block, at, WORDS_BETWEEN / groups, words, shape, entries);
    at += 1 + (unsigned)part(block[at], 33, 26);
  }
  seal(block, CHECKSUM_WORD);
  return words;
}

void write_last_block(uint64_t *block) {
  begin(block, PRORC);
  block[FIRST_WORD] = group_word(2, 1, true, 0);
  seal(block, CHECKSUM_WORD);
}

void write_termination_block(uint64_t *block) {
  begin(block, TRMRC);
  seal(block, CHECKSUM_WORD);
}

void write_lists(uint64_t *io, uint64_t *tables, struct entries entries, uint64_t area, bool falling) {
  enum { EACH_NUMBER = 3 };
  for (uint64_t i = 0; i < entries.channels + entries.units; i++)
    io[i] = EACH_NUMBER;
  write_tables(tables, entries.tables, area + TABLES_FROM, falling);
}
