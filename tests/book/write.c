/* write.c: files and books to be given, word by word. */

#include <string.h>

#include "book.h"
#include "reader.h"

const char kinds[3] = {'A', 'L', 'P'};

/* ---- files */

uint64_t *block_given(uint64_t block) {
  return given.words + WORDS_IN_BLOCK * block;
}

void seal_given(uint64_t block) {
  unsigned at = block == 0 ? LABEL_CHECKSUM_WORD : CHECKSUM_WORD;
  block_given(block)[at] = reader_checksum(block_given(block), at);
}

uint64_t needed(void) {
  return entry_blocks(given.io, given.tables);
}

void put_label(uint64_t *block, uint64_t switches, uint64_t channels, uint64_t units, uint64_t tables) {
  const struct {
    uint64_t type, count;
  } words[] = {{TYPE_JUMP_SWITCH, switches}, {TYPE_CHANNEL, channels}, {TYPE_UNIT, units}, {TYPE_CORE, tables}};
  unsigned count = 0;
  memset(block, 0, WORDS_IN_BLOCK * sizeof *block);
  block[NAME_WORD] = block[NAME_AGAIN_WORD] = UINT64_C(0060505050505); /* the name is A */
  block[NAME_WORD + 1] = UINT64_C(0050505050505);
  block[TYPE_FLAG_WORD] = put(0, 35, 33, DIRECT_ROC);
  for (unsigned i = 0; i < sizeof words / sizeof words[0]; i++)
    if (words[i].count != 0)
      block[TABLES_WORD + count++] = put(0, 35, 32, words[i].type) | put(0, 8, 0, words[i].count);
  block[COUNTS_WORD] = put(0, 28, 18, count) | put(0, 10, 0, switches + channels + units + tables);
  block[SECTIONS_WORD] = put(0, 33, 18, 1);
  block[LABEL_CHECKSUM_WORD] = reader_checksum(block, LABEL_CHECKSUM_WORD);
}

void add_block(uint64_t identifier) {
  uint64_t block = given.length / WORDS_IN_BLOCK;
  memset(block_given(block), 0, WORDS_IN_BLOCK * sizeof given.words[0]);
  block_given(block)[IDENTIFIER_WORD] = identifier;
  seal_given(block);
  given.length += WORDS_IN_BLOCK;
}

/* ---- tags */

uint64_t entries_of(char kind) {
  return kind == 'P' ? given.io : given.tables;
}

/* Where word `number` of the entries stands. */
static uint64_t entry_place(uint64_t number) {
  return WORDS_IN_BLOCK * (1 + number / WORDS_BETWEEN) + FIRST_WORD + number % WORDS_BETWEEN;
}

uint64_t tag_place(char kind, uint64_t entry) {
  uint64_t tables = IO_ENTRY_WORDS * given.io;
  if (kind == 'P')
    return entry_place(IO_ENTRY_WORDS * entry);
  return entry_place(tables + CORE_ENTRY_WORDS * entry + (kind == 'L'));
}

uint64_t tag_given(char kind, uint64_t entry) {
  return given.words[tag_place(kind, entry)];
}

void set_tag(char kind, uint64_t entry, uint64_t tag) {
  given.words[tag_place(kind, entry)] = tag;
  seal_given(tag_place(kind, entry) / WORDS_IN_BLOCK);
}

/* A tag of its own for each: three letters by its kind and three codes by its number. Words that are no tags differ from all of
 * them. */
static void write_tags(void) {
  static const uint64_t starts[] = {UINT64_C(0310611000000), UINT64_C(0312112000000), UINT64_C(0312513000000)};
  uint64_t words = IO_ENTRY_WORDS * given.io + CORE_ENTRY_WORDS * given.tables;
  for (uint64_t number = 0; number < words; number++)
    given.words[entry_place(number)] = UINT64_C(0770000000000) + number;
  for (unsigned k = 0; k < sizeof kinds; k++)
    for (uint64_t entry = 0; entry < entries_of(kinds[k]); entry++)
      given.words[tag_place(kinds[k], entry)] = starts[k] + 0606060 + entry;
}

void write_file(uint64_t io, uint64_t tables) {
  uint64_t channels = io < CHANNELS_MOST ? io : CHANNELS_MOST;
  given.io = given.io_length = io;
  given.tables = tables;
  given.tables_length = 2 * tables;
  given.length = WORDS_IN_BLOCK;
  put_label(given.words, channels / 2, channels - channels / 2, io - channels, tables);
  for (uint64_t i = needed(); i > 0; i--)
    add_block(MODRC);
  write_tags();
  for (uint64_t block = 1; block <= needed(); block++)
    seal_given(block);
  clear_book();
}

/* ---- books */

uint64_t records(void) {
  return given.book_length / RECORD_BYTES;
}

uint8_t *record_given(uint64_t at) {
  return given.book + RECORD_BYTES * at;
}

void clear_book(void) {
  given.book_length = 0;
}

void put_record(uint64_t at, char kind, uint64_t tag, uint64_t number) {
  uint8_t *bytes = record_given(at);
  bytes[KIND_AT] = (uint8_t)kind;
  for (unsigned i = CODES_IN_TAG; i > 0; i--, tag >>= CODE_BITS)
    bytes[CODES_AT + i - 1] = tag & CODE_MOST;
  for (unsigned i = DIGITS_IN_NUMBER; i > 0; i--, number /= 10)
    bytes[DIGITS_AT + i - 1] = (uint8_t)('0' + number % 10);
  bytes[NEWLINE_AT] = '\n';
}

void add_record(char kind, uint64_t tag, uint64_t number) {
  put_record(records(), kind, tag, number);
  given.book_length += RECORD_BYTES;
}

void drop_record(uint64_t at) {
  given.book_length -= RECORD_BYTES;
  memmove(record_given(at), record_given(records()), RECORD_BYTES);
}

uint64_t number_of(char kind, uint64_t entry) {
  return (kind == 'A' ? 100000 : kind == 'L' ? 200000 : 0) + 7 * entry + 1;
}

/* Whether the book has a record of this kind and tag already: it is compared with one that is put after its end. */
static bool is_in_book(char kind, uint64_t tag) {
  put_record(records(), kind, tag, 0);
  for (uint64_t at = 0; at < records(); at++)
    if (memcmp(record_given(at), record_given(records()), DIGITS_AT) == 0)
      return true;
  return false;
}

void write_book_by(uint64_t (*number)(char kind, uint64_t entry)) {
  clear_book();
  for (unsigned k = 0; k < sizeof kinds; k++)
    for (uint64_t entry = 0; entry < entries_of(kinds[k]); entry++)
      if (!is_in_book(kinds[k], tag_given(kinds[k], entry)))
        add_record(kinds[k], tag_given(kinds[k], entry), number(kinds[k], entry));
}

void write_book(void) {
  write_book_by(number_of);
}

void lists_of_book(uint64_t *io, uint64_t *tables) {
  for (uint64_t entry = 0; entry < given.io; entry++)
    io[entry] = number_of('P', entry);
  for (uint64_t entry = 0; entry < given.tables; entry++) {
    tables[2 * entry] = number_of('A', entry);
    tables[2 * entry + 1] = number_of('L', entry);
  }
}
