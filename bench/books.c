/* books.c: the files and books of books.h. */
#include "books.h"

#include "block_layout.h"
#include "reader.h"

uint64_t tags_in(struct entries entries) {
  return 2 * entries.tables + entries.channels + entries.units;
}

/* The tag that stands for a record: in no order, and no two are the same, since the factor is odd. */
static uint64_t tag_for(uint64_t which) {
  return part((which + 1) * UINT64_C(0472370763161), 35, 0);
}

uint64_t write_front(uint64_t *blocks, struct entries entries) {
  uint64_t io = entries.channels + entries.units, words = IO_ENTRY_WORDS * io + CORE_ENTRY_WORDS * entries.tables, count;
  write_label_block(blocks, entries);
  count = 1 + entries_blocks(entries);
  for (uint64_t block = 1; block < count; block++)
    write_entries_block(blocks + WORDS_IN_BLOCK * block);
  for (uint64_t word = 0; word < words; word++) {
    uint64_t core = word - IO_ENTRY_WORDS * io, which = 2 * entries.tables + word / IO_ENTRY_WORDS; /* P */
    bool tag = word % IO_ENTRY_WORDS == 0;
    if (word >= IO_ENTRY_WORDS * io) { /* A and L */
      which = core / CORE_ENTRY_WORDS + (core % CORE_ENTRY_WORDS) * entries.tables;
      tag = core % CORE_ENTRY_WORDS < 2;
    }
    if (tag)
      blocks[WORDS_IN_BLOCK * (1 + word / WORDS_BETWEEN) + FIRST_WORD + word % WORDS_BETWEEN] = tag_for(which);
  }
  for (uint64_t block = 1; block < count; block++)
    blocks[WORDS_IN_BLOCK * block + CHECKSUM_WORD] = reader_checksum(blocks + WORDS_IN_BLOCK * block, CHECKSUM_WORD);
  return WORDS_IN_BLOCK * count;
}

void write_record(uint8_t *book, uint64_t at, uint64_t which, struct entries entries) {
  uint8_t *bytes = book + RECORD_BYTES * at;
  uint64_t tag = tag_for(which), number = which;
  bytes[KIND_AT] = which < entries.tables ? 'A' : which < 2 * entries.tables ? 'L' : 'P';
  for (unsigned i = DIGITS_AT; i > CODES_AT; i--, tag >>= CODE_BITS)
    bytes[i - 1] = tag & CODE_MOST;
  for (unsigned i = NEWLINE_AT; i > DIGITS_AT; i--, number /= 10)
    bytes[i - 1] = (uint8_t)('0' + number % 10);
  bytes[NEWLINE_AT] = '\n';
}

uint64_t write_whole_book(uint8_t *book, struct entries entries) {
  enum { STEP = 145 }; /* it shares no factor with 48, 96, 192 and 384 */
  uint64_t count = tags_in(entries);
  for (uint64_t at = 0; at < count; at++)
    write_record(book, at, at * STEP % count, entries);
  return RECORD_BYTES * count;
}
