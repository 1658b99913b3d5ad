/* book_rules.c: the second assign and needs of book_rules.h. Sentences in quotes are request #101's, where nothing else is named.
   Every test stands in the order in which it is to be made. */

#include "book_rules.h"

#include <stddef.h>

#include "reader.h"

/* *MODRC, and the words of a block, by 01 */
static const uint64_t MODRC = 0502224112710;
enum { COUNTS = 3, FIRST_TABLE = 4, CHECKSUM = 255, ENTRY_WORDS_IN_BLOCK = 254, TYPE_CORE = 12 };

/* "two words for types 0, 2 and 3, three for type 12" (01) */
enum { IO_ENTRY = 2, CORE_ENTRY = 3 };

/* A file's front: its label and what stands after it, as they were lent, and what the label counts. */
struct front {
  const uint64_t *words;
  uint64_t length;
  uint64_t io, tables;
};

/* ---- the label */

/* The label by itself, as the reader's feed judges it: 0, or the answer that it draws. It is fed to a load without lists, so that a
   label without fault is answered with more where it has no entries, and with 16, which is left out here, where it has some. */
static uint64_t label_fault(const uint64_t *label, uint64_t length) {
  static struct reader desk;
  static uint64_t core[1];
  const uint64_t map[MAP_LENGTH] = {0, 1};
  uint64_t answer;
  if (desk.core_length == 0)
    reader_make(&desk, 1, map, MAP_LENGTH);
  reader_open(&desk, core, 1, 0, 0, 1, NULL, 0, NULL, 0);
  answer = reader_feed(&desk, core, 1, 0, 0, label, length);
  reader_release(&desk, 1, 0, 0);
  return answer == told(MORE, 0) || answer >> 32 == REFUSED_ASSIGNMENTS ? 0 : answer;
}

/* What a label without fault counts: word 3 has in bits 28-18 how many table words there are, each of these its type in bits 35-32
   and its entries in bits 8-0 (01). */
static void count_entries(struct front *front) {
  uint64_t tables = front->words[COUNTS] >> 18 & 2047;
  front->io = front->tables = 0;
  for (uint64_t at = FIRST_TABLE; at < FIRST_TABLE + tables; at++) {
    uint64_t entries = front->words[at] & 511;
    if (front->words[at] >> 32 == TYPE_CORE)
      front->tables += entries;
    else
      front->io += entries;
  }
}

/* "Words 1 to 254 hold entries, split across blocks where needed"; "With no entries there is no modification block." (01) */
static uint64_t blocks_needed(const struct front *front) {
  uint64_t words = IO_ENTRY * front->io + CORE_ENTRY * front->tables, blocks = 0;
  while (blocks * ENTRY_WORDS_IN_BLOCK < words)
    blocks++;
  return blocks;
}

uint64_t second_needs(const uint64_t *label, uint64_t label_length) {
  struct front front = {label, label_length, 0, 0};
  uint64_t fault = label_fault(label, label_length);
  if (fault != 0)
    return fault;
  count_entries(&front);
  return told_needs(front.io, front.tables, blocks_needed(&front));
}

/* ---- the blocks after it */

/* Refusals 11 and 12 of the block with this number, which is not the label: 0, or the answer. It has fewer than 256 words where the
   slice ends in it. */
static uint64_t block_fault(const struct front *front, uint64_t block) {
  uint64_t from = WORDS_IN_BLOCK * block;
  if (front->length - from < WORDS_IN_BLOCK)
    return REFUSED(BLOCK);
  for (uint64_t at = from; at < from + WORDS_IN_BLOCK; at++)
    if (front->words[at] >> BITS_IN_WORD != 0)
      return REFUSED(BLOCK);
  return front->words[from + CHECKSUM] == reader_checksum(front->words + from, CHECKSUM) ? 0 : REFUSED(CHECKSUM);
}

/* The file's 11 to 15: "13 also for a block missing or over". The word is counted through the whole slice. */
static uint64_t front_fault(struct front *front) {
  uint64_t fault, block, needed;
  if (front->length == 0)
    return REFUSED_AT(RECORD, 0);
  fault = label_fault(front->words, front->length < WORDS_IN_BLOCK ? front->length : WORDS_IN_BLOCK);
  if (fault != 0)
    return fault;
  count_entries(front);
  needed = blocks_needed(front);
  for (block = 1; block <= needed; block++) {
    if (WORDS_IN_BLOCK * block >= front->length)
      return REFUSED_AT(RECORD, WORDS_IN_BLOCK * block);
    fault = block_fault(front, block);
    if (fault != 0)
      return fault;
    if (front->words[WORDS_IN_BLOCK * block] != MODRC)
      return REFUSED_AT(RECORD, WORDS_IN_BLOCK * block);
  }
  if (WORDS_IN_BLOCK * block >= front->length)
    return 0;
  fault = block_fault(front, block); /* the first block over, and no other */
  return fault != 0 ? fault : REFUSED_AT(RECORD, WORDS_IN_BLOCK * block);
}

/* ---- entries */

/* Word `number` of all the words of the entries. */
static uint64_t entry_word(const struct front *front, uint64_t number) {
  uint64_t block = 1 + number / ENTRY_WORDS_IN_BLOCK, word = 1 + number % ENTRY_WORDS_IN_BLOCK;
  return front->words[WORDS_IN_BLOCK * block + word];
}

/* How many tags the file has of this kind; and the tag of one entry: "A finds a core entry's first word, L its second, P an I/O
   entry's first." */
static uint64_t tags_of(const struct front *front, char kind) {
  return kind == 'P' ? front->io : front->tables;
}

static uint64_t tag_of(const struct front *front, char kind, uint64_t entry) {
  uint64_t tables = IO_ENTRY * front->io;
  switch (kind) {
  case 'P':
    return entry_word(front, IO_ENTRY * entry);
  case 'A':
    return entry_word(front, tables + CORE_ENTRY * entry);
  default:
    return entry_word(front, tables + CORE_ENTRY * entry + 1);
  }
}

/* ---- the book */

struct record {
  char kind;
  uint64_t tag, number;
};

/* A record, and whether it is a good one. */
static bool read_record(const uint8_t *bytes, struct record *record) {
  record->kind = (char)bytes[KIND_AT];
  record->tag = record->number = 0;
  if (bytes[KIND_AT] != 'A' && bytes[KIND_AT] != 'L' && bytes[KIND_AT] != 'P')
    return false;
  for (unsigned i = CODES_AT; i < CODES_AT + CODES_IN_TAG; i++) {
    if (bytes[i] > CODE_MOST)
      return false;
    record->tag = record->tag << CODE_BITS | bytes[i];
  }
  for (unsigned i = DIGITS_AT; i < DIGITS_AT + DIGITS_IN_NUMBER; i++) {
    if (bytes[i] < '0' || bytes[i] > '9')
      return false;
    record->number = 10 * record->number + (bytes[i] - '0');
  }
  return bytes[NEWLINE_AT] == '\n';
}

/* The record with this number, of a book whose records are good. */
static struct record record_at(const uint8_t *book, uint64_t number) {
  struct record record;
  read_record(book + RECORD_BYTES * number, &record);
  return record;
}

/* Refusal 24: "bad record, part record or lent lists not just as long as the file's counts need" */
static bool book_is_bad(const uint8_t *book, uint64_t book_length, const struct front *front, uint64_t io, uint64_t tables) {
  struct record record;
  if (book_length % RECORD_BYTES != 0 || io != front->io || tables != 2 * front->tables)
    return true;
  for (uint64_t at = 0; at < book_length; at += RECORD_BYTES)
    if (!read_record(book + at, &record))
      return true;
  return false;
}

/* Refusal 25: "tag not in the file" */
static bool is_unknown(const struct front *front, struct record record) {
  for (uint64_t entry = 0; entry < tags_of(front, record.kind); entry++)
    if (tag_of(front, record.kind, entry) == record.tag)
      return false;
  return true;
}

static bool any_unknown(const uint8_t *book, uint64_t records, const struct front *front) {
  for (uint64_t i = 0; i < records; i++)
    if (is_unknown(front, record_at(book, i)))
      return true;
  return false;
}

/* Whether a record is of this kind and tag, from the tag's last code to its first. */
static bool is_of(const uint8_t *bytes, char kind, uint64_t tag) {
  for (unsigned i = CODES_AT + CODES_IN_TAG; i > CODES_AT; i--, tag >>= CODE_BITS)
    if (bytes[i - 1] != (tag & CODE_MOST))
      return false;
  return bytes[KIND_AT] == (uint8_t)kind;
}

/* The first of these records that is of this kind and tag; `records` where there is none. */
static uint64_t find(const uint8_t *book, uint64_t records, char kind, uint64_t tag) {
  uint64_t i = 0;
  while (i < records && !is_of(book + RECORD_BYTES * i, kind, tag))
    i++;
  return i;
}

/* Refusal 26: "tag given twice in one kind" */
static bool any_twice(const uint8_t *book, uint64_t records) {
  for (uint64_t i = 0; i < records; i++) {
    struct record record = record_at(book, i);
    if (find(book, i, record.kind, record.tag) < i) /* in one before it */
      return true;
  }
  return false;
}

/* Refusal 27: "tag of the file not given" */
static bool any_missing(const uint8_t *book, uint64_t records, const struct front *front, char kind) {
  for (uint64_t entry = 0; entry < tags_of(front, kind); entry++)
    if (find(book, records, kind, tag_of(front, kind, entry)) == records)
      return true;
  return false;
}

/* ---- assign */

/* The number that the book gives the entry's tag of this kind. */
static uint64_t number_for(const uint8_t *book, uint64_t records, const struct front *front, char kind, uint64_t entry) {
  return record_at(book, find(book, records, kind, tag_of(front, kind, entry))).number;
}

uint64_t second_assign(const uint8_t *book, uint64_t book_length, const uint64_t *blocks, uint64_t blocks_length, uint64_t *io,
                       uint64_t io_length, uint64_t *tables, uint64_t tables_length) {
  struct front front = {blocks, blocks_length, 0, 0};
  uint64_t records = book_length / RECORD_BYTES, fault = front_fault(&front);
  if (fault != 0)
    return fault;
  if (book_is_bad(book, book_length, &front, io_length, tables_length))
    return REFUSED(BOOK);
  if (any_unknown(book, records, &front))
    return REFUSED(TAG_UNKNOWN);
  if (any_twice(book, records))
    return REFUSED(TAG_TWICE);
  if (any_missing(book, records, &front, 'A') || any_missing(book, records, &front, 'L') || any_missing(book, records, &front, 'P'))
    return REFUSED(TAG_MISSING);
  for (uint64_t entry = 0; entry < front.io; entry++)
    io[entry] = number_for(book, records, &front, 'P', entry);
  for (uint64_t entry = 0; entry < front.tables; entry++) {
    tables[2 * entry] = number_for(book, records, &front, 'A', entry);
    tables[2 * entry + 1] = number_for(book, records, &front, 'L', entry);
  }
  return told(ASSIGNED, 0);
}
