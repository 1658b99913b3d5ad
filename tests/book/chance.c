/* chance.c: files, books and lengths of lists by chance, right ones and ones that are spoilt; the library must answer each as the
   second version does, and leave the same lists. Every answer must be seen. */

#include <inttypes.h>
#include <stdio.h>
#include <string.h>

#include "book.h"
#include "generate/generate.h"

enum { CODES_SEEN = 128, SMALL = 40, BOOKS_OF_SMALL = 50, BOOKS_OF_LARGE = 4, AREA_MOST = 100 };

static struct chance chance;
static uint64_t seen[CODES_SEEN], missing_seen, over_seen, record_seen, empty_seen;

/* ---- files */

/* Faults of a label or a modification block, and of whole blocks; often none. */
static enum fault any_front_fault(void) {
  static const enum fault blocks[] = {WILD_BITS, BLOCK_SKIPPED, BLOCK_TWICE, RECORD, OLD_SEAL};
  switch (below(&chance, 6)) {
  case 0:
    return (enum fault)between(&chance, OLD_SEAL, LENGTH_LATER);
  case 1:
    return blocks[below(&chance, sizeof blocks / sizeof blocks[0])];
  default:
    return NO_FAULT;
  }
}

/* Tags of a small set, so that entries share them within a kind and across kinds; or each as it is, by chance. */
static void retag(void) {
  uint64_t set[4], size = between(&chance, 1, 4);
  for (unsigned i = 0; i < 4; i++)
    set[i] = one_in(&chance, 6) ? 0 : one_in(&chance, 6) ? UINT64_C(0121212121212) : any_word(&chance);
  for (unsigned k = 0; k < sizeof kinds; k++)
    for (uint64_t entry = 0; entry < entries_of(kinds[k]); entry++)
      if (one_in(&chance, 2))
        given.words[tag_place(kinds[k], entry)] = set[below(&chance, size)];
  for (uint64_t block = 1; block <= needed(); block++)
    seal_given(block);
}

/* Label and modification blocks of a file by chance. Where the generator has put in a fault there may be fewer or more blocks; then
   as many are taken as there are, up to what the lists need. */
static void any_file(void) {
  uint64_t start = below(&chance, 60000), size = between(&chance, 1, AREA_MOST); /* one after the other, by every compiler */
  struct file *file = file_make(&chance, (struct run){start, size}, any_front_fault());
  uint64_t blocks = 1 + entry_blocks(file->io_count, file->table_count);
  given.io = given.io_length = file->io_count;
  given.tables = file->table_count;
  given.tables_length = 2 * given.tables;
  memset(given.words, 0, sizeof given.words);
  memcpy(given.words, file->blocks, (file->count < LENT_BLOCKS_MOST ? file->count : LENT_BLOCKS_MOST) * sizeof file->blocks[0]);
  given.length = WORDS_IN_BLOCK * (blocks < file->count ? blocks : file->count);
  if (!file->faulty && one_in(&chance, 2))
    retag();
  file_drop(file);
}

/* ---- what is spoilt */

static uint64_t any_place(void) {
  return given.length == 0 ? 0 : below(&chance, given.length);
}

/* A few of the words are changed, and the block is sealed again or not. */
static void spoil_word(void) {
  uint64_t place = any_place(), block = place / WORDS_IN_BLOCK;
  given.words[place] ^= any_bit(&chance, BITS_IN_WORD);
  if (one_in(&chance, 2))
    seal_given(block);
}

/* Fewer words, or as many more as there is room for: what stands there are blocks of the file, or zeros. */
static void spoil_length(void) {
  const uint64_t most = LENT_BLOCKS_MOST * WORDS_IN_BLOCK, was = given.length, block = any_place() / WORDS_IN_BLOCK;
  switch (below(&chance, 5)) {
  case 0:
    given.length = one_in(&chance, 2) ? 0 : any_place();
    break;
  case 1:
    given.length = WORDS_IN_BLOCK * block;
    break;
  case 2:
    given.length = was + 1 - 2 * (was > 0 && one_in(&chance, 2));
    break;
  default:
    given.length += WORDS_IN_BLOCK * between(&chance, 1, 2);
  }
  given.length = given.length < most ? given.length : most;
}

static void spoil_front(void) {
  uint64_t block = any_place() / WORDS_IN_BLOCK;
  switch (below(&chance, 8)) {
  case 0:
  case 1:
  case 2:
    spoil_length();
    break;
  case 3:
    given.words[any_place()] |= bit_at((unsigned)between(&chance, BITS_IN_WORD, 63));
    break;
  case 4:
    given.words[WORDS_IN_BLOCK * block] = one_in(&chance, 2) ? PRORC : any_word(&chance);
    seal_given(block);
    break;
  case 5:
    given.words[any_place()] ^= 1;
    break;
  default:
    spoil_word();
  }
}

/* A tag of the file, of any kind, or any word. */
static uint64_t some_tag(void) {
  char kind = kinds[below(&chance, sizeof kinds)];
  uint64_t entries = entries_of(kind);
  return entries == 0 || one_in(&chance, 8) ? any_word(&chance) : tag_given(kind, below(&chance, entries));
}

static void spoil_byte(void) {
  static const uint8_t edges[] = {0, 10, 13, ' ', '/', '0', '9', ':', 63, 64, 'A', 'L', 'P', 'a', 255};
  uint8_t *byte = &given.book[below(&chance, given.book_length)];
  *byte = one_in(&chance, 3) ? (uint8_t)any(&chance) : edges[below(&chance, sizeof edges)];
}

static void spoil_book(void) {
  uint64_t at = records() == 0 ? 0 : below(&chance, records()), tag = some_tag(), number = below(&chance, NUMBER_MOST + 1);
  char kind = kinds[below(&chance, sizeof kinds)];
  if (records() == 0 || one_in(&chance, 4)) {
    add_record(kind, tag, number);
    return;
  }
  switch (below(&chance, 6)) {
  case 0:
    drop_record(at);
    break;
  case 1: /* a record twice, with the same number or not */
    memcpy(record_given(records()), record_given(at), RECORD_BYTES);
    given.book_length += RECORD_BYTES;
    record_given(records() - 1)[DIGITS_AT] = (uint8_t)between(&chance, '0', '9');
    break;
  case 2:
    record_given(at)[KIND_AT] = (uint8_t)kind;
    break;
  case 3:
    put_record(at, kind, tag, number);
    break;
  case 4:
    given.book_length -= between(&chance, 1, RECORD_BYTES - 1);
    break;
  default:
    spoil_byte();
  }
}

static void spoil_lengths(void) {
  uint64_t *length = one_in(&chance, 2) ? &given.io_length : &given.tables_length;
  *length = one_in(&chance, 4) ? below(&chance, LIST_MOST) : *length + 1 - 2 * (*length > 0 && one_in(&chance, 2));
}

/* ---- rounds */

static void swap_records(uint64_t one, uint64_t other) {
  uint8_t kept[RECORD_BYTES];
  memcpy(kept, record_given(one), RECORD_BYTES);
  memmove(record_given(one), record_given(other), RECORD_BYTES);
  memcpy(record_given(other), kept, RECORD_BYTES);
}

/* A record for each tag, in any order, with any numbers. */
static void any_book(void) {
  write_book();
  for (uint64_t at = 0; at < records(); at++) {
    for (unsigned i = DIGITS_AT; i < NEWLINE_AT; i++)
      record_given(at)[i] = (uint8_t)between(&chance, '0', '9');
    swap_records(at, below(&chance, at + 1));
  }
}

static void count_answer(uint64_t answer) {
  uint64_t word = CLAMP_FAULT_WORD(answer);
  seen[CLAMP_CODE(answer) % CODES_SEEN]++;
  if (CLAMP_CODE(answer) != REFUSED_RECORD)
    return;
  if (given.length == 0)
    empty_seen++;
  else if (word >= given.length)
    missing_seen++;
  else if (word / WORDS_IN_BLOCK > CLAMP_NEEDS_BLOCKS(second_needs(given.words, WORDS_IN_BLOCK)))
    over_seen++;
  else
    record_seen++;
}

static void spoil(void) {
  for (uint64_t times = below(&chance, 3); times > 0; times--)
    switch (below(&chance, 8)) {
    case 0:
    case 1:
      spoil_front();
      break;
    case 2:
      spoil_lengths();
      break;
    default:
      if (given.book_length % RECORD_BYTES == 0)
        spoil_book();
    }
}

static uint64_t larger(uint64_t one, uint64_t other) {
  return one > other ? one : other;
}

/* Puts back what was spoilt: no more than that, for the copies take most of the time. */
static void restore(const struct given *right) {
  uint64_t blocks = larger(given.length, right->length) / WORDS_IN_BLOCK + 1, book = larger(given.book_length, right->book_length);
  if (blocks > LENT_BLOCKS_MOST)
    blocks = LENT_BLOCKS_MOST;
  memcpy(given.words, right->words, blocks * WORDS_IN_BLOCK * sizeof given.words[0]);
  memcpy(given.book, right->book, book);
  given.length = right->length;
  given.book_length = right->book_length;
  given.io_length = right->io_length;
  given.tables_length = right->tables_length;
}

void test_chance(uint64_t first, uint64_t rounds) {
  static struct given right;
  unsigned books;
  for (uint64_t round = 0; round < rounds; round++) {
    seed = chance.state = first + round;
    any_file();
    any_book();
    right = given;
    books = records() < SMALL ? BOOKS_OF_SMALL : BOOKS_OF_LARGE; /* many where one takes little time */
    for (unsigned i = 0; i < books; i++) {
      spoil();
      count_answer(both_assign("by chance"));
      if (i == 0)
        both_needs("by chance", given.words, given.length < WORDS_IN_BLOCK ? given.length : WORDS_IN_BLOCK);
      restore(&right);
    }
  }
  seed = 0;
  static const unsigned codes[] = {REFUSED_BLOCK, REFUSED_CHECKSUM,    REFUSED_RECORD,    REFUSED_TYPE_FLAG,   REFUSED_LABEL,
                                   REFUSED_BOOK,  REFUSED_TAG_UNKNOWN, REFUSED_TAG_TWICE, REFUSED_TAG_MISSING, ASSIGNED};
  for (unsigned i = 0; i < sizeof codes / sizeof codes[0]; i++) {
    printf("answer %2u %10" PRIu64 "\n", codes[i], seen[codes[i]]);
    check(seen[codes[i]] > 0, "every answer was seen by chance");
  }
  printf("13 with no block %" PRIu64 ", missing %" PRIu64 ", over %" PRIu64 ", of another record %" PRIu64 "\n", empty_seen,
         missing_seen, over_seen, record_seen);
  check(empty_seen > 0 && missing_seen > 0 && over_seen > 0 && record_seen > 0, "every kind of 13 was seen by chance");
}
