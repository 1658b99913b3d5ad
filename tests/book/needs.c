/* needs.c: what needs says of a label: refusals 11, 12, 14 and 15 at their edges, and its value for every count of entries. */

#include <string.h>

#include "book.h"

static uint64_t label[2 * WORDS_IN_BLOCK];

static void refused_labels(void) {
  for (unsigned i = 0; i < label_fault_count; i++) {
    write_file(1, 1);
    given.words[label_faults[i].word] = label_faults[i].value;
    needs_is(label_faults[i].name, given.words, WORDS_IN_BLOCK, REFUSED(CHECKSUM));
    seal_given(0);
    needs_is(label_faults[i].name, given.words, WORDS_IN_BLOCK, label_answer(i));
    given.words[WORDS_IN_BLOCK - 2] |= bit_at(BITS_IN_WORD);
    needs_is("a label fault, and a word of over 36 bits", given.words, WORDS_IN_BLOCK, REFUSED(BLOCK));
  }
  put_label(label, 1, 1, 1, 1);
  label[COUNTS_WORD] += bit_at(18) + 1; /* a fifth table word, of one entry, though its type rises */
  label[TABLES_WORD + 4] = put(0, 35, 32, TYPE_CORE + 1) | 1;
  memcpy(given.words, label, sizeof label);
  seal_given(0);
  needs_is("a fifth table word", given.words, WORDS_IN_BLOCK, REFUSED_AT(LABEL, TABLES_WORD + 4));
}

static void lengths(void) {
  put_label(label, 0, 1, 0, 0);
  for (uint64_t length = 0; length <= 2 * WORDS_IN_BLOCK; length++)
    needs_is("a label of this many words", label, length, length == WORDS_IN_BLOCK ? told_needs(1, 0, 1) : REFUSED(BLOCK));
  for (unsigned word = 0; word < WORDS_IN_BLOCK; word++) {
    uint64_t was = label[word];
    label[word] = was ^ bit_at(word % BITS_IN_WORD);
    needs_is("a word of the label changed", label, WORDS_IN_BLOCK, REFUSED(CHECKSUM));
    label[word] = was | bit_at(BITS_IN_WORD);
    needs_is("a word of the label has over 36 bits", label, WORDS_IN_BLOCK, REFUSED(BLOCK));
    label[word] = was | bit_at(63);
    needs_is("a word of the label has 64 bits", label, WORDS_IN_BLOCK, REFUSED(BLOCK));
    label[word] = was;
  }
}

/* What is disregarded may be anything. */
static void disregarded(void) {
  put_label(given.words, 2, 3, 4, 5);
  given.words[TYPE_FLAG_WORD] |= part(~(uint64_t)0, 32, 0);
  given.words[COUNTS_WORD] |= bit_at(35) | bit_at(29) | bit_at(17) | bit_at(11);
  given.words[TABLES_WORD + 3] |= part(~(uint64_t)0, 31, 9) << 9;
  for (unsigned word = TABLES_WORD + 4; word < SECTIONS_WORD; word++)
    given.words[word] = part(~(uint64_t)0, 35, 0);
  seal_given(0);
  needs_is("disregarded bits and words all set", given.words, WORDS_IN_BLOCK, told_needs(9, 5, 1));
}

/* Every count of I/O entries and of core entries. How the I/O entries are parted by type varies with them. */
static void every_count(void) {
  for (uint64_t io = 0; io <= ENTRIES_MOST; io++)
    for (uint64_t tables = 0; tables <= ENTRIES_MOST; tables++) {
      uint64_t channels = io < CHANNELS_MOST ? (io + tables) % (io + 1) : (io + tables) % (CHANNELS_MOST + 1);
      uint64_t words = IO_ENTRY_WORDS * io + CORE_ENTRY_WORDS * tables;
      put_label(label, channels / 3, channels - channels / 3, io - channels, tables);
      needs_is("a count of entries", label, WORDS_IN_BLOCK, told_needs(io, tables, (words + 253) / 254));
    }
}

void test_needs(void) {
  refused_labels();
  lengths();
  disregarded();
  every_count();
}
