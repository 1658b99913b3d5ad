/* peer_blocks.h: what the peer's calls share: the test of a block, and of a label. "01" is the rules document. */

#ifndef PEER_BLOCKS_H
#define PEER_BLOCKS_H

#include <stdbool.h>
#include <stdint.h>

#include "../tests/block_layout.h"

/* Bits 35 to low of a word, which has none above. */
static inline uint64_t top(uint64_t word, unsigned low) {
  return word >> low;
}

/* ---- the label */

static bool is_letter_or_digit(uint64_t c) {
  return (c >= FIRST_LETTER && c <= LAST_LETTER) || (c >= FIRST_DIGIT && c <= LAST_DIGIT);
}

enum { NO_FAULT_WORD = WORDS_IN_BLOCK };

/* The word of the name that is at fault, or NO_FAULT_WORD. */
static uint64_t name_fault(uint64_t first, uint64_t second) {
  bool ended = false;
  if (!is_letter_or_digit(top(first, 30)))
    return NAME_WORD;
  for (unsigned i = 1; i < NAME_CHARACTERS; i++) {
    unsigned low = (i < CHARACTERS_IN_WORD ? 30 : 66) - CHARACTER_BITS * i;
    uint64_t c = part(i < CHARACTERS_IN_WORD ? first : second, low + CHARACTER_BITS - 1, low);
    if (c == SPACE)
      ended = true;
    else if (ended || (!is_letter_or_digit(c) && c != HYPHEN))
      return NAME_WORD + (i >= CHARACTERS_IN_WORD);
  }
  return NO_FAULT_WORD;
}

/* What the label tells: the entries of types 0 and 2, of type 3 and of type 12. */
struct entries {
  uint64_t channels, units, tables;
};

/* Counts a table word, and gives whether it may have so many entries. */
static bool count_table(uint64_t type, uint64_t n, struct entries *entries) {
  switch (type) {
  case TYPE_JUMP_SWITCH:
  case TYPE_CHANNEL:
    entries->channels += n;
    return entries->channels <= CHANNELS_MOST;
  case TYPE_UNIT:
    entries->units = n;
    return entries->channels + n <= ENTRIES_MOST;
  case TYPE_CORE:
    entries->tables = n;
    return n <= ENTRIES_MOST;
  default:
    return false;
  }
}

/* Reads the table words and the total. The word that is at fault, or NO_FAULT_WORD. */
static uint64_t tables_fault(const uint64_t *block, struct entries *entries) {
  uint64_t count = part(block[COUNTS_WORD], 28, 18), least = 0;
  *entries = (struct entries){0, 0, 0};
  for (uint64_t i = TABLES_WORD; i < TABLES_WORD + count; i++) { /* the fifth word at the latest is at fault */
    uint64_t type = top(block[i], 32), n = part(block[i], 8, 0);
    if (type < least || n == 0 || !count_table(type, n, entries))
      return i;
    least = type + 1;
  }
  return entries->channels + entries->units + entries->tables == part(block[COUNTS_WORD], 10, 0) ? NO_FAULT_WORD : COUNTS_WORD;
}

/* Refusals 14 and 15, or 0. */
static uint64_t label_refusal(const uint64_t *block, struct entries *entries) {
  uint64_t last = block[SECTIONS_WORD], at = name_fault(block[NAME_WORD], block[NAME_WORD + 1]);
  if (at != NO_FAULT_WORD)
    return REFUSED_AT(LABEL, at);
  if (top(block[TYPE_FLAG_WORD], 33) != DIRECT_ROC)
    return REFUSED_AT(TYPE_FLAG, TYPE_FLAG_WORD);
  at = tables_fault(block, entries);
  if (at != NO_FAULT_WORD)
    return REFUSED_AT(LABEL, at);
  if (top(last, 18) != 1 || part(last, 17, 0) > entries->tables)
    return REFUSED_AT(LABEL, SECTIONS_WORD);
  return block[NAME_AGAIN_WORD] == block[NAME_WORD] ? 0 : REFUSED_AT(LABEL, NAME_AGAIN_WORD);
}

/* ---- a block */

static const uint64_t no_sum = UINT64_MAX;

/* The sum of a block's words in one pass, or no_sum where refusal 11 is due. The two halves are summed side by side, so that not
   every addition waits for the one before. */
static inline uint64_t sum_words(const uint64_t *block, uint64_t block_len) {
  enum { HALF = WORDS_IN_BLOCK / 2 };
  uint64_t any[2] = {0, 0}, sum[2] = {0, 0};
  if (block_len != WORDS_IN_BLOCK)
    return no_sum;
#pragma GCC unroll 8
  for (unsigned i = 0; i < HALF; i++) {
    any[0] |= block[i];
    sum[0] += block[i];
    any[1] |= block[HALF + i];
    sum[1] += block[HALF + i];
  }
  return (any[0] | any[1]) >> BITS_IN_WORD != 0 ? no_sum : sum[0] + sum[1];
}

/* The upper 18 bits added to the lower 18; what is above bit 35 is dropped. */
static uint64_t folded(uint64_t sum) {
  return part(sum, 35, 18) + part(sum, 17, 0);
}

/* A sum with what runs over bit 35 added back at bit 0. */
static uint64_t carried_round(uint64_t sum) {
  return part(sum, 35, 0) + (sum >> BITS_IN_WORD);
}

/* The checksum of words with this sum. What ran over bit 35 is 254 at most. It is added back after the last word, and that may
   carry once more. */
static uint64_t checksum_of(uint64_t sum) {
  return folded(carried_round(carried_round(sum)));
}

/* Refusals 11 and 12, or 0; the checksum word is word `at`. */
static uint64_t block_refusal(const uint64_t *block, uint64_t block_len, unsigned at) {
  uint64_t sum = sum_words(block, block_len);
  if (sum == no_sum)
    return REFUSED_BLOCK;
  return checksum_of(sum - block[at]) == block[at] ? 0 : REFUSED_CHECKSUM;
}

#endif
