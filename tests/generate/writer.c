/* writer.c: chance, words, and a file written word by word. */

#include "writer.h"

#include <stdio.h>
#include <stdlib.h>

/* ---- chance: the generator splitmix64 */

uint64_t any(struct chance *chance) {
  uint64_t mixed = chance->state += 0x9e3779b97f4a7c15;
  mixed = (mixed ^ mixed >> 30) * 0xbf58476d1ce4e5b9;
  mixed = (mixed ^ mixed >> 27) * 0x94d049bb133111eb;
  return mixed ^ mixed >> 31;
}

uint64_t any_size(struct chance *chance) {
  unsigned shift = (unsigned)below(chance, 64);
  return any(chance) >> shift;
}

uint64_t below(struct chance *chance, uint64_t bound) {
  return any(chance) % bound;
}

uint64_t between(struct chance *chance, uint64_t least, uint64_t most) {
  return least + below(chance, most - least + 1);
}

bool one_in(struct chance *chance, uint64_t count) {
  return below(chance, count) == 0;
}

uint64_t any_word(struct chance *chance) {
  return any(chance) >> (64 - BITS_IN_WORD);
}

uint64_t any_bit(struct chance *chance, uint64_t bits) {
  return bit_at((unsigned)below(chance, bits));
}

uint64_t smaller(uint64_t one, uint64_t other) {
  return one < other ? one : other;
}

uint64_t few(struct chance *chance, uint64_t most) {
  const uint64_t edges[4] = {0, smaller(1, most), most - (most > 0), most};
  return one_in(chance, 10) ? edges[below(chance, 4)] : below(chance, smaller(most, 6) + 1);
}

/* ---- words */

uint64_t any_zero_bit(struct chance *chance) {
  static const unsigned zero_bits[4] = {35, 34, 17, 16};
  return bit_at(zero_bits[below(chance, 4)]);
}

static uint64_t fieldata_character(char character) {
  switch (character) {
  case '*':
    return ASTERISK;
  case '-':
    return HYPHEN;
  case ' ':
    return SPACE;
  default:
    return (uint64_t)(character <= '9' ? FIRST_DIGIT + (character - '0') : FIRST_LETTER + (character - 'A'));
  }
}

uint64_t fieldata(const char *characters) {
  uint64_t word = 0;
  for (int i = 0; i < CHARACTERS_IN_WORD; i++)
    word = word << CHARACTER_BITS | fieldata_character(characters[i]);
  return word;
}

/* ---- checksums */

static const uint64_t word_most = ((uint64_t)1 << BITS_IN_WORD) - 1;

static unsigned checksum_place(bool label) {
  return label ? LABEL_CHECKSUM_WORD : CHECKSUM_WORD;
}

/* The other words, added with no carry taken out. */
static uint64_t total(const uint64_t *block, bool label) {
  uint64_t sum = 0;
  for (int i = 0; i < WORDS_IN_BLOCK; i++)
    sum += block[i];
  return sum - block[checksum_place(label)];
}

/* A carry that is added back takes 2^36 - 1 from the sum, and one arises for as long as more than that would be left. */
uint64_t carries_in(const uint64_t *block, bool label) {
  uint64_t sum = total(block, label);
  return sum == 0 ? 0 : (sum - 1) / word_most;
}

static uint64_t folded(uint64_t sum) {
  return part(sum, 35, 18) + part(sum, 17, 0);
}

void seal(uint64_t *block, bool label) {
  block[checksum_place(label)] = folded(total(block, label) - carries_in(block, label) * word_most);
}

bool seal_as_before(uint64_t *block, bool label) {
  uint64_t *word = &block[checksum_place(label)], right = *word;
  *word = folded(total(block, label));
  return *word != right;
}

/* ---- the writer */

static const unsigned fault_answers[] = {NOT_FORETOLD,
#define FAULT_ANSWER(name, answer, text) answer,
                                         FAULTS(FAULT_ANSWER)
#undef FAULT_ANSWER
};

const char *fault_text(enum fault fault) {
  static const char *const texts[] = {"no fault",
#define FAULT_TEXT(name, answer, text) text,
                                      FAULTS(FAULT_TEXT)
#undef FAULT_TEXT
  };
  return texts[fault];
}

void mark(struct file *file, unsigned block, uint64_t there) {
  file->faulty = true;
  file->fault_block = block;
  file->fault_answer = fault_answers[file->wanted];
  file->fault_where = there;
}

bool wants(const struct writer *writer, enum fault fault) {
  return writer->file->wanted == fault && !writer->file->faulty;
}

bool fires_at(struct writer *writer, enum fault fault, unsigned word) {
  if (!wants(writer, fault))
    return false;
  mark(writer->file, writer->file->count - 1, where(word, NO_HALF));
  return true;
}

bool fires(struct writer *writer, enum fault fault) {
  return fires_at(writer, fault, writer->at);
}

bool fires_sometime(struct writer *writer, enum fault fault) {
  return wants(writer, fault) && one_in(writer->chance, writer->rare) && fires(writer, fault);
}

bool fires_again(const struct writer *writer, enum fault fault) {
  return writer->file->wanted == fault && writer->file->faulty && one_in(writer->chance, 3);
}

uint64_t *block_of(const struct writer *writer) {
  return writer->file->blocks[writer->file->count - 1];
}

void begin_block(struct writer *writer, uint64_t identifier) {
  if (writer->file->count == BLOCKS_MOST) {
    fprintf(stderr, "generate: over %d blocks\n", BLOCKS_MOST);
    abort();
  }
  unsigned zeros = one_in(writer->chance, 2) ? 0 : (unsigned)below(writer->chance, BITS_IN_WORD + 1);
  writer->file->count++;
  for (int i = 0; i < WORDS_IN_BLOCK; i++)
    block_of(writer)[i] = any_word(writer->chance) >> zeros;
  block_of(writer)[IDENTIFIER_WORD] = identifier;
  writer->at = FIRST_WORD;
}

void close_block(struct writer *writer, unsigned spare, bool label) {
  uint64_t *block = block_of(writer), sum = total(block, label) - block[spare];
  if (one_in(writer->chance, 3))
    block[spare] = part(0 - sum - below(writer->chance, (sum >> BITS_IN_WORD) + 3), BITS_IN_WORD - 1, 0);
  seal(block, label);
}

void end_block(struct writer *writer) {
  if (writer->at <= LAST_WORD)
    close_block(writer, LAST_WORD, false);
  else
    seal(block_of(writer), false);
}

void write_word(struct writer *writer, uint64_t word) {
  block_of(writer)[writer->at++] = word;
}
