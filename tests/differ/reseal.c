/* reseal.c: the blocks and files of reseal.h. All is foretold: the kind of a block tells the answer, and the generator's rule tells
   the words of one that is resealed. */

#include "reseal.h"

#include <inttypes.h>
#include <stdio.h>
#include <string.h>

#include "steps.h"

/* ---- kinds of block: name, the answer that it gets, and what it is. All are sealed by the old rule where no other is named. */

#define KINDS(X)                                                                                 \
  X(NO_CARRY, RESEALED, "no carry in the sum")                                                   \
  X(ONE_CARRY, RESEALED, "one carry")                                                            \
  X(MANY_CARRIES, RESEALED, "several carries")                                                   \
  X(MOST_CARRIES, RESEALED, "as many carries as there can be")                                   \
  X(CARRIED_AGAIN, RESEALED, "carries that carry once more when they are added back")            \
  X(NOT_QUITE_AGAIN, RESEALED, "carries that set every bit of the sum when they are added back") \
  X(ZEROS, RESEALED, "zeros")                                                                    \
  X(NEW_SEAL, REFUSED_CHECKSUM, "the checksum of the rule in force, where the two differ")       \
  X(SEAL_MORE, REFUSED_CHECKSUM, "a checksum one too high")                                      \
  X(SEAL_LESS, REFUSED_CHECKSUM, "a checksum one too low")                                       \
  X(LABEL_NUMBERED, REFUSED_CHECKSUM, "a label with another index than 0")                       \
  X(OTHER_AS_LABEL, REFUSED_CHECKSUM, "another block with index 0")                              \
  X(WORDS_WIDE, REFUSED_BLOCK, "bit 63 of two words, so that 64 bits of the sum are the same")   \
  X(WIDE_AND_WRONG, REFUSED_BLOCK, "a bit above bit 35, and a wrong checksum")                   \
  X(WORDS_0, REFUSED_BLOCK, "no words")                                                          \
  X(WORDS_1, REFUSED_BLOCK, "one word")                                                          \
  X(WORDS_255, REFUSED_BLOCK, "255 words")                                                       \
  X(WORDS_257, REFUSED_BLOCK, "257 words")                                                       \
  X(WORDS_MORE, REFUSED_BLOCK, "more than 257 words")

#define KIND_NAME(name, code, text) name,
enum kind { KINDS(KIND_NAME) KIND_COUNT };
#undef KIND_NAME

#define KIND_ROW(name, code, text) {code, text},
static const struct {
  uint64_t code;
  const char *text;
} kinds[KIND_COUNT] = {KINDS(KIND_ROW)};
#undef KIND_ROW

static const struct {
  uint64_t index;
  const char *text;
} indices[] = {{0, "index 0"},
               {1, "index 1"},
               {2, "index 2"},
               {(uint64_t)1 << 32, "index 2^32"},
               {(uint64_t)1 << 63, "index 2^63"},
               {UINT64_MAX, "index 2^64 - 1"}};

/* 255 words are summed, so that a carry can arise 254 times. */
enum { INDICES = sizeof indices / sizeof indices[0], BITS_IN_NUMBER = 64, CARRIES_MOST = WORDS_IN_BLOCK - 2 };

static const uint64_t word_most = ((uint64_t)1 << BITS_IN_WORD) - 1;

/* How often each was seen: a kind; an answer; a block with this index, or with none of these, that was resealed; one that was
   resealed once more, accepted and refused; */
static uint64_t kinds_seen[KIND_COUNT], codes_seen[CODES], indices_seen[INDICES], others_seen, again_accepted, again_refused;

/* a bit turned alone, in the checksum word and in another; a file, and blocks of one for which the rules agree, and differ. */
static uint64_t seal_bits_seen[BITS_IN_NUMBER], word_bits_seen[BITS_IN_NUMBER], files_seen, blocks_agree, blocks_differ;

/* ---- words and indices by chance */

static unsigned seal_place(bool label) {
  return label ? LABEL_CHECKSUM_WORD : CHECKSUM_WORD;
}

/* Any of the 255 words that are summed, often the first or the last. */
static uint64_t *any_summed(struct numbers *block, bool label) {
  unsigned at;
  do
    at = one_in(&chance, 8) ? 0 : one_in(&chance, 8) ? seal_place(!label) : (unsigned)below(&chance, WORDS_IN_BLOCK);
  while (at == seal_place(label));
  return &block->at[at];
}

/* 0 is the label's. */
static uint64_t any_index(bool label) {
  if (label)
    return 0;
  return one_in(&chance, 4) ? any_size(&chance) | 1 : indices[between(&chance, 1, INDICES - 1)].index;
}

/* How many carries are to arise in the sum. */
static uint64_t any_carries(enum kind kind) {
  switch (kind) {
  case NO_CARRY:
  case ZEROS:
    return 0;
  case ONE_CARRY:
    return 1;
  case MANY_CARRIES:
  case CARRIED_AGAIN:
    return one_in(&chance, 4) ? 2 : between(&chance, 2, CARRIES_MOST);
  case MOST_CARRIES:
    return CARRIES_MOST;
  case NOT_QUITE_AGAIN:
  case NEW_SEAL:
  case LABEL_NUMBERED:
  case OTHER_AS_LABEL:
    return between(&chance, 1, CARRIES_MOST);
  default:
    return one_in(&chance, 3) ? 0 : between(&chance, 1, CARRIES_MOST);
  }
}

/* What the words are to add up to, with no carry taken out. A carry that is added back takes 2^36 - 1 from the sum, so that this
   many arise from the least to the most. */
static uint64_t any_total(enum kind kind, uint64_t carries) {
  uint64_t least = carries == 0 ? 0 : carries * word_most + 1, most = (carries + 1) * word_most;
  switch (kind) {
  case ZEROS:
    return 0;
  case CARRIED_AGAIN: /* just below so many times 2^36: one fewer run over bit 35, and added back they carry once more */
    return least + below(&chance, carries - 1);
  case NOT_QUITE_AGAIN:
    return most;
  default:
    return one_in(&chance, 4) ? least : one_in(&chance, 4) ? most : between(&chance, least, most);
  }
}

/* ---- a block */

/* Words that add up to this: as many with every bit set as it takes, of which then, mostly, parts are moved to other words. */
static void spread(struct numbers *block, bool label, uint64_t total) {
  enum { MOVES = 300 };
  uint64_t from = below(&chance, WORDS_IN_BLOCK);
  for (unsigned i = 0; i < WORDS_IN_BLOCK; i++) {
    uint64_t at = (from + i) % WORDS_IN_BLOCK;
    if (at == seal_place(label))
      continue;
    block->at[at] = total < word_most ? total : word_most;
    total -= block->at[at];
  }
  for (unsigned i = one_in(&chance, 4) ? 0 : MOVES; i > 0; i--) {
    uint64_t *one = any_summed(block, label), *other = any_summed(block, label), left = word_most - *other;
    uint64_t moved = one == other ? 0 : below(&chance, (*one < left ? *one : left) + 1);
    *one -= moved;
    *other += moved;
  }
}

/* The largest word is put where the checksum is looked for with the wrong index. With a carry in the sum it is larger than any
   checksum. */
static void put_largest_there(struct numbers *block, bool label) {
  uint64_t *there = &block->at[seal_place(!label)], *largest = there, word = *there;
  for (unsigned i = 0; i < WORDS_IN_BLOCK; i++)
    if (i != seal_place(label) && block->at[i] > *largest)
      largest = &block->at[i];
  *there = *largest;
  *largest = word;
}

/* A block of this kind before it is spoilt. */
static struct numbers any_block(enum kind kind, bool label, uint64_t carries) {
  struct numbers block = {.count = WORDS_IN_BLOCK};
  spread(&block, label, any_total(kind, carries));
  if (kind == LABEL_NUMBERED || kind == OTHER_AS_LABEL)
    put_largest_there(&block, label);
  seal(block.at, label);
  check(carries_in(block.at, label) == carries, "as many carries as are to arise");
  if (kind != NEW_SEAL)
    check(seal_as_before(block.at, label) == (carries > 0), "the rules differ just where a carry arises");
  return block;
}

/* Of so many words; those past a block are its own again. */
static void set_length(struct numbers *block, uint64_t count) {
  for (uint64_t i = WORDS_IN_BLOCK; i < count; i++)
    block->at[i] = block->at[i - WORDS_IN_BLOCK];
  block->count = count;
}

static void spoil(struct numbers *block, bool label, enum kind kind) {
  enum { TOP = BITS_IN_NUMBER - 1 };
  uint64_t *checksum = &block->at[seal_place(label)], *word = any_summed(block, label), *other = any_summed(block, label);
  switch (kind) {
  case SEAL_MORE:
    *checksum += 1;
    break;
  case SEAL_LESS: /* 0 becomes 2^36 - 1 */
    *checksum = part(*checksum - 1, BITS_IN_WORD - 1, 0);
    break;
  case WORDS_WIDE:
    while (other == word)
      other = any_summed(block, label);
    *word |= bit_at(TOP);
    *other |= bit_at(TOP);
    break;
  case WIDE_AND_WRONG:
    *word |= bit_at((unsigned)between(&chance, BITS_IN_WORD, TOP));
    *checksum ^= 1;
    break;
  case WORDS_0:
    set_length(block, 0);
    break;
  case WORDS_1:
    set_length(block, 1);
    break;
  case WORDS_255:
    set_length(block, WORDS_IN_BLOCK - 1);
    break;
  case WORDS_257:
    set_length(block, WORDS_IN_BLOCK + 1);
    break;
  case WORDS_MORE:
    set_length(block, one_in(&chance, 2) ? 2 * WORDS_IN_BLOCK : between(&chance, WORDS_IN_BLOCK + 2, NUMBERS_MOST));
    break;
  default:
    break;
  }
}

/* ---- blocks that are resealed */

/* The answer is to be of this code. Then the block is to be sealed as the generator seals it, or, refused, to be as it was. */
static void reseal(struct numbers *block, uint64_t index, uint64_t code) {
  struct numbers after = *block;
  if (code == RESEALED)
    seal(after.at, index == 0);
  both_reseal(block, index, told(code, 0));
  if (memcmp(block->at, after.at, sizeof after.at) != 0)
    fail("reseal", "another block was foretold", told(code, 0), told(code, 0), 0);
  codes_seen[code]++;
}

static void count_index(uint64_t index) {
  unsigned i = 0;
  while (i < INDICES && indices[i].index != index)
    i++;
  if (i < INDICES)
    indices_seen[i]++;
  else
    others_seen++;
}

static void reseal_kind(enum kind kind) {
  bool label = kind == LABEL_NUMBERED || (kind != OTHER_AS_LABEL && one_in(&chance, 3));
  bool as_label = kind == OTHER_AS_LABEL || (kind != LABEL_NUMBERED && label);
  uint64_t carries = any_carries(kind), index = any_index(as_label);
  struct numbers block = any_block(kind, label, carries);
  spoil(&block, label, kind);
  reseal(&block, index, kinds[kind].code);
  kinds_seen[kind]++;
  if (kinds[kind].code != RESEALED)
    return;
  count_index(index);
  reseal(&block, index, carries > 0 ? REFUSED_CHECKSUM : RESEALED); /* once more */
  again_refused += carries > 0;
  again_accepted += carries == 0;
}

/* Each bit of this word is turned alone. A sum that is off by one of bits 0 to 35 is never folded to the same, even where a carry
   more or less is dropped. */
static void turn_bits(struct numbers *block, uint64_t index, uint64_t *word, uint64_t *bits) {
  for (unsigned bit = 0; bit < BITS_IN_NUMBER; bit++) {
    *word ^= bit_at(bit);
    reseal(block, index, bit < BITS_IN_WORD ? REFUSED_CHECKSUM : REFUSED_BLOCK);
    *word ^= bit_at(bit);
    bits[bit]++;
  }
}

void reseal_blocks(void) {
  enum kind good = (enum kind)between(&chance, NO_CARRY, ZEROS);
  bool label = one_in(&chance, 2);
  uint64_t index = any_index(label);
  struct numbers block = any_block(good, label, any_carries(good));
  turn_bits(&block, index, &block.at[seal_place(label)], seal_bits_seen);
  turn_bits(&block, index, any_summed(&block, label), word_bits_seen);
  for (unsigned kind = 0; kind < KIND_COUNT; kind++)
    reseal_kind((enum kind)kind);
}

/* ---- a file that is resealed */

/* Request #104: "An old seal meets 12 wherever the two differ". Resealed, the block is the generator's word for word, and is
   accepted. */
static void feed_resealed(const struct file *file, unsigned index, uint64_t room, uint64_t place) {
  struct numbers block = {.count = WORDS_IN_BLOCK};
  memcpy(block.at, file->blocks[index], sizeof file->blocks[index]);
  if (seal_as_before(block.at, index == 0)) {
    both_feed(core_length, room, place, &block, REFUSED(CHECKSUM));
    blocks_differ++;
  } else {
    blocks_agree++;
  }
  reseal(&block, index, RESEALED);
  check(memcmp(block.at, file->blocks[index], sizeof file->blocks[index]) == 0, "a resealed block is the generator's");
  both_feed(core_length, room, place, &block, index == file->termination ? told(DONE, file->start) : told(MORE, 0));
}

void reseal_file(void) {
  uint64_t room, answer;
  struct run area = any_area(&room);
  struct file *file = file_make(&chance, area, NO_FAULT);
  struct numbers io = io_of(file), tables = tables_of(file);
  answer = both_open(core_length, room, area, &io, &tables, 0);
  if (CLAMP_CODE(answer) == OPENED) {
    for (unsigned index = 0; index <= file->termination; index++)
      feed_resealed(file, index, room, CLAMP_VALUE(answer));
    check_image(file, told(DONE, file->start));
    both_release(core_length, room, CLAMP_VALUE(answer), told(RELEASED, 0));
    files_seen++;
  }
  file_drop(file);
}

/* ---- the result */

/* What has to be seen beside kinds, indices and bits. */
static const struct {
  const uint64_t *seen;
  const char *text;
} others[] = {{&others_seen, "any other index"},
              {&again_accepted, "once more, without a carry"},
              {&again_refused, "once more, with a carry"},
              {&files_seen, "a whole file"},
              {&blocks_agree, "a block of a file, without a carry"},
              {&blocks_differ, "a block of a file, with a carry"}};

static bool was_seen(uint64_t times, const char *text) {
  if (times == 0)
    printf("never seen: reseal, %s\n", text);
  return times > 0;
}

bool print_reseals(void) {
  bool all = true;
  for (unsigned kind = 0; kind < KIND_COUNT; kind++)
    all &= was_seen(kinds_seen[kind], kinds[kind].text);
  for (unsigned i = 0; i < INDICES; i++)
    all &= was_seen(indices_seen[i], indices[i].text);
  for (unsigned bit = 0; bit < BITS_IN_NUMBER; bit++) {
    all &= was_seen(seal_bits_seen[bit], "a bit of the checksum word turned");
    all &= was_seen(word_bits_seen[bit], "a bit of another word turned");
  }
  for (unsigned i = 0; i < sizeof others / sizeof others[0]; i++)
    all &= was_seen(*others[i].seen, others[i].text);
  printf("resealed   %12" PRIu64 ", refused 11: %" PRIu64 ", refused 12: %" PRIu64 "\n", codes_seen[RESEALED],
         codes_seen[REFUSED_BLOCK], codes_seen[REFUSED_CHECKSUM]);
  printf("resealed once more, accepted: %" PRIu64 ", refused: %" PRIu64 "\n", again_accepted, again_refused);
  printf("files resealed: %" PRIu64 ", blocks of them with no carry in the sum: %" PRIu64 ", with one or more: %" PRIu64 "\n",
         files_seen, blocks_agree, blocks_differ);
  return all;
}
