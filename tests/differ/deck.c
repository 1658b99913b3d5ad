/* deck.c: the hand deck of 01, with the checksums of request #104. Both loaders must answer as 01 says, so that two wrong in the
   same way do not pass. */

#include "deck.h"

#include "both.h"

struct at {
  unsigned word;
  uint64_t value;
};

/* A block that is zero but for these words; after the first, a word 0 ends them. */
static struct numbers deck_block(const struct at *words) {
  struct numbers block = {.count = WORDS_IN_BLOCK};
  do
    block.at[words->word] = words->value;
  while ((++words)->word != 0);
  return block;
}

/* A fresh desk for a core of this length, all of which is room 0's. */
static void begin(uint64_t length) {
  struct run stretches[ROOMS] = {{0, length}};
  struct numbers map = map_of(stretches);
  begin_core(length);
  both_make(length, &map, told(MADE, 0));
}

/* "the three identifiers spelt from their letters" */
static void check_identifiers(void) {
  check(fieldata("*MODRC") == MODRC, "*MODRC");
  check(fieldata("*PRORC") == PRORC, "*PRORC");
  check(fieldata("*TRMRC") == TRMRC, "*TRMRC");
}

/* "word sum 0 gives checksum 0; one word 2^36-1 gives 524,286"; two gave 524,285, and by request #104 "now give 524,286". A third
   word, 1, gives another carry, and 1 is left: were what ran over added back once, after the last word, it would run over again.
   Where carries are dropped it gives 524,286. A block of each old checksum is resealed. */
static void check_checksums(void) {
  const uint64_t most = bit_at(BITS_IN_WORD) - 1, words[3] = {most, most, 1};
  static const uint64_t sums[4] = {0, 524286, 524286, 1}, old_sums[4] = {0, 524286, 524285, 524286};
  struct numbers block = {.count = WORDS_IN_BLOCK};
  uint64_t *checksum = &block.at[CHECKSUM_WORD];
  begin(CORE_MOST);
  for (unsigned count = 0; count <= 3; count++) {
    if (count > 0)
      block.at[FIRST_WORD + count - 1] = words[count - 1];
    check(reader_checksum(block.at, CHECKSUM_WORD) == sums[count], "checksum of the reader");
    seal(block.at, false);
    check(*checksum == sums[count], "checksum of the generator");
    check(reader_old_checksum(block.at, CHECKSUM_WORD) == old_sums[count], "old checksum of the reader");
    seal_as_before(block.at, false);
    check(*checksum == old_sums[count], "old checksum of the generator");
    both_reseal(&block, 1, told(RESEALED, 0));
    check(*checksum == sums[count], "the checksum resealed");
  }
}

/* The three blocks of the load printer, as 01 writes them, but "the hand deck's program block ends 000001146451" (#104): it prints
   "0 more", "1 more", "2 done 512". In 01 it ends 000001146450: so it is refused, and resealed. In the others no carry arises. */
static void check_printed_deck(void) {
  enum { CORE = 4096, AREA = 512, SIZE = 64 };
  static const struct at label[] = {{0, 0060505050505},
                                    {1, 0050505050505},
                                    {2, 0100000000000},
                                    {253, 0000001000000},
                                    {254, 0000000503637},
                                    {255, 0060505050505},
                                    {0, 0}};
  static const struct at program[] = {{0, 0502527242710},
                                      {1, 0000001000000},
                                      {5, 0401001400000},
                                      {6, 0000000000007},
                                      {7, 0200000000000},
                                      {255, 0000001146450},
                                      {0, 0}};
  static const struct at termination[] = {{0, 0503127222710}, {255, 0000000726037}, {0, 0}};
  struct numbers none = {.count = 0}, blocks[3] = {deck_block(label), deck_block(program), deck_block(termination)};
  begin(CORE);
  both_open(CORE, 0, (struct run){AREA, SIZE}, &none, &none, told(OPENED, 0));
  both_feed(CORE, 0, 0, &blocks[0], told(MORE, 0));
  both_feed(CORE, 0, 0, &blocks[1], REFUSED(CHECKSUM));
  for (unsigned i = 0; i < 3; i++) {
    uint64_t *checksum = &blocks[i].at[i == 0 ? LABEL_CHECKSUM_WORD : CHECKSUM_WORD], before = *checksum;
    both_reseal(&blocks[i], i, told(RESEALED, 0));
    check(*checksum == (i == 1 ? 0000001146451 : before), "the hand deck resealed");
    both_reseal(&blocks[i], i, i == 1 ? REFUSED(CHECKSUM) : told(RESEALED, 0));
  }
  both_feed(CORE, 0, 0, &blocks[1], told(MORE, 0));
  both_feed(CORE, 0, 0, &blocks[2], told(DONE, AREA));
  check(lent_core.start[AREA] == 7 + AREA, "7 plus the area's address");
}

/* "area at 5000", "table 0 at 40,000, length 120" */
enum { AREA_START = 5000, AREA_SIZE = 60000, TABLE_START = 40000, TABLE_LENGTH = 120 };

/* A program block with one group of one word, as the load printer's: where its words are. */
enum { IBANK_WORD = 1, GROUP_WORD = 5, PROGRAM_WORD = 6, INDICATOR_WORD = 7 };

/* Feeds a file with one core table of at least that length, and a program of this one word, whose indicators stand in one word. */
static void feed_word(uint64_t word, uint64_t indicators, uint64_t answer) {
  const uint64_t name = fieldata("P     "), spaces = fieldata("      ");
  const struct at label[] = {{NAME_WORD, name},
                             {NAME_WORD + 1, spaces},
                             {TYPE_FLAG_WORD, put(0, 35, 33, DIRECT_ROC)},
                             {COUNTS_WORD, put(0, 28, 18, 1) | put(0, 10, 0, 1)},
                             {TABLES_WORD, put(0, 35, 32, TYPE_CORE) | put(0, 8, 0, 1)},
                             {SECTIONS_WORD, put(0, 33, 18, 1)},
                             {NAME_AGAIN_WORD, name},
                             {0, 0}};
  const struct at entry[] = {{IDENTIFIER_WORD, MODRC}, {CORE_ENTRY_WORDS, TABLE_LENGTH}, {0, 0}};
  const struct at program[] = {{IDENTIFIER_WORD, PRORC}, {IBANK_WORD, put(0, 33, 18, 1)}, {GROUP_WORD, 0401001400000},
                               {PROGRAM_WORD, word},     {INDICATOR_WORD, indicators},    {0, 0}};
  struct numbers blocks[3] = {deck_block(label), deck_block(entry), deck_block(program)};
  for (int i = 0; i < 3; i++)
    seal(blocks[i].at, i == 0);
  both_feed(CORE_MOST, 0, 0, &blocks[0], told(MORE, 0));
  both_feed(CORE_MOST, 0, 0, &blocks[1], told(MORE, 0));
  both_feed(CORE_MOST, 0, 0, &blocks[2], answer);
}

/* A field in either half, whose indicator has zeros after the type: what it becomes, or the refusal, which tells this word and half.
   Every bit of the word outside the field is set, and is to stay so. */
static void check_field(uint64_t type, uint64_t field, unsigned refusal, uint64_t becomes) {
  struct numbers none = {.count = 0}, tables = {.at = {TABLE_START, TABLE_LENGTH}, .count = 2};
  for (unsigned half = 0; half < 2; half++) {
    unsigned low = half == 0 ? 18 : 0,
             indicator_low = BITS_IN_WORD - half - CHANGE_BITS; /* before a right indicator stands the left one, 0 */
    uint64_t refused = told(refusal, where(PROGRAM_WORD, half == 0 ? LEFT_HALF : RIGHT_HALF));
    uint64_t all = bit_at(BITS_IN_WORD) - 1, before = put(all, low + 15, low, field), after = put(all, low + 15, low, becomes);
    both_open(CORE_MOST, 0, (struct run){AREA_START, AREA_SIZE}, &none, &tables, told(OPENED, 0));
    feed_word(before, (bit_at(CHANGE_BITS - 1) | type) << indicator_low, refusal != 0 ? refused : told(MORE, 0));
    check(lent_core.start[AREA_START] == (refusal != 0 ? 0 : after), "the word of a field");
    both_release(CORE_MOST, 0, 0, told(RELEASED, 0));
  }
}

static void check_fields(void) {
  begin(CORE_MOST);
  check_field(CHANGE_AREA, 60535, 0, 65535); /* "area at 5000, type 000, field 60,535 gives 65,535; 60,536 gives 21." */
  check_field(CHANGE_AREA, 60536, REFUSED_VALUE, 0);
  check_field(CHANGE_TABLE, 5, 0, 40005); /* "table 0 at 40,000, length 120, type 010: field 5 gives 40,005; 8197 gives 125; */
  check_field(CHANGE_TABLE, 8197, 0, 125);
  check_field(CHANGE_TABLE, 16389, 0, 39995); /* 16,389 gives 39,995; 16,384 gives 19." */
  check_field(CHANGE_TABLE, 16384, REFUSED_FORM, 0);
  check_field(CHANGE_TABLE, bit_at(15) + 100, 0, 40100); /* "long, constant 100 added to table 0: 40,100; constant 63 gives 19." */
  check_field(CHANGE_TABLE, bit_at(15) + 63, REFUSED_FORM, 0);
}

void hand_deck(void) {
  check_identifiers();
  check_checksums();
  check_printed_deck();
  check_fields();
}
