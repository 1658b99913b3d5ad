/* fronts.c: what assign says of the label and the modification blocks that it is lent: refusals 11 to 15, and that they come before
   those of the book. */

#include <stddef.h>

#include "book.h"
#include "reader.h"

/* ---- the label */

/* Of a file with one channel and one table: word 3 has 2 table words and 2 entries, word 4 the channel, word 5 the table. */
const struct label_fault label_faults[] = {
    {"the name starts with a space", 0, UINT64_C(0050505050505), REFUSED_LABEL, 0},
    {"the name starts with a hyphen", 0, UINT64_C(0410505050505), REFUSED_LABEL, 0},
    {"a code before the letters in the name", 0, UINT64_C(0060405050505), REFUSED_LABEL, 0},
    {"a code after the letters in the name", 0, UINT64_C(0064005050505), REFUSED_LABEL, 0},
    {"a code before the digits in the name", 0, UINT64_C(0065705050505), REFUSED_LABEL, 0},
    {"a code after the digits in the name", 0, UINT64_C(0067205050505), REFUSED_LABEL, 0},
    {"a space inside the name", 0, UINT64_C(0060506050505), REFUSED_LABEL, 0},
    {"a space in word 0, a letter in word 1", 1, UINT64_C(0060505050505), REFUSED_LABEL, 1},
    {"no character in word 1", 1, 0, REFUSED_LABEL, 1},
    {"type flag 000", 2, 0, REFUSED_TYPE_FLAG, 2},
    {"type flag 011", 2, UINT64_C(0300000000000), REFUSED_TYPE_FLAG, 2},
    {"type flag 101", 2, UINT64_C(0577777777777), REFUSED_TYPE_FLAG, 2},
    {"an entry total of one less", 3, UINT64_C(0000002000001), REFUSED_LABEL, 3},
    {"an entry total of one more", 3, UINT64_C(0000002000003), REFUSED_LABEL, 3},
    {"a table word too few", 3, UINT64_C(0000001000002), REFUSED_LABEL, 3},
    {"a table word too many", 3, UINT64_C(0000003000002), REFUSED_LABEL, 6},
    {"2,047 table words", 3, UINT64_C(0003777000002), REFUSED_LABEL, 6},
    {"a type that is not carried", 4, UINT64_C(0040000000001), REFUSED_LABEL, 4},
    {"a table of no entries", 4, UINT64_C(0100000000000), REFUSED_LABEL, 4},
    {"17 channels", 4, UINT64_C(0100000000021), REFUSED_LABEL, 4},
    {"129 units", 4, UINT64_C(0140000000201), REFUSED_LABEL, 4},
    {"a type twice", 5, UINT64_C(0100000000001), REFUSED_LABEL, 5},
    {"a type that does not rise", 5, UINT64_C(0000000000001), REFUSED_LABEL, 5},
    {"129 core tables", 5, UINT64_C(0600000000201), REFUSED_LABEL, 5},
    {"a channel and 128 units", 5, UINT64_C(0140000000200), REFUSED_LABEL, 5},
    {"a type past the last", 5, UINT64_C(0640000000001), REFUSED_LABEL, 5},
    {"no segment", 253, 0, REFUSED_LABEL, 253},
    {"two segments", 253, UINT64_C(0000002000000), REFUSED_LABEL, 253},
    {"more table sections than tables", 253, UINT64_C(0000001000002), REFUSED_LABEL, 253},
    {"bit 16 of word 253", 253, UINT64_C(0000001200000), REFUSED_LABEL, 253},
    {"word 255 is not word 0", 255, UINT64_C(0070505050505), REFUSED_LABEL, 255},
};

const unsigned label_fault_count = sizeof label_faults / sizeof label_faults[0];

uint64_t label_answer(unsigned fault) {
  return told(label_faults[fault].code, where(label_faults[fault].told_at, NO_HALF));
}

void test_labels(void) {
  for (unsigned i = 0; i < label_fault_count; i++) {
    write_file(1, 1);
    write_book();
    given.words[label_faults[i].word] = label_faults[i].value;
    assign_is(label_faults[i].name, REFUSED(CHECKSUM));
    seal_given(0);
    assign_is(label_faults[i].name, label_answer(i));
    given.words[WORDS_IN_BLOCK + CHECKSUM_WORD] ^= 1;
    assign_is("a label fault, and a later block's checksum differs", label_answer(i));
    given.length = WORDS_IN_BLOCK;
    assign_is("a label fault, and a block missing", label_answer(i));
  }
  write_file(1, 1);
  write_book();
  for (unsigned word = 0; word < WORDS_IN_BLOCK; word++) {
    given.words[word] |= bit_at(word % 2 == 0 ? BITS_IN_WORD : 63);
    assign_is("a word of the label has over 36 bits", REFUSED(BLOCK));
    given.words[word] = part(given.words[word], 35, 0);
  }
  assign_is("the label as it was", told(ASSIGNED, 0));
  given.words[LABEL_CHECKSUM_WORD]++;
  assign_is("the label's checksum is one more", REFUSED(CHECKSUM));
  for (given.length = 1; given.length < WORDS_IN_BLOCK; given.length++)
    assign_is("a part of a label", REFUSED(BLOCK));
}

/* ---- blocks that are missing */

void test_missing(void) {
  static const struct { uint64_t io, tables; } files[] = {{1, 0}, {0, 1}, {127, 0}, {128, 0}, {128, 84}, {128, 85}, {128, 128}};
  write_file(0, 0);
  given.length = 0;
  assign_is("no block at all", REFUSED_AT(RECORD, 0));
  given.book_length = 1;
  given.io_length = 2;
  assign_is("no block at all, a part record and a list too long", REFUSED_AT(RECORD, 0));
  write_file(0, 0);
  assign_is("a file without entries, its label alone", told(ASSIGNED, 0));
  for (unsigned i = 0; i < sizeof files / sizeof files[0]; i++) {
    write_file(files[i].io, files[i].tables);
    write_book();
    assign_is("every block is there", told(ASSIGNED, 0));
    for (uint64_t whole = needed(); whole > 0; whole--) {
      for (given.length = WORDS_IN_BLOCK * (whole + 1) - 1; given.length > WORDS_IN_BLOCK * whole; given.length--)
        assign_is("a part of a modification block", REFUSED(BLOCK));
      assign_is("a modification block missing", REFUSED_AT(RECORD, WORDS_IN_BLOCK * whole));
    }
  }
}

/* ---- blocks that are needed */

/* Each block at fault by itself, and with a fault in the block after it: block by block. */
static void test_block(uint64_t block) {
  static const uint64_t others[] = {PRORC, TRMRC, 0, MODRC + 1, UINT64_C(0060505050505)};
  uint64_t *words = block_given(block), was;
  given.words[given.length - 1] ^= 1; /* the last block has another checksum, until its turn comes */
  words[CHECKSUM_WORD] = reader_checksum(words, CHECKSUM_WORD);
  for (unsigned i = 0; i < sizeof others / sizeof others[0]; i++) {
    words[IDENTIFIER_WORD] = others[i];
    assign_is("another record, and its checksum differs", REFUSED(CHECKSUM));
    seal_given(block);
    assign_is("a block of another record", REFUSED_AT(RECORD, WORDS_IN_BLOCK * block));
  }
  words[IDENTIFIER_WORD] = MODRC;
  seal_given(block);
  for (unsigned word = 0; word < WORDS_IN_BLOCK; word++) {
    was = words[word];
    words[word] ^= bit_at(word % BITS_IN_WORD);
    assign_is("a word of a modification block changed", REFUSED(CHECKSUM));
    words[word] = was | bit_at(word % 2 == 0 ? BITS_IN_WORD : 63);
    assign_is("a word of a modification block has over 36 bits", REFUSED(BLOCK));
    words[word] = was;
  }
  words[LABEL_CHECKSUM_WORD] = reader_checksum(words, LABEL_CHECKSUM_WORD);
  assign_is("a modification block sealed as a label is", REFUSED(CHECKSUM));
  words[LABEL_CHECKSUM_WORD] = 0;
  seal_given(block);
}

void test_blocks(void) {
  write_file(128, 128);
  write_book();
  for (uint64_t block = 1; block <= needed(); block++) {
    for (uint64_t other = 1; other <= needed(); other++)
      seal_given(other);
    test_block(block);
  }
  write_file(128, 128);
  write_book();
  block_given(1)[1] = UINT64_C(0777777777777); /* a carry arises: by the rule before request #104 the checksum is another */
  block_given(1)[2] = UINT64_C(0777777777777);
  block_given(1)[CHECKSUM_WORD] = reader_old_checksum(block_given(1), CHECKSUM_WORD);
  assign_is("a modification block with an old seal", REFUSED(CHECKSUM));
  seal_given(1);
  write_book();
  assign_is("a block in whose sum carries arise", told(ASSIGNED, 0));
}

/* ---- blocks that are over */

static void test_over_block(uint64_t identifier) {
  uint64_t block = given.length / WORDS_IN_BLOCK, *words = block_given(block), at = given.length;
  add_block(identifier);
  assign_is("a block over", REFUSED_AT(RECORD, at));
  words[FIRST_WORD] ^= 1;
  assign_is("a block over whose checksum differs", REFUSED(CHECKSUM));
  words[FIRST_WORD] ^= 1;
  words[LAST_WORD] = bit_at(BITS_IN_WORD);
  assign_is("a word of a block over has over 36 bits", REFUSED(BLOCK));
  words[LAST_WORD] = 0;
  for (given.length = at + 1; given.length < at + WORDS_IN_BLOCK; given.length++)
    assign_is("a part of a block over", REFUSED(BLOCK));
  add_block(MODRC);
  block_given(block + 1)[FIRST_WORD] = bit_at(63);
  assign_is("two blocks over: the second is not looked at", REFUSED_AT(RECORD, at));
  given.length -= WORDS_IN_BLOCK - 1;
  assign_is("a block over, and one word more", REFUSED_AT(RECORD, at));
  given.length = at;
}

void test_over(void) {
  static const uint64_t identifiers[] = {MODRC, PRORC, TRMRC, 0}, sizes[] = {0, 1, 43, 85, 128};
  for (unsigned i = 0; i < sizeof sizes / sizeof sizes[0]; i++)
    for (unsigned k = 0; k < sizeof identifiers / sizeof identifiers[0]; k++) {
      write_file(sizes[i], sizes[i]);
      write_book();
      test_over_block(identifiers[k]);
      assign_is("without the block over", told(ASSIGNED, 0));
    }
}

/* ---- the file comes before the book */

/* Every fault that book and lists can have, with a file at fault; the answer is the file's. */
static void book_faults(const char *name, uint64_t answer) {
  const struct given right = given;
  given.book_length--;
  assign_is(name, answer);
  given = right;
  given.book[KIND_AT] = 'a';
  assign_is(name, answer);
  given = right;
  given.io_length++;
  assign_is(name, answer);
  given = right;
  given.tables_length--;
  assign_is(name, answer);
  given = right;
  add_record('P', 0, 0);
  assign_is(name, answer);
  given = right;
  add_record(kinds[0], tag_given(kinds[0], 0), 0);
  assign_is(name, answer);
  given = right;
  clear_book();
  assign_is(name, answer);
  given = right;
}

void test_front_first(void) {
  write_file(2, 2);
  write_book();
  given.length = WORDS_IN_BLOCK;
  book_faults("a block missing, and a fault of the book", REFUSED_AT(RECORD, WORDS_IN_BLOCK));
  given.length = WORDS_IN_BLOCK + 1;
  book_faults("a part block, and a fault of the book", REFUSED(BLOCK));
  given.length = 2 * WORDS_IN_BLOCK;
  add_block(PRORC);
  book_faults("a block over, and a fault of the book", REFUSED_AT(RECORD, 2 * WORDS_IN_BLOCK));
  given.length = 2 * WORDS_IN_BLOCK;
  given.words[WORDS_IN_BLOCK + CHECKSUM_WORD] ^= 1;
  book_faults("a checksum that differs, and a fault of the book", REFUSED(CHECKSUM));
  given.words[WORDS_IN_BLOCK] = PRORC;
  seal_given(1);
  book_faults("a block of another record, and a fault of the book", REFUSED_AT(RECORD, WORDS_IN_BLOCK));
  given.words[TYPE_FLAG_WORD] = 0;
  seal_given(0);
  book_faults("a type flag that is not 001, and a fault of the book", REFUSED_AT(TYPE_FLAG, TYPE_FLAG_WORD));
  given.words[NAME_WORD] = 0;
  seal_given(0);
  book_faults("a fault in the name, and a fault of the book", REFUSED_AT(LABEL, NAME_WORD));
}
