/* records.c: what assign says of a book for a small file: refusals 24 to 27 at their edges, and the lists. */

#include <stddef.h>

#include "book.h"

/* Lists for assign_gives. */
#define IO(...) ((const uint64_t[]){__VA_ARGS__})
#define TABLES(...) ((const uint64_t[]){__VA_ARGS__})

/* ---- records, byte by byte */

/* The answer for a record whose byte has this value, where it is the one record of a file with one I/O entry. */
static uint64_t due_for(unsigned at, unsigned value, unsigned right) {
  if (at == KIND_AT)
    return value == 'P' ? told(ASSIGNED, 0) : value == 'A' || value == 'L' ? REFUSED(TAG_UNKNOWN) : REFUSED(BOOK);
  if (at < DIGITS_AT)
    return value > CODE_MOST ? REFUSED(BOOK) : value == right ? told(ASSIGNED, 0) : REFUSED(TAG_UNKNOWN);
  if (at < NEWLINE_AT)
    return value >= '0' && value <= '9' ? told(ASSIGNED, 0) : REFUSED(BOOK);
  return value == '\n' ? told(ASSIGNED, 0) : REFUSED(BOOK);
}

/* Every value of every byte of a record. */
static void sweep_bytes(void) {
  enum { BYTE_VALUES = 256 };
  write_file(1, 0);
  add_record('P', tag_given('P', 0), 314159);
  for (unsigned at = 0; at < RECORD_BYTES; at++) {
    uint8_t right = given.book[at];
    for (unsigned value = 0; value < BYTE_VALUES; value++) {
      given.book[at] = (uint8_t)value;
      assign_is("one byte of a record", due_for(at, value, right));
    }
    given.book[at] = right;
  }
  assign_gives("the record as it was", IO(314159), NULL);
}

/* The last record of three is spoilt. */
static void spoilt(const char *name, unsigned at, uint8_t value, uint64_t answer) {
  uint8_t *byte = record_given(records() - 1) + at, right = *byte;
  *byte = value;
  assign_is(name, answer);
  *byte = right;
}

void test_records(void) {
  sweep_bytes();
  write_file(1, 1);
  set_tag('P', 0, UINT64_C(0777777777777)); /* six codes of 63 */
  write_book();
  spoilt("a code of 64", CODES_AT, CODE_MOST + 1, REFUSED(BOOK));
  spoilt("a code of 64 at the tag's end", DIGITS_AT - 1, CODE_MOST + 1, REFUSED(BOOK));
  spoilt("a code of 255", CODES_AT + 2, 255, REFUSED(BOOK));
  spoilt("a digit /", DIGITS_AT, '/', REFUSED(BOOK));
  spoilt("a digit :", DIGITS_AT, ':', REFUSED(BOOK));
  spoilt("a last digit /", NEWLINE_AT - 1, '/', REFUSED(BOOK));
  spoilt("a last digit :", NEWLINE_AT - 1, ':', REFUSED(BOOK));
  spoilt("a space for a digit", DIGITS_AT, ' ', REFUSED(BOOK));
  spoilt("a minus for a digit", DIGITS_AT, '-', REFUSED(BOOK));
  spoilt("no newline", NEWLINE_AT, '\r', REFUSED(BOOK));
  spoilt("a space for a newline", NEWLINE_AT, ' ', REFUSED(BOOK));
  spoilt("a lower-case letter", KIND_AT, 'p', REFUSED(BOOK));
  spoilt("a letter before A", KIND_AT, 'A' - 1, REFUSED(BOOK));
  spoilt("a letter after P", KIND_AT, 'P' + 1, REFUSED(BOOK));
  assign_gives("codes of 63", IO(number_of('P', 0)), TABLES(number_of('A', 0), number_of('L', 0)));
  put_record(0, 'A', tag_given('A', 0), 0);
  put_record(1, 'L', tag_given('L', 0), NUMBER_MOST);
  put_record(2, 'P', tag_given('P', 0), 90);
  assign_gives("numbers 000000, 999999 and 000090", IO(90), TABLES(0, NUMBER_MOST));
}

/* ---- lengths */

/* A book that ends in a part of a record, for a file with these entries. */
static void part_records(uint64_t io, uint64_t tables) {
  write_file(io, tables);
  write_book();
  uint64_t whole = given.book_length;
  add_record('P', 0, 0);
  for (unsigned over = 1; over < RECORD_BYTES; over++) {
    given.book_length = whole + over;
    assign_is("a part of a record after the last", REFUSED(BOOK));
  }
  for (given.book_length = whole; given.book_length % RECORD_BYTES != 1 && given.book_length > 0;) {
    given.book_length--;
    assign_is("a part of the last record", given.book_length % RECORD_BYTES != 0 ? REFUSED(BOOK) : REFUSED(TAG_MISSING));
  }
}

static void lists_of(const char *name, uint64_t io_length, uint64_t tables_length) {
  given.io_length = io_length;
  given.tables_length = tables_length;
  assign_is(name, REFUSED(BOOK));
}

static void lists_beside(uint64_t io, uint64_t tables) {
  write_file(io, tables);
  write_book();
  assign_is("lists as long as the file needs", told(ASSIGNED, 0));
  lists_of("the I/O list one more", io + 1, 2 * tables);
  lists_of("the list of tables one more", io, 2 * tables + 1);
  lists_of("the list of tables a pair more", io, 2 * tables + 2);
  lists_of("both one more", io + 1, 2 * tables + 1);
  if (io > 0)
    lists_of("the I/O list one less", io - 1, 2 * tables);
  if (io > 0)
    lists_of("no I/O list", 0, 2 * tables);
  if (tables > 0)
    lists_of("the list of tables one less", io, 2 * tables - 1);
  if (tables > 0)
    lists_of("the list of tables a pair less", io, 2 * tables - 2);
  if (tables > 0)
    lists_of("a number for each table", io, tables);
  if (io != 2 * tables)
    lists_of("the lengths of the two lists swapped", 2 * tables, io);
}

void test_lengths(void) {
  static const uint64_t sizes[] = {0, 1, 2, 5, 127, 128};
  part_records(0, 0);
  part_records(1, 1);
  part_records(3, 2);
  for (unsigned i = 0; i < sizeof sizes / sizeof sizes[0]; i++)
    for (unsigned k = 0; k < sizeof sizes / sizeof sizes[0]; k++)
      lists_beside(sizes[i], sizes[k]);
}

/* ---- tags */

/* One record is put after a book that is right without it. */
static void one_more(const char *name, char kind, uint64_t tag, uint64_t answer) {
  add_record(kind, tag, 5);
  assign_is(name, answer);
  drop_record(records() - 1);
}

static void unknown_tags(void) {
  write_file(2, 2);
  write_book();
  assign_is("a book that is right", told(ASSIGNED, 0));
  one_more("an address tag as a length", 'L', tag_given('A', 1), REFUSED(TAG_UNKNOWN));
  one_more("a length tag as an address", 'A', tag_given('L', 1), REFUSED(TAG_UNKNOWN));
  one_more("an address tag as an I/O tag", 'P', tag_given('A', 0), REFUSED(TAG_UNKNOWN));
  one_more("a length tag as an I/O tag", 'P', tag_given('L', 0), REFUSED(TAG_UNKNOWN));
  one_more("an I/O tag as an address", 'A', tag_given('P', 1), REFUSED(TAG_UNKNOWN));
  one_more("an I/O tag as a length", 'L', tag_given('P', 1), REFUSED(TAG_UNKNOWN));
  one_more("the second word of an I/O entry", 'P', given.words[tag_place('P', 0) + 1], REFUSED(TAG_UNKNOWN));
  one_more("the third word of a core entry", 'A', given.words[tag_place('L', 0) + 1], REFUSED(TAG_UNKNOWN));
  one_more("the third word of the last core entry", 'L', given.words[tag_place('L', 1) + 1], REFUSED(TAG_UNKNOWN));
  one_more("a word after the last entry", 'P', 0, REFUSED(TAG_UNKNOWN));
  one_more("the identifier of the block", 'P', MODRC, REFUSED(TAG_UNKNOWN));
  one_more("the checksum word", 'L', given.words[WORDS_IN_BLOCK + CHECKSUM_WORD], REFUSED(TAG_UNKNOWN));
  one_more("a word of the label", 'A', given.words[NAME_WORD], REFUSED(TAG_UNKNOWN));
  one_more("a tag that differs in its first bit", 'A', tag_given('A', 0) ^ bit_at(35), REFUSED(TAG_UNKNOWN));
  one_more("a tag that differs in its last bit", 'A', tag_given('A', 0) ^ bit_at(2), REFUSED(TAG_UNKNOWN));
}

static void given_twice(void) {
  write_file(2, 2);
  write_book();
  for (unsigned k = 0; k < sizeof kinds; k++)
    for (uint64_t entry = 0; entry < 2; entry++) {
      uint64_t tag = tag_given(kinds[k], entry);
      one_more("a tag twice, with another number", kinds[k], tag, REFUSED(TAG_TWICE));
      add_record(kinds[k], tag, number_of(kinds[k], entry));
      assign_is("a tag twice, with the same number", REFUSED(TAG_TWICE));
      drop_record(records() - 1);
    }
}

static void not_given(void) {
  write_file(2, 2);
  for (uint64_t at = 0; at < 6; at++) {
    write_book();
    drop_record(at);
    assign_is("a tag that is not given", REFUSED(TAG_MISSING));
    drop_record(at % records());
    assign_is("two tags that are not given", REFUSED(TAG_MISSING));
  }
}

static void empty_books(void) {
  write_file(0, 0);
  assign_is("an empty book, a file without entries", told(ASSIGNED, 0));
  one_more("a record, a file without entries", 'P', 0, REFUSED(TAG_UNKNOWN));
  write_file(1, 0);
  assign_is("an empty book, a file with an I/O entry", REFUSED(TAG_MISSING));
  write_file(0, 1);
  assign_is("an empty book, a file with a core entry", REFUSED(TAG_MISSING));
  add_record('A', tag_given('A', 0), 7);
  assign_is("a table's address alone", REFUSED(TAG_MISSING));
  put_record(0, 'L', tag_given('L', 0), 7);
  assign_is("a table's length alone", REFUSED(TAG_MISSING));
}

void test_tags(void) {
  unknown_tags();
  given_twice();
  not_given();
  empty_books();
}

/* ---- tags that are shared, and tags that look odd */

/* The same tag in kinds that are apart. */
static void shared_kinds(void) {
  const uint64_t tag = UINT64_C(0310607211205);
  write_file(1, 1);
  set_tag('A', 0, tag);
  set_tag('L', 0, tag);
  add_record('L', tag, 16);
  add_record('P', tag_given('P', 0), 3);
  assign_is("a table with one tag for both, its length alone", REFUSED(TAG_MISSING));
  add_record('A', tag, 560);
  assign_gives("a table with one tag for both", IO(3), TABLES(560, 16));
  set_tag('P', 0, tag);
  clear_book();
  add_record('A', tag, 1);
  add_record('P', tag, 2);
  add_record('L', tag, 3);
  assign_gives("one tag in all three kinds", IO(2), TABLES(1, 3));
  one_more("one tag in all three kinds, and one of them twice", 'P', tag, REFUSED(TAG_TWICE));
}

static void shared_entries(void) {
  write_file(3, 3);
  set_tag('L', 1, tag_given('L', 0));
  set_tag('L', 2, tag_given('L', 0));
  write_book();
  assign_gives("one length tag for three tables", IO(1, 8, 15), TABLES(100001, 200001, 100008, 200001, 100015, 200001));
  one_more("a shared length tag twice", 'L', tag_given('L', 2), REFUSED(TAG_TWICE));
  set_tag('P', 2, tag_given('P', 0));
  write_book();
  assign_gives("two I/O entries with one tag", IO(1, 8, 1), TABLES(100001, 200001, 100008, 200001, 100015, 200001));
  one_more("a shared I/O tag twice", 'P', tag_given('P', 2), REFUSED(TAG_TWICE));
  set_tag('A', 2, tag_given('A', 1));
  write_book();
  assign_gives("two address entries with one tag", IO(1, 8, 1), TABLES(100001, 200001, 100008, 200001, 100008, 200001));
  one_more("a shared address tag twice", 'A', tag_given('A', 2), REFUSED(TAG_TWICE));
  check(records() == 5, "five records for nine tags");
}

static void odd_tags(void) {
  const uint64_t newlines = UINT64_C(0121212121212); /* six codes of 10 */
  write_file(2, 1);
  set_tag('P', 0, newlines);
  set_tag('P', 1, 0);
  set_tag('A', 0, 0);
  set_tag('L', 0, newlines);
  clear_book();
  add_record('P', 0, 4);
  add_record('L', newlines, 5);
  add_record('P', newlines, 6);
  assign_is("the tag zero of a table is not given", REFUSED(TAG_MISSING));
  add_record('A', 0, 7);
  assign_gives("tags of zero, and of newlines", IO(6, 4), TABLES(7, 5));
  one_more("the tag zero twice", 'P', 0, REFUSED(TAG_TWICE));
  one_more("a tag of newlines where there is none", 'A', newlines, REFUSED(TAG_UNKNOWN));
  set_tag('P', 1, UINT64_C(0000000000012));
  put_record(0, 'P', UINT64_C(0000000000012), 8);
  assign_gives("a tag that ends in a newline", IO(6, 8), TABLES(7, 5));
}

void test_shared(void) {
  shared_kinds();
  shared_entries();
  odd_tags();
}

/* ---- which comes first: each is tested over the whole book before the next */

void test_order(void) {
  write_file(1, 1);
  clear_book();
  add_record('P', UINT64_C(0123456701234), 1); /* 25 */
  add_record('P', UINT64_C(0123456701234), 1); /* 26; and nothing of the file is given, 27 */
  assign_is("25 before 26 and 27", REFUSED(TAG_UNKNOWN));
  add_record('B', tag_given('P', 0), 1);
  assign_is("a bad record after them", REFUSED(BOOK));
  drop_record(2);
  given.io_length++;
  assign_is("a list too long, and 25", REFUSED(BOOK));
  given.io_length--;
  clear_book();
  add_record('P', tag_given('P', 0), 1);
  add_record('P', tag_given('P', 0), 2);
  assign_is("26 before 27", REFUSED(TAG_TWICE));
  add_record('A', tag_given('L', 0), 2);
  assign_is("26, and 25 in a later record", REFUSED(TAG_UNKNOWN));
  add_record('L', tag_given('L', 0), 2);
  record_given(3)[NEWLINE_AT] = 0;
  assign_is("26, 25, and 24 in a later record", REFUSED(BOOK));
  record_given(3)[NEWLINE_AT] = '\n';
  given.book_length++;
  assign_is("26, 25, and a part of a record", REFUSED(BOOK));
  given.book_length--;
  given.tables_length--;
  assign_is("26, 25, and a list too short", REFUSED(BOOK));
  given.tables_length++;
  put_record(2, 'A', tag_given('A', 0), 2);
  assign_is("a tag twice, all others once", REFUSED(TAG_TWICE));
  drop_record(1);
  assign_gives("each once", IO(1), TABLES(2, 2));
}
