/* full.c: files whose entries are split across modification blocks, and the full file, with a book of 384 records. */

#include <string.h>

#include "book.h"

static uint64_t io[ENTRIES_MOST], tables[PAIRS_MOST];

/* The book of a file in which no tags are shared. */
static void assigned(const char *name) {
  write_book();
  lists_of_book(io, tables);
  assign_gives(name, io, tables);
}

/* Each of these last tags is left out, and given another name. */
static void last_tags(void) {
  for (unsigned k = 0; k < sizeof kinds; k++) {
    uint64_t entries = entries_of(kinds[k]), tag;
    if (entries == 0)
      continue;
    write_book();
    tag = tag_given(kinds[k], entries - 1);
    set_tag(kinds[k], entries - 1, tag ^ 1);
    assign_is("the last tag of a kind is another", REFUSED(TAG_UNKNOWN));
    set_tag(kinds[k], entries - 1, entries > 1 ? tag_given(kinds[k], 0) : tag ^ 1);
    write_book();
    assign_is("the last tag of a kind is the first one's", told(ASSIGNED, 0));
    check((kinds[k] == 'P' ? got_io[entries - 1] : got_tables[2 * (entries - 1) + (kinds[k] == 'L')]) ==
              number_of(kinds[k], entries > 1 ? 0 : entries - 1),
          "and has its number");
    set_tag(kinds[k], entries - 1, tag);
  }
}

/* By how the entries lie about the end of a block: 254 entry words end with it; then an entry begins after it; the end cuts a core
   entry after its first word, and after its second; an I/O entry ends with it, and core entries follow; two and three blocks. */
void test_split(void) {
  static const struct {
    uint64_t io, tables;
    const char *name;
  } files[] = {{127, 0, "127 I/O entries fill a block"},
               {128, 0, "128 I/O entries"},
               {1, 84, "254 entry words fill a block"},
               {1, 85, "257 entry words: a core entry begins after the end of the block"},
               {2, 84, "the end of the block between a table's two tags"},
               {0, 85, "the end of the block before a table's third word"},
               {127, 1, "a block of I/O entries, and a table"},
               {128, 1, "an I/O entry and a table after the end of the block"},
               {128, 84, "508 entry words fill two blocks"},
               {127, 85, "509 entry words"},
               {128, 85, "511 entry words"},
               {0, 128, "384 entry words"},
               {128, 128, "640 entry words"}};
  for (unsigned i = 0; i < sizeof files / sizeof files[0]; i++) {
    write_file(files[i].io, files[i].tables);
    assigned(files[i].name);
    last_tags();
  }
}

/* ---- the full file */

static void reverse_book(void) {
  uint8_t kept[RECORD_BYTES];
  for (uint64_t low = 0, high = records() - 1; low < high; low++, high--) {
    memcpy(kept, record_given(low), RECORD_BYTES);
    memcpy(record_given(low), record_given(high), RECORD_BYTES);
    memcpy(record_given(high), kept, RECORD_BYTES);
  }
}

void test_full(void) {
  enum { STEP = 29 };
  write_file(ENTRIES_MOST, ENTRIES_MOST);
  assigned("384 records");
  check(records() == FULL_BOOK && needed() == NEEDED_MOST - 1, "384 records, three modification blocks");
  reverse_book();
  assign_gives("384 records, the last one first", io, tables);
  for (uint64_t at = 0; at < FULL_BOOK; at += STEP) {
    uint8_t kept[RECORD_BYTES];
    memcpy(kept, record_given(at), RECORD_BYTES);
    drop_record(at);
    assign_is("383 of 384 records", REFUSED(TAG_MISSING));
    memcpy(record_given(records()), record_given(at), RECORD_BYTES);
    given.book_length += RECORD_BYTES;
    assign_is("384 records, one of them twice and one missing", REFUSED(TAG_TWICE));
    memcpy(record_given(at), kept, RECORD_BYTES);
    record_given(at)[CODES_AT] ^= 1;
    assign_is("384 records, one tag of them unknown", REFUSED(TAG_UNKNOWN));
    record_given(at)[NEWLINE_AT] = 0;
    assign_is("384 records, one of them bad", REFUSED(BOOK));
    memcpy(record_given(at), kept, RECORD_BYTES);
    assign_gives("384 records again", io, tables);
  }
  add_record('A', tag_given('A', ENTRIES_MOST - 1), 1);
  assign_is("385 records", REFUSED(TAG_TWICE));
}

/* ---- a long book: the last record counts as the first does */

void test_long(void) {
  write_file(ENTRIES_MOST, ENTRIES_MOST);
  write_book();
  while (records() < LONG_BOOK) {
    memcpy(record_given(records()), record_given(records() - FULL_BOOK), RECORD_BYTES);
    given.book_length += RECORD_BYTES;
  }
  assign_is("4,096 records, each tag many times", REFUSED(TAG_TWICE));
  record_given(LONG_BOOK - 1)[CODES_AT] ^= 1;
  assign_is("4,096 records, the last tag unknown", REFUSED(TAG_UNKNOWN));
  record_given(LONG_BOOK - 1)[NEWLINE_AT] = 0;
  assign_is("4,096 records, the last one bad", REFUSED(BOOK));
  given.book_length -= RECORD_BYTES - 1;
  assign_is("4,095 records and a part of one", REFUSED(BOOK));
  given.book_length--;
  assign_is("4,095 records", REFUSED(TAG_TWICE));
}
