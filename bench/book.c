/* How long assign takes, for books of several lengths: the library's, beside the peer's (peer_book.c). A book has a record for each
   tag of a file in which no tags are shared, a third of them of each kind. Run by bench/run.

     book                 a line for each row, parted by tabs: its name, and nanoseconds of processor time a call, the least of many
                          batches, by the library and by the peer
     book once WHO ROW    one call, by clamp or by peer, between begin_call and end_call, for bench/run to count its instructions

   A row is a number of records, 0, 48, 96, 192 or 384, all of which are assigned; or a word, with the file of 384. Missing is 383
   records (27). Bad, unknown and twice are 4,096 records: all good but the last (24), all known but the last (25), and each of them
   known (26). Needs is a call of needs, on that file's label. */
#include <math.h>
#include <string.h>

#include "books.h"
#include "peer.h"

enum { BATCHES = 40, CALLS = 200, KINDS = 3 };
enum { CLAMP, PEER, VERSIONS };

static uint64_t blocks[FRONT_WORDS_MOST], blocks_len, io[ENTRIES_MOST], tables[PAIRS_MOST], io_len, tables_len, last;
static uint8_t book[BOOK_BYTES_MOST];
static uint64_t book_len;

static void clamp_call(void) {
  last = clamp_assign(book, book_len, blocks, blocks_len, io, io_len, tables, tables_len);
}

static void peer_call(void) {
  last = peer_assign(book, book_len, blocks, blocks_len, io, io_len, tables, tables_len);
}

static void clamp_needs_call(void) {
  last = clamp_needs(blocks, WORDS_IN_BLOCK);
}

static void peer_needs_call(void) {
  last = peer_needs(blocks, WORDS_IN_BLOCK);
}

/* ---- rows */

static const struct row {
  const char *word, *name;
  uint64_t code;
} rows[] = {{"0", "assign, no records", ASSIGNED},
            {"48", "assign, 48 records", ASSIGNED},
            {"96", "assign, 96 records", ASSIGNED},
            {"192", "assign, 192 records", ASSIGNED},
            {"384", "assign, 384 records", ASSIGNED},
            {"missing", "assign, 383 records, a tag not given (27)", REFUSED_TAG_MISSING},
            {"bad", "assign, 4,096 records, the last one bad (24)", REFUSED_BOOK},
            {"unknown", "assign, 4,096 records, the last tag unknown (25)", REFUSED_TAG_UNKNOWN},
            {"twice", "assign, 4,096 records, tags twice (26)", REFUSED_TAG_TWICE},
            {"needs", "needs", NEEDS}};

enum { ROWS = sizeof rows / sizeof rows[0] };

/* A file with so many tags, a third of them of each kind, and its book. */
static void write_both(uint64_t tags) {
  struct entries entries = {.tables = tags / KINDS};
  entries.channels = entries.tables < CHANNELS_MOST ? entries.tables : CHANNELS_MOST;
  entries.units = entries.tables - entries.channels;
  io_len = entries.tables;
  tables_len = 2 * entries.tables;
  blocks_len = write_front(blocks, entries);
  book_len = write_whole_book(book, entries);
}

/* File and book of a row. */
static void write_row(const struct row *row) {
  uint64_t tags = tags_in(full);
  if (row->word[0] >= '0' && row->word[0] <= '9') {
    write_both(strtoull(row->word, NULL, 10));
    return;
  }
  write_both(tags);
  if (row->code == REFUSED_TAG_MISSING)
    book_len -= RECORD_BYTES;
  if (row->code == REFUSED_TAG_MISSING || row->code == NEEDS)
    return;
  for (uint64_t at = tags; at < RECORDS_MOST; at++)
    memcpy(book + RECORD_BYTES * at, book + RECORD_BYTES * (at % tags), RECORD_BYTES);
  book_len = BOOK_BYTES_MOST;
  if (row->code == REFUSED_BOOK)
    book[book_len - 1] = 0;
  if (row->code == REFUSED_TAG_UNKNOWN)
    write_record(book, RECORDS_MOST - 1, tags, full);
}

static void (*call_of(const struct row *row, unsigned by))(void) {
  static void (*const assigns[VERSIONS])(void) = {clamp_call, peer_call};
  static void (*const needs[VERSIONS])(void) = {clamp_needs_call, peer_needs_call};
  return row->code == NEEDS ? needs[by] : assigns[by];
}

/* The call once by both: the answer is due, and they agree. */
static void try_both(const struct row *row) {
  uint64_t first;
  call_of(row, CLAMP)();
  first = last;
  expect("book", first, row->code);
  call_of(row, PEER)();
  expect("book", last, row->code);
  if (last != first) {
    fprintf(stderr, "book: the peer answers otherwise\n");
    exit(1);
  }
}

/* ---- times, and one call to be counted */

static double least(void (*call)(void)) {
  double best = INFINITY;
  for (unsigned i = 0; i < BATCHES; i++) {
    double t = batch(call, CALLS);
    if (t < best)
      best = t;
  }
  return best;
}

static int table(void) {
  for (unsigned i = 0; i < ROWS; i++) {
    write_row(&rows[i]);
    try_both(&rows[i]);
    printf("%s\t%.1f\t%.1f\n", rows[i].name, least(call_of(&rows[i], CLAMP)), least(call_of(&rows[i], PEER)));
  }
  return 0;
}

static int counted(const char *who, const char *word) {
  unsigned i = 0;
  while (i < ROWS && strcmp(word, rows[i].word) != 0)
    i++;
  if (i == ROWS) {
    fprintf(stderr, "book: %s: no such row\n", word);
    return 2;
  }
  write_row(&rows[i]);
  once(call_of(&rows[i], strcmp(who, "peer") == 0 ? PEER : CLAMP));
  expect("book", last, rows[i].code);
  return 0;
}

int main(int count, char **arguments) {
  return count == ONCE_ARGUMENTS ? counted(arguments[FIRST_AT], arguments[SECOND_AT]) : table();
}
