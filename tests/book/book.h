/* book.h: what the tests of assign and needs share. A call is put together in `given`: a file's label and modification blocks, a
   book and the lengths of the two lists. Then it is made on the library and on the second version of book_rules.h, and answers and
   lists are compared. */

#ifndef BOOK_H
#define BOOK_H

#include <stdbool.h>
#include <stdint.h>

#include "block_layout.h"
#include "book_rules.h"
#include "clamp.h"

enum {
  NEEDED_MOST = 1 + 3,                /* the label, and as many modification blocks as there can be */
  LENT_BLOCKS_MOST = NEEDED_MOST + 3, /* and some over */
  FULL_BOOK = 3 * ENTRIES_MOST,       /* records, with a tag of its own for each entry */
  LONG_BOOK = 4096,                   /* records, more than any file can need */
  RECORDS_MOST = LONG_BOOK + 20,
  LIST_MOST = PAIRS_MOST + 20
};

struct given {
  uint64_t words[LENT_BLOCKS_MOST * WORDS_IN_BLOCK];
  uint64_t length;
  uint8_t book[RECORDS_MOST * RECORD_BYTES];
  uint64_t book_length;
  uint64_t io_length, tables_length; /* of the lists */
  uint64_t io, tables;               /* the entries that the file was written with */
};

extern struct given given;

/* ---- lent.c: counting */

extern uint64_t passed, failed;
extern uint64_t seed; /* the round's, which is told with what failed; 0: no round */

/* One check. Gives whether it holds. */
bool check(bool holds, const char *what);

/* ---- lent.c: the calls */

void set_up(void);

/* Makes the call of `given` on both. The answers must agree, and the lists; refused, they must be as they were. What is lent ends
   where a page begins that may not be touched. Gives the library's answer; the lists are then in got_io and got_tables. */
uint64_t both_assign(const char *name);
uint64_t both_needs(const char *name, const uint64_t *label, uint64_t length);

extern const uint64_t *got_io, *got_tables;

/* The same, and the answer is this one; and for one that is assigned, the lists are these. */
void assign_is(const char *name, uint64_t answer);
void assign_gives(const char *name, const uint64_t *io, const uint64_t *tables);
void needs_is(const char *name, const uint64_t *label, uint64_t length, uint64_t answer);

/* ---- write.c: files and books */

/* A file with so many entries, each with tags of its own, and an empty book; the lists are as long as it needs. */
void write_file(uint64_t io, uint64_t tables);
void put_label(uint64_t *block, uint64_t switches, uint64_t channels, uint64_t units, uint64_t tables);

uint64_t *block_given(uint64_t block); /* a block of `given`, */
void seal_given(uint64_t block);       /* which is sealed anew: the label if it is block 0 */
void add_block(uint64_t identifier);   /* one more at the end, of zeros, sealed */
uint64_t needed(void);                 /* how many modification blocks the entries need */

/* An entry's tag: where it stands, its value, and another value. The kind is A, L or P. */
uint64_t tag_place(char kind, uint64_t entry);
uint64_t tag_given(char kind, uint64_t entry);
void set_tag(char kind, uint64_t entry, uint64_t tag);
uint64_t entries_of(char kind);
extern const char kinds[3];

/* One record at the end of the book; and one at another place of it. */
void add_record(char kind, uint64_t tag, uint64_t number);
void put_record(uint64_t at, char kind, uint64_t tag, uint64_t number);
uint64_t records(void);
uint8_t *record_given(uint64_t at);
void drop_record(uint64_t at); /* the last one comes in its place */
void clear_book(void);

/* A record for each tag of the file in its order, none twice, with numbers of their own; or with the numbers that these entries are
   to have. */
void write_book(void);
uint64_t number_of(char kind, uint64_t entry);
void write_book_by(uint64_t (*number)(char kind, uint64_t entry));

/* The lists that such a book gives, where no two entries share a tag. */
void lists_of_book(uint64_t *io, uint64_t *tables);

/* ---- the tests */

/* Faults of the label of a file with one I/O entry and one table: the word, its value, the refusal and the word that it tells; and
   the whole answer. */
struct label_fault {
  const char *name;
  unsigned word;
  uint64_t value;
  unsigned code, told_at;
};

extern const struct label_fault label_faults[];
extern const unsigned label_fault_count;
uint64_t label_answer(unsigned fault);

void test_labels(void); /* fronts.c */
void test_missing(void);
void test_blocks(void);
void test_over(void);
void test_front_first(void);
void test_records(void); /* records.c */
void test_tags(void);
void test_shared(void);
void test_lengths(void);
void test_order(void);
void test_split(void); /* full.c */
void test_full(void);
void test_long(void);
void test_needs(void);                             /* needs.c */
void test_chance(uint64_t first, uint64_t rounds); /* chance.c */
void test_loads(uint64_t first, uint64_t rounds);  /* loads.c */
void test_worked(const char *path);                /* worked.c: the book of the worked file */

#endif
