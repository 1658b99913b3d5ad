/* reader.h: a second loader, in plain C, to compare the proved one with. It is written from document 01 ("01") and the reference
   of 1962 that 01 calls 001, and shares nothing with the proved loader. Of the other headers it takes rules.h alone: 01's limits,
   answers and refusals by name.

   Each call takes what the call of that name in clamp.h takes, and gives the same answer. Only the desk is another: a struct,
   which cannot be of a wrong length or unsound, so that refusal 1 is never given here. */

#ifndef READER_H
#define READER_H

#include <stdbool.h>
#include <stdint.h>

#include "rules.h"

/* A run of words: a stretch, an area or a table by its absolute address; a bank by its address relative to the Program Name. */
struct run {
  uint64_t start, length;
};

/* What a load waits for. */
enum stage {
  FREE, /* no load holds this place */
  LABEL_DUE,
  ENTRIES_DUE,       /* a modification block */
  SEGMENT_DUE,       /* the words that head the segment section */
  TABLE_SECTION_DUE, /* the word that heads a table section */
  GROUP_DUE,         /* the word that heads a group */
  TERMINATION_DUE,
  COMPLETE,
  BROKEN
};

/* One place of the desk, and the load that holds it. */
struct load {
  enum stage stage;
  uint64_t room;
  struct run area;

  uint64_t io[ENTRIES_MOST]; /* the two lists, as open copied them */
  uint64_t io_count;
  struct run tables[ENTRIES_MOST];
  uint64_t table_count;

  bool no_longer_tables; /* from the label: word 3 bit 35, */
  uint64_t channels;     /* how many entries types 0 and 2 have together, */
  uint64_t sections;     /* and how many table sections are still to come */

  uint64_t entry_words; /* how many words of the modification entries were read */

  struct run ibank, dbank; /* from the segment identifier; relative */

  bool in_table;          /* the section whose groups are due is a table section, */
  uint64_t table;         /* of this table, */
  uint64_t section_words; /* with this count of words */
  uint64_t table_least;   /* the lowest number that the next table section may have */

  uint64_t start; /* absolute, once complete */
};

struct reader {
  uint64_t core_length;
  struct run map[ROOMS];
  struct load places[PLACES];
};

uint64_t reader_make(struct reader *desk, uint64_t core_length, const uint64_t *map, uint64_t map_length);

uint64_t reader_open(struct reader *desk, uint64_t *core, uint64_t core_length, uint64_t room, uint64_t area, uint64_t size,
                     const uint64_t *io, uint64_t io_length, const uint64_t *tables, uint64_t tables_length);

uint64_t reader_feed(struct reader *desk, uint64_t *core, uint64_t core_length, uint64_t room, uint64_t place,
                     const uint64_t *block, uint64_t block_length);

uint64_t reader_release(struct reader *desk, uint64_t core_length, uint64_t room, uint64_t place);

uint64_t reader_reseal(uint64_t *block, uint64_t block_length, uint64_t index);

/* The checksum of a block whose checksum word is word `at`: by the rule in force, and by the one before request #104. */
uint64_t reader_checksum(const uint64_t *block, unsigned at);
uint64_t reader_old_checksum(const uint64_t *block, unsigned at);

#endif
