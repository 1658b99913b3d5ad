/* file.h: a program file to measure with. Its program block fills words 1 to 254 with groups, none of them its section's last. So
   the load waits for the same after the block as before it: the block can be fed again and again, and is accepted each time. */

#ifndef FILE_H
#define FILE_H

#include "loads.h"

/* No half changed; each right half of type 000; each half changed, by all the types that are carried in turn; and of eight words
   three of the first kind, four of the second and one of the third, mixed. */
enum shape { PLAIN, RIGHT, DENSE, MIXED, SHAPES };

/* How many entries the file has: of type 2, of type 3 and of type 12. */
struct entries {
  uint64_t channels, units, tables;
};

extern const struct entries full; /* as many as there can be */

/* The tables are at the area's end, where as many as there can be have room; the words before them are the IBANK. */
enum { TABLES_FROM = AREA_WORDS - ENTRIES_MOST * TABLE_WORDS };

void write_label_block(uint64_t *block, struct entries entries);
void write_entries_block(uint64_t *block);
unsigned entries_blocks(struct entries entries);
void write_segment_block(uint64_t *block);

/* So many groups, as long as have room; gives how many program words they have. */
unsigned write_group_block(uint64_t *block, enum shape shape, struct entries entries, unsigned groups);

void write_last_block(uint64_t *block); /* the section's last group, of one word */
void write_termination_block(uint64_t *block);

/* The lists for open: every I/O number is 3. */
void write_lists(uint64_t *io, uint64_t *tables, struct entries entries, uint64_t area, bool falling);

#endif
