/* groups.h: the groups of a section, for the program blocks. */

#ifndef GROUPS_H
#define GROUPS_H

#include "writer.h"

/* Where the groups of a section go: the relative addresses, whether that is in a table, what the group's bit 16 is, and the word of
   the area that relative address 0 is. */
struct home {
  struct run run;
  bool in_table, bit_16;
  uint64_t zero;
};

/* The groups of one section, which go to one of two homes; the second may be empty. */
void write_groups(struct writer *writer, const struct home *first, const struct home *second);

/* Where an identifier is due: closes the block early by chance, and always where so many words do not fit. (program.c) */
void make_room(struct writer *writer, unsigned words);

#endif
