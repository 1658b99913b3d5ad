/* writer.h: what the parts of the generator share. A writer puts a file together word by word. */

#ifndef WRITER_H
#define WRITER_H

#include "bits.h"
#include "generate.h"

struct writer {
  struct chance *chance;
  struct file *file;
  unsigned at;    /* the next word of the block that is written */
  unsigned early; /* a block is closed early once in so many times; 0: never */
  unsigned rare;  /* a fault that could be in many places is put in once in so many times */
};

/* A count up to most: mostly a few, now and then none, one, all but one or all. */
uint64_t few(struct chance *chance, uint64_t most);
uint64_t smaller(uint64_t one, uint64_t other);

/* ---- faults */

/* The wanted fault stands in this block, and where() says at which word and half: what comes from here on is foretold no longer. */
void mark(struct file *file, unsigned block, uint64_t there);

/* Whether the file still wants this fault. */
bool wants(const struct writer *writer, enum fault fault);

/* Whether this fault is to be put in here, in the block that is written; it is marked then, at the word said or at the one that is
   written next. Asked only where it can be: for what a file has once, and for what it has often. */
bool fires_at(struct writer *writer, enum fault fault, unsigned word);
bool fires(struct writer *writer, enum fault fault);
bool fires_sometime(struct writer *writer, enum fault fault);

/* Whether this fault was put in before, and is to be put in here once more: the first one is given. */
bool fires_again(const struct writer *writer, enum fault fault);

/* ---- blocks */

/* All its other words by chance, often with zeros in front: their sum then has few carries or none. */
void begin_block(struct writer *writer, uint64_t identifier);

/* Seals it. One time in three word `spare`, which is not read, first brings the plain sum just below a multiple of 2^36: there the
   carries that are added back are enough to carry once more, or not quite. */
void close_block(struct writer *writer, unsigned spare, bool label);
void end_block(struct writer *writer); /* the same of a block other than the label, the words of which from `at` on are not read */

uint64_t *block_of(const struct writer *writer); /* the block that is written */
void write_word(struct writer *writer, uint64_t word);

/* A bank word has 16 bits for the start and 16 for the length: the run, but neither over 65,535. */
struct run as_bank(struct run run);

/* One of the bits 35, 34, 17 and 16, which beside two numbers of 16 bits must be zero. */
uint64_t any_zero_bit(struct chance *chance);

/* ---- the parts of a file, in this order */

void lay_out(struct chance *chance, struct file *file); /* layout.c: banks, tables and I/O numbers */
void write_label(struct writer *writer);                /* label.c */
void write_name(struct writer *writer);                 /* name.c: the label's words 0 and 1 */
void write_entries(struct writer *writer);              /* file.c: modification blocks */
void write_program(struct writer *writer);              /* program.c */
void write_termination(struct writer *writer);          /* file.c */

#endif
