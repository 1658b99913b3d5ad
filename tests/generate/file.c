/* file.c: a whole file: its parts one after another, with the records that are short, and the faults of whole blocks. */

#include <stddef.h>
#include <stdlib.h>
#include <string.h>

#include "writer.h"

/* ---- modification blocks */

/* Whether a table is to be too short for the entry whose third word is written next. */
static bool is_short(struct writer *writer) {
  enum { FIRST_BLOCK = 1 }; /* the label is block 0 */
  bool later = writer->file->count - 1 > FIRST_BLOCK;
  return fires_sometime(writer, LENGTH_SHORT) || fires_again(writer, LENGTH_SHORT) ||
         (later && fires_sometime(writer, LENGTH_LATER)) || fires_again(writer, LENGTH_LATER);
}

/* What the third word of a core entry tells as the least length. */
static uint64_t least_length(struct writer *writer, uint64_t length) {
  struct chance *chance = writer->chance;
  if (length < VALUE_MOST && is_short(writer))
    return one_in(chance, 2) ? length + 1 : between(chance, length + 1, VALUE_MOST);
  if (length > 0 && (fires_sometime(writer, LENGTH_STRICT) || fires_again(writer, LENGTH_STRICT)))
    return one_in(chance, 2) ? length - 1 : below(chance, length);
  if (writer->file->no_longer_tables || one_in(chance, 3))
    return smaller(length, VALUE_MOST);
  return below(chance, smaller(length, VALUE_MOST) + 1);
}

/* The next word of the entries is to stand in this block or, where it is full, in another. */
static void make_entry_room(struct writer *writer) {
  if (writer->at > LAST_WORD) {
    end_block(writer);
    begin_block(writer, MODRC);
  }
}

static void write_any(struct writer *writer, uint64_t words) {
  while (words-- > 0) {
    make_entry_room(writer);
    write_word(writer, any_word(writer->chance));
  }
}

void write_entries(struct writer *writer) {
  const struct file *file = writer->file;
  if (file->io_count + file->table_count == 0)
    return;
  begin_block(writer, MODRC);
  write_any(writer, IO_ENTRY_WORDS * file->io_count);
  for (uint64_t table = 0; table < file->table_count; table++) {
    write_any(writer, CORE_ENTRY_WORDS - 1);
    make_entry_room(writer); /* first: a fault is marked at the word that is written next */
    uint64_t least = least_length(writer, file->tables[table].length);
    write_word(writer, put(any_word(writer->chance), 15, 0, least));
  }
  end_block(writer);
}

/* ---- the termination block */

void write_termination(struct writer *writer) {
  struct chance *chance = writer->chance;
  struct file *file = writer->file;
  uint64_t start = file->ibank.start + (one_in(chance, 3) ? file->ibank.length - 1 : below(chance, file->ibank.length));
  uint64_t past = file->ibank.start + file->ibank.length;
  begin_block(writer, TRMRC);
  file->termination = file->count - 1;
  file->start = file->area.start + start;
  if (past <= VALUE_MOST && one_in(chance, 2) && fires(writer, START_AWAY))
    start = one_in(chance, 2) ? past : between(chance, past, VALUE_MOST);
  else if (file->ibank.start > 0 && fires(writer, START_AWAY))
    start = one_in(chance, 2) ? file->ibank.start - 1 : below(chance, file->ibank.start);
  write_word(writer, put(any_word(chance), 15, 0, start));
  end_block(writer);
}

/* ---- faults of whole blocks, once a file is written */

static uint64_t other_identifier(struct chance *chance, uint64_t identifier) {
  static const uint64_t records[3] = {MODRC, PRORC, TRMRC};
  uint64_t other;
  do
    other = one_in(chance, 2) ? records[below(chance, 3)] : one_in(chance, 4) ? 0 : identifier ^ any_bit(chance, BITS_IN_WORD);
  while (other == identifier);
  return other;
}

static void turn_bits(struct chance *chance, uint64_t *block) {
  uint64_t most = one_in(chance, 2) ? 8 : WORDS_IN_BLOCK;
  for (uint64_t times = between(chance, 1, 3); times > 0; times--) {
    uint64_t *word = &block[below(chance, most)];
    *word ^= any_bit(chance, BITS_IN_WORD);
  }
}

static void block_faults(struct chance *chance, struct file *file) {
  unsigned later = (unsigned)between(chance, 1, file->count - 1), one = (unsigned)below(chance, file->count);
  if (file->wanted == OLD_SEAL) {
    if (seal_as_before(file->blocks[one], one == 0))
      mark(file, one, 0);
  } else if (file->wanted == RECORD) {
    file->blocks[later][IDENTIFIER_WORD] = other_identifier(chance, file->blocks[later][IDENTIFIER_WORD]);
    seal(file->blocks[later], false);
    mark(file, later, where(IDENTIFIER_WORD, NO_HALF));
  } else if (file->wanted == WILD_BITS) {
    turn_bits(chance, file->blocks[one]);
    seal(file->blocks[one], one == 0);
    mark(file, one, 0);
  } else if (file->wanted == BLOCK_SKIPPED) {
    memmove(file->blocks[one], file->blocks[one + 1], (file->count - one - 1) * sizeof file->blocks[0]);
    file->count--;
    mark(file, one, 0);
  } else if (file->wanted == BLOCK_TWICE && file->count < BLOCKS_MOST) {
    memmove(file->blocks[one + 1], file->blocks[one], (file->count - one) * sizeof file->blocks[0]);
    file->count++;
    mark(file, one + 1, 0);
  }
}

/* ---- files */

struct file *file_make(struct chance *chance, struct run area, enum fault wanted) {
  static const unsigned earlies[4] = {0, 40, 8, 3}, rares[3] = {1, 4, 30};
  struct file *file = malloc(sizeof *file);
  struct writer writer = {.chance = chance, .file = file};
  if (file == NULL)
    abort();
  memset(file, 0, offsetof(struct file, blocks));
  file->area = area;
  file->wanted = wanted;
  file->image = calloc(area.length, sizeof *file->image);
  if (file->image == NULL)
    abort();
  writer.early = earlies[below(chance, 4)];
  writer.rare = rares[below(chance, 3)];
  lay_out(chance, file);
  write_label(&writer);
  write_entries(&writer);
  write_program(&writer);
  write_termination(&writer);
  block_faults(chance, file);
  return file;
}

void file_drop(struct file *file) {
  if (file == NULL)
    return;
  free(file->image);
  free(file);
}
