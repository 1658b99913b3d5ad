/* program.c: the program blocks, right or with one fault: the words that head sections. */

#include "groups.h"

void make_room(struct writer *writer, unsigned words) {
  while (writer->at + words > LAST_WORD + 1 || (writer->early != 0 && one_in(writer->chance, writer->early))) {
    if (writer->at <= LAST_WORD)
      write_word(writer, 0);
    end_block(writer);
    begin_block(writer, PRORC);
    if (writer->file->count > BLOCKS_MOST / 2)
      writer->early = 0;
  }
}

static uint64_t bank_word(struct run bank) {
  return put(0, 33, 18, bank.length) | put(0, 15, 0, bank.start);
}

/* A run of at least one word in this one. */
static struct run some_of(struct chance *chance, struct run run) {
  uint64_t from = below(chance, run.length);
  return (struct run){run.start + from, between(chance, 1, run.length - from)};
}

/* A wrong layout of the banks: of each, where and how long. */
static void bank_faults(struct writer *writer, struct run *ibank, struct run *dbank) {
  struct chance *chance = writer->chance;
  struct file *file = writer->file;
  uint64_t size = file->area.length, table = file->table_count == 0 ? 0 : below(chance, file->table_count);
  struct run *bank = one_in(chance, 2) ? ibank : dbank;
  if (fires(writer, IBANK_EMPTY))
    *ibank = (struct run){between(chance, 1, smaller(size, VALUE_MOST)), 0};
  if (size - bank->start < VALUE_MOST && fires(writer, BANK_LONG))
    bank->length = size - bank->start + 1;
  if (size < VALUE_MOST && fires(writer, BANK_AWAY))
    bank->start = one_in(chance, 2) ? size + (bank == dbank && bank->length == 0) : between(chance, size + 1, VALUE_MOST);
  if (fires(writer, BANKS_SHARE))
    *dbank = some_of(chance, *ibank);
  if (file->table_count != 0 && file->tables[table].length != 0 && fires(writer, BANK_ON_TABLE)) {
    *bank = some_of(chance, file->tables[table]);
    bank->start -= file->area.start;
    *bank = as_bank(*bank);
  }
  fires(writer, WHOLE_TABLE); /* the list has it */
}

static void write_segment(struct writer *writer) {
  struct chance *chance = writer->chance;
  struct run ibank = writer->file->ibank, dbank = writer->file->dbank;
  make_room(writer, SEGMENT_WORDS);
  bank_faults(writer, &ibank, &dbank);
  uint64_t words[2] = {bank_word(ibank), bank_word(dbank)}, *either = &words[below(chance, 2)];
  if (fires(writer, BANK_BITS))
    *either |= any_zero_bit(chance);
  write_word(writer, words[0]);
  write_word(writer, words[1]);
  write_word(writer, one_in(chance, 3) ? 0 : any_word(chance));
  write_word(writer, one_in(chance, 3) ? 0 : any_word(chance));
}

enum { TABLES_TOLD = 255 }; /* the highest number that bits 7-0 can tell */

/* A wrong count or number of a table section; `before` is the table of the section before it, or -1. */
static void section_faults(struct writer *writer, int before, uint64_t *count, uint64_t *table) {
  struct chance *chance = writer->chance;
  const struct file *file = writer->file;
  uint64_t next = between(chance, (uint64_t)(before + 1), file->table_count - 1); /* any that may come next, an empty one too */
  uint64_t past = file->tables[next].length + 1;
  if (fires_sometime(writer, SECTION_EMPTY))
    *count = 0;
  if (past <= VALUE_MOST && fires_sometime(writer, SECTION_LONG)) {
    *table = next;
    *count = one_in(chance, 2) ? past : between(chance, past, VALUE_MOST);
  }
  if (fires_sometime(writer, SECTION_NUMBER))
    *table = one_in(chance, 3)   ? file->table_count
             : one_in(chance, 2) ? put(*table, 7, 7, 1)
                                 : between(chance, file->table_count, TABLES_TOLD);
  if (before >= 0 && fires_sometime(writer, SECTION_ORDER)) {
    do
      *table = below(chance, (uint64_t)before + 1);
    while (file->tables[*table].length == 0);
    *count = 1;
  }
}

static void write_table_section(struct writer *writer, int before, uint64_t table, uint64_t count) {
  static const uint64_t others[3] = {0, KIND_GROUP, 3};
  struct chance *chance = writer->chance;
  uint64_t kind = KIND_TABLE_SECTION, bits = 0;
  make_room(writer, 1);
  section_faults(writer, before, &count, &table);
  if (fires_sometime(writer, SECTION_KIND))
    kind = others[below(chance, 3)];
  if (fires_sometime(writer, SECTION_BITS))
    bits = bit_at((unsigned)between(chance, 8, 17));
  write_word(writer, put(0, 35, 34, kind) | put(0, 33, 18, count) | bits | put(0, 7, 0, table));
}

void write_program(struct writer *writer) {
  const unsigned *chosen = writer->file->section_tables;
  struct file *file = writer->file;
  const struct home ibank = {file->ibank, false, false, 0}, dbank = {file->dbank, false, true, 0}, none = {{0, 0}, true, true, 0};
  begin_block(writer, PRORC);
  write_segment(writer);
  write_groups(writer, &ibank, &dbank);
  for (unsigned i = 0; i < file->sections; i++) {
    struct run table = file->tables[chosen[i]];
    uint64_t count = one_in(writer->chance, 2) ? table.length : between(writer->chance, 1, table.length);
    const struct home home = {{0, count}, true, true, table.start - file->area.start};
    write_table_section(writer, i == 0 ? -1 : (int)chosen[i - 1], chosen[i], count);
    write_groups(writer, &home, &none);
  }
  end_block(writer);
}
