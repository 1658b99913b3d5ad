/* layout.c: what open is to be told of a file, and where its banks are: I/O numbers, tables and banks in the area. */

#include "writer.h"

enum { BANKS = 2 }; /* IBANK and DBANK */

static void lay_out_io(struct chance *chance, struct file *file) {
  file->channels = few(chance, CHANNELS_MOST);
  file->entries[TYPE_JUMP_SWITCH] = below(chance, file->channels + 1);
  file->entries[TYPE_CHANNEL] = file->channels - file->entries[TYPE_JUMP_SWITCH];
  file->entries[TYPE_UNIT] = few(chance, ENTRIES_MOST - file->channels);
  file->io_count = file->channels + file->entries[TYPE_UNIT];
  for (uint64_t i = 0; i < file->io_count; i++) {
    uint64_t most = i < file->channels ? CHANNEL_MOST : VALUE_MOST;
    file->io[i] = one_in(chance, 6) ? most : below(chance, most + 1);
  }
  if (file->wanted == CHANNEL_OVER_15 && file->channels > 0) {
    uint64_t which = below(chance, file->channels);
    file->io[which] = one_in(chance, 2) ? CHANNEL_MOST + 1 : between(chance, CHANNEL_MOST + 1, VALUE_MOST);
  }
}

static void shuffle(struct chance *chance, unsigned *order, unsigned count) {
  for (unsigned i = 0; i < count; i++) {
    unsigned j = (unsigned)below(chance, i + 1);
    order[i] = order[j];
    order[j] = i;
  }
}

/* How many of the words that are left a piece takes. */
static uint64_t take(struct chance *chance, uint64_t left) {
  switch (below(chance, 5)) {
  case 0:
    return 0;
  case 1:
    return smaller(left, 1);
  case 2:
    return below(chance, left + 1);
  default:
    return below(chance, smaller(left, 40) + 1);
  }
}

/* The pieces of an area, in an order by chance and with gaps by chance: the tables, then IBANK and DBANK. Gives each more length,
   and a start relative to the area; an empty one may start anywhere. */
static void lay_out_pieces(struct chance *chance, struct run *pieces, unsigned count, uint64_t size) {
  unsigned order[ENTRIES_MOST + BANKS], ibank = count - BANKS;
  uint64_t left = size - 1 - pieces[0].length, at = 0;
  shuffle(chance, order, count);
  for (unsigned i = 0; i < count; i++) {
    uint64_t more = take(chance, left);
    pieces[order[i]].length += more;
    left -= more;
  }
  pieces[ibank].length += 1;
  if (one_in(chance, 2)) { /* often the program is most of it */
    pieces[ibank].length += left;
    left = 0;
  }
  shuffle(chance, order, count);
  for (unsigned i = 0; i < count; i++) {
    uint64_t gap = one_in(chance, 3) ? below(chance, left + 1) : 0;
    left -= gap;
    at += gap;
    pieces[order[i]].start = pieces[order[i]].length == 0 && one_in(chance, 2) ? below(chance, size + 1) : at;
    at += pieces[order[i]].length;
  }
}

struct run as_bank(struct run run) {
  return (struct run){smaller(run.start, VALUE_MOST), smaller(run.length, VALUE_MOST)};
}

static bool is_section_fault(enum fault fault) {
  return (SECTION_KIND <= fault && fault <= SECTION_ORDER) || fault == GROUP_AWAY || fault == GROUP_BIT_16;
}

/* Which tables get a section: some of those that have words, or all of them where a fault of sections is wanted. */
static void choose_sections(struct chance *chance, struct file *file) {
  uint64_t often = is_section_fault(file->wanted) ? 1 : between(chance, 1, 3);
  for (unsigned i = 0; i < file->table_count; i++)
    if (file->tables[i].length > 0 && file->tables[i].length <= VALUE_MOST && one_in(chance, often))
      file->section_tables[file->sections++] = i;
}

void lay_out(struct chance *chance, struct file *file) {
  struct run pieces[ENTRIES_MOST + BANKS] = {{0, 0}};
  unsigned tables = (unsigned)few(chance, ENTRIES_MOST);
  lay_out_io(chance, file);
  if (file->wanted == LENGTH_LATER) /* as many entries as take more than one block */
    tables = (unsigned)between(chance, WORDS_BETWEEN / CORE_ENTRY_WORDS + 1, ENTRIES_MOST);
  if (tables < 3 && (file->wanted == WHOLE_TABLE || file->wanted == PAIR_OVER || is_section_fault(file->wanted)))
    tables += 3;
  if (file->wanted == PAIR_OVER) /* a long table, so that it can be taken from an address to give less than 0 */
    pieces[0].length = file->area.length / 2;
  lay_out_pieces(chance, pieces, tables + BANKS, file->area.length);
  file->ibank = as_bank(pieces[tables]);
  file->dbank = as_bank(pieces[tables + 1]);
  if (file->wanted == GROUP_EMPTY_DBANK)
    file->dbank.length = 0;
  file->table_count = file->entries[TYPE_CORE] = tables;
  for (unsigned i = 0; i < tables; i++)
    file->tables[i] = (struct run){file->area.start + pieces[i].start, pieces[i].length};
  if (file->wanted == WHOLE_TABLE) {
    for (unsigned i = 0; i < tables; i++)
      file->tables[i].length = 0;
    file->tables[below(chance, tables)] = file->area;
  }
  choose_sections(chance, file);
  file->no_longer_tables = file->wanted == LENGTH_STRICT || (file->wanted != WHOLE_TABLE && one_in(chance, 4));
}
