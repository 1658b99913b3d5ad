/* label.c: the label, right or with one fault. */

#include <string.h>

#include "writer.h"

static const unsigned carried[TYPES_CARRIED] = {TYPE_JUMP_SWITCH, TYPE_CHANNEL, TYPE_UNIT, TYPE_CORE};

static bool is_carried(uint64_t type) {
  return type == TYPE_JUMP_SWITCH || type == TYPE_CHANNEL || type == TYPE_UNIT || type == TYPE_CORE;
}

static uint64_t table_word(struct chance *chance, uint64_t type, uint64_t entries) {
  return put(put(any_word(chance), 35, 32, type), 8, 0, entries);
}

enum { TOTAL_BITS = 11 }; /* the entries in all are bits 10-0 of word 3 */

/* The word with these counts of tables and entries. */
static uint64_t with_counts(uint64_t word, uint64_t tables, uint64_t entries) {
  return put(put(word, 28, 18, tables), 10, 0, entries);
}

/* The counts, and a word for each table. */
static void put_tables(struct writer *writer, const uint64_t entries[TYPES]) {
  uint64_t *block = block_of(writer), tables = 0, total = 0;
  for (int i = 0; i < TYPES_CARRIED; i++) {
    if (entries[carried[i]] == 0)
      continue;
    block[TABLES_WORD + tables++] = table_word(writer->chance, carried[i], entries[carried[i]]);
    total += entries[carried[i]];
  }
  block[COUNTS_WORD] = with_counts(put(any_word(writer->chance), 35, 35, writer->file->no_longer_tables), tables, total);
}

static uint64_t tables_told(const uint64_t *block) {
  return part(block[COUNTS_WORD], 28, 18);
}

/* The type that a table's word tells. */
static uint64_t type_told(uint64_t word) {
  return part(word, 35, 32);
}

/* Another table word at this place among the others: of this type, with so many entries. */
static void insert_table(struct writer *writer, uint64_t place, uint64_t type, uint64_t entries) {
  uint64_t *block = block_of(writer), total = part(block[COUNTS_WORD], 10, 0), tables = tables_told(block);
  uint64_t *word = &block[TABLES_WORD + place];
  memmove(word + 1, word, (tables - place) * sizeof *block);
  *word = table_word(writer->chance, type, entries);
  block[COUNTS_WORD] = with_counts(block[COUNTS_WORD], tables + 1, total + entries);
}

static void write_type_flag(struct writer *writer) {
  static const uint64_t others[7] = {0, 2, 3, 4, 5, 6, 7}; /* but DIRECT_ROC */
  bool other = fires_at(writer, TYPE_FLAG, TYPE_FLAG_WORD) || fires_at(writer, TYPE_FLAG_THEN_LABEL, TYPE_FLAG_WORD) ||
               writer->file->wanted == LABEL_THEN_TYPE_FLAG;
  uint64_t flag = other ? others[below(writer->chance, 7)] : DIRECT_ROC;
  block_of(writer)[TYPE_FLAG_WORD] = put(any_word(writer->chance), 35, 33, flag);
}

/* The word that tells of this type, or would, where these are the entries. */
static unsigned word_of_type(const uint64_t entries[TYPES], unsigned type) {
  unsigned word = TABLES_WORD;
  for (int i = 0; carried[i] != type; i++)
    word += entries[carried[i]] != 0;
  return word;
}

/* A type that is not carried, in the place of a table's or, where there is none, as the only one. */
static void other_type(struct writer *writer) {
  static const uint64_t beside[4] = {TYPE_CHANNEL - 1, TYPE_UNIT + 1, TYPE_CORE - 1, TYPE_CORE + 1};
  struct chance *chance = writer->chance;
  uint64_t *block = block_of(writer), tables = tables_told(block), which = tables == 0 ? 0 : below(chance, tables), type;
  if (tables == 0)
    insert_table(writer, 0, TYPE_JUMP_SWITCH, between(chance, 1, CHANNELS_MOST));
  uint64_t *word = &block[TABLES_WORD + which], least = which == 0 ? 0 : type_told(word[-1]) + 1;
  uint64_t most = which + 1 < tables ? type_told(word[1]) : TYPES - 1;
  do /* one beside those that are carried, or one that still rises */
    type = one_in(chance, 2) ? beside[below(chance, 4)] : between(chance, least, most);
  while (is_carried(type));
  *word = put(*word, 35, 32, type);
  fires_at(writer, TABLE_TYPE, (unsigned)(TABLES_WORD + which));
}

/* A count of tables that is not theirs. With too few, the entries are not those in all. With too many, the word after the last is
   at fault: no type rises a fifth time, and where there are fewer tables it does not rise or is not carried. */
static void wrong_table_count(struct writer *writer) {
  struct chance *chance = writer->chance;
  uint64_t *block = block_of(writer), tables = tables_told(block), *after = &block[TABLES_WORD + tables];
  if (tables > 0 && fires_at(writer, TABLES_FEWER, COUNTS_WORD))
    block[COUNTS_WORD] = put(block[COUNTS_WORD], 28, 18, below(chance, tables));
  if (fires_at(writer, TABLES_MORE, (unsigned)(TABLES_WORD + tables))) {
    uint64_t more = one_in(chance, 2) ? 1 : bit_at((unsigned)between(chance, 3, 10));
    uint64_t type = tables > 0 && one_in(chance, 2) ? type_told(after[-1]) : TYPE_CHANNEL - 1;
    block[COUNTS_WORD] = put(block[COUNTS_WORD], 28, 18, tables + more);
    if (tables < TYPES_CARRIED)
      *after = table_word(chance, type, 1);
  }
}

/* Entries in all that are not the tables': the count in all, or fewer in a table. */
static void wrong_total(struct writer *writer) {
  struct chance *chance = writer->chance;
  uint64_t *block = block_of(writer), tables = tables_told(block), *word = &block[TABLES_WORD + below(chance, tables + 1)];
  uint64_t entries = word < block + TABLES_WORD + tables ? part(*word, 8, 0) : 0;
  if (entries > 1 && one_in(chance, 2))
    *word = put(*word, 8, 0, between(chance, 1, entries - 1));
  else
    block[COUNTS_WORD] ^= any_bit(chance, TOTAL_BITS);
}

/* A table more, of a type that there is: as its second word does not rise, that is the one at fault. */
static void same_type_twice(struct writer *writer, unsigned which) {
  uint64_t word = block_of(writer)[TABLES_WORD + which];
  insert_table(writer, which, type_told(word), between(writer->chance, 1, smaller(3, part(word, 8, 0))));
}

static void table_faults(struct writer *writer) {
  struct chance *chance = writer->chance;
  uint64_t *words = block_of(writer) + TABLES_WORD;
  const uint64_t *entries = writer->file->entries;
  unsigned tables = (unsigned)tables_told(block_of(writer)), which = (unsigned)below(chance, tables + 1);
  unsigned absent = entries[TYPE_UNIT] == 0 ? TYPE_UNIT : entries[TYPE_CORE] == 0 ? TYPE_CORE : carried[below(chance, 2)];
  if (wants(writer, TABLE_TYPE))
    other_type(writer);
  if (which + 1 < tables && fires_at(writer, TABLE_ORDER, TABLES_WORD + which + 1)) {
    uint64_t word = words[which];
    words[which] = words[which + 1];
    words[which + 1] = word;
  }
  if (which < tables && fires_at(writer, TABLE_TWICE, TABLES_WORD + which + 1))
    same_type_twice(writer, which);
  if (entries[absent] == 0 && wants(writer, TABLE_EMPTY)) {
    unsigned at = word_of_type(entries, absent);
    fires_at(writer, TABLE_EMPTY, at);
    insert_table(writer, at - TABLES_WORD, absent, 0);
  }
  if (fires_at(writer, ENTRY_TOTAL, COUNTS_WORD) || writer->file->wanted == TYPE_FLAG_THEN_LABEL)
    wrong_total(writer);
}

/* Over 16 entries of types 0 and 2. Gives the type at whose word they first are. */
static unsigned too_many_channels(struct chance *chance, uint64_t entries[TYPES], uint64_t more) {
  const uint64_t channels = CHANNELS_MOST + 1;
  entries[TYPE_JUMP_SWITCH] = one_in(chance, 3) ? channels : below(chance, channels);
  entries[TYPE_CHANNEL] = channels - entries[TYPE_JUMP_SWITCH] + more;
  entries[TYPE_UNIT] = smaller(entries[TYPE_UNIT], ENTRIES_MOST - channels - more);
  return entries[TYPE_JUMP_SWITCH] == channels ? TYPE_JUMP_SWITCH : TYPE_CHANNEL;
}

/* Counts of entries that are too many in one way only: the fault is at the word by which they are. */
static void too_many_entries(struct writer *writer) {
  struct chance *chance = writer->chance;
  uint64_t entries[TYPES], more = one_in(chance, 2) ? 0 : below(chance, 60);
  bool then_order = wants(writer, MANY_THEN_ORDER);
  unsigned over;
  memcpy(entries, writer->file->entries, sizeof entries);
  if (wants(writer, CHANNELS_MANY) || then_order) {
    over = too_many_channels(chance, entries, more);
  } else if (wants(writer, IO_MANY)) {
    entries[TYPE_UNIT] = ENTRIES_MOST + 1 - entries[TYPE_JUMP_SWITCH] - entries[TYPE_CHANNEL] + more;
    over = TYPE_UNIT;
  } else if (wants(writer, CORE_MANY)) {
    entries[TYPE_CORE] = ENTRIES_MOST + 1 + more;
    over = TYPE_CORE;
  } else {
    return;
  }
  put_tables(writer, entries);
  mark(writer->file, 0, where(word_of_type(entries, over), NO_HALF));
  if (then_order)
    insert_table(writer, tables_told(block_of(writer)), TYPE_JUMP_SWITCH, between(chance, 1, 3));
}

/* Whether the I/O entries are to be more or fewer than the list has; a fault of the label itself comes before that. */
static bool other_io_count(struct writer *writer) {
  return fires_at(writer, IO_COUNT, COUNTS_WORD) || fires_at(writer, LABEL_THEN_LISTS, SECTIONS_WORD);
}

/* Counts of entries that a label may have, but that are not the lists'. */
static void other_entries(struct writer *writer) {
  struct chance *chance = writer->chance;
  const struct file *file = writer->file;
  uint64_t entries[TYPES];
  unsigned type = carried[below(chance, 3)];
  bool fewer = one_in(chance, 2);
  memcpy(entries, file->entries, sizeof entries);
  if (fewer && entries[type] > 0 && other_io_count(writer))
    entries[type]--;
  else if (file->io_count < ENTRIES_MOST && other_io_count(writer))
    entries[TYPE_UNIT]++;
  else if (!fewer && entries[TYPE_CORE] < ENTRIES_MOST && fires_at(writer, CORE_COUNT, COUNTS_WORD))
    entries[TYPE_CORE]++;
  else if (entries[TYPE_CORE] > file->sections && fires_at(writer, CORE_COUNT, COUNTS_WORD))
    entries[TYPE_CORE]--;
  else
    return;
  put_tables(writer, entries);
}

static uint64_t segments_told(struct writer *writer) {
  uint64_t told = writer->file->wanted == LABEL_THEN_LISTS && writer->file->faulty ? 2 : 1;
  if (fires_at(writer, SEGMENTS, SECTIONS_WORD))
    do
      told = one_in(writer->chance, 2) ? below(writer->chance, 4) : below(writer->chance, VALUE_MOST + 1);
    while (told == 1);
  return told;
}

static uint64_t sections_told(struct writer *writer) {
  const struct file *file = writer->file;
  if (fires_at(writer, SECTIONS_MANY, SECTIONS_WORD))
    return one_in(writer->chance, 2) ? file->table_count + 1 : between(writer->chance, file->table_count + 1, VALUE_MOST);
  if (file->sections < file->table_count && fires(writer, SECTIONS_PROMISED))
    return file->sections + 1;
  return file->sections;
}

/* A label at fault may be at fault in words that are read later, too: the first is given. The entries in all, in word 3, are read
   after the tables. */
static void spoil_later(struct writer *writer) {
  static const unsigned order[] = {0, 1, 2, 4, 5, 6, 7, 8, COUNTS_WORD, SECTIONS_WORD, NAME_AGAIN_WORD};
  enum { WORDS = sizeof order / sizeof order[0] };
  const struct file *file = writer->file;
  bool by_itself = file->fault_answer == REFUSED_TYPE_FLAG || file->fault_answer == REFUSED_LABEL;
  unsigned fault = 0;
  if (!file->faulty || !by_itself || one_in(writer->chance, 2))
    return;
  while (where(order[fault], NO_HALF) != file->fault_where)
    fault++;
  for (unsigned i = fault + 1; i < WORDS; i++)
    if (one_in(writer->chance, 3))
      block_of(writer)[order[i]] ^= any_bit(writer->chance, order[i] == COUNTS_WORD ? TOTAL_BITS : BITS_IN_WORD);
}

void write_label(struct writer *writer) {
  uint64_t *block;
  begin_block(writer, 0); /* its name comes there */
  block = block_of(writer);
  write_name(writer);
  write_type_flag(writer);
  put_tables(writer, writer->file->entries);
  wrong_table_count(writer);
  table_faults(writer);
  too_many_entries(writer);
  other_entries(writer);
  block[SECTIONS_WORD] = put(0, 33, 18, segments_told(writer));
  block[SECTIONS_WORD] = put(block[SECTIONS_WORD], 15, 0, sections_told(writer));
  if (fires_at(writer, WORD_253, SECTIONS_WORD))
    block[SECTIONS_WORD] |= any_zero_bit(writer->chance);
  block[NAME_AGAIN_WORD] = block[NAME_WORD];
  if (fires_at(writer, WORD_255, NAME_AGAIN_WORD))
    block[NAME_AGAIN_WORD] ^= any_bit(writer->chance, BITS_IN_WORD);
  if (writer->file->channels > 0)
    fires_at(writer, CHANNEL_OVER_15, COUNTS_WORD); /* the list has it */
  spoil_later(writer);
  close_block(writer, SECTIONS_WORD - 1, true);
}
