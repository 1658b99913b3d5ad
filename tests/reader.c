/* reader.c: the calls of reader.h. Sentences in quotes are 01's, where no request of 02 is named. Every test stands in the order in
   which 01 has it made. */

#include "reader.h"

#include <string.h>

/* "Identifiers in octal Fieldata" */
static const uint64_t MODRC = 0502224112710, PRORC = 0502527242710, TRMRC = 0503127222710;

/* Words of a block. The label's are: the name in words 0 and 1, and */
enum { TYPE_FLAG = 2, COUNTS = 3, FIRST_TABLE = 4, SEGMENTS_AND_SECTIONS = 253, LABEL_CHECKSUM = 254, NAME_AGAIN = 255 };

/* of the others, where "the end at word 254 closes the block" */
enum { IDENTIFIER = 0, FIRST = 1, LAST = 254, CHECKSUM = 255 };

/* "12 Fieldata characters: A to Z are octal 06 to 37, 0 to 9 are 60 to 71, hyphen 41, space 05." */
enum {
  NAME_LENGTH = 12,
  IN_WORD = 6,
  CHARACTER_BITS = 6,
  LETTER_A = 006,
  LETTER_Z = 037,
  DIGIT_0 = 060,
  DIGIT_9 = 071,
  HYPHEN = 041,
  SPACE = 005
};

/* "table types carried are 0 (jump switch), 2 (channel), 3 (unit) and 12 (core)" */
enum { JUMP_SWITCH = 0, CHANNEL = 2, UNIT = 3, CORE = 12, TYPES = 16 };

/* "two words for types 0, 2 and 3, three for type 12"; "Segment section, first and once, four words" */
enum { IO_ENTRY = 2, CORE_ENTRY = 3, SEGMENT = 4 };

/* Bits 35-34 of what heads a table section or a group. */
enum { TABLE_SECTION = 1, GROUP = 2 };

/* The three-bit types of modification that are carried. */
enum { BY_AREA = 0, BY_PAIR = 1, BY_TABLE = 2, BY_CHANNEL = 4, BY_UNIT = 7 };

/* "1 bit for no change, 13 for type 010 with the field's bit 15 set, 4 for any other type" */
enum { NO_CHANGE = 1, CHANGE = 4, LONG_CHANGE = 13 };

enum { LONG_CONSTANT_LEAST = 64 };

/* ---- words and runs */

/* Bits high to low of a word: part(word, 33, 18) is 01's "bits 33-18". */
static uint64_t part(uint64_t word, unsigned high, unsigned low) {
  return word >> low & (((uint64_t)1 << (high - low + 1)) - 1);
}

static bool bit(uint64_t word, unsigned at) {
  return word >> at & 1;
}

/* The word with bits high to low replaced by a value that fits there. */
static uint64_t with(uint64_t word, unsigned high, unsigned low, uint64_t value) {
  uint64_t mask = (((uint64_t)1 << (high - low + 1)) - 1) << low;
  return (word & ~mask) | value << low;
}

/* "its start may be the end of what holds it": so an empty run may start there. Nothing here can pass 2^64. */
static bool inside(struct run inner, struct run outer) {
  uint64_t from = inner.start - outer.start;
  return inner.start >= outer.start && from <= outer.length && inner.length <= outer.length - from;
}

/* "An empty table, bank or stretch shares no word with anything". Neither run ends past 2^64: each was found inside another. */
static bool share(struct run one, struct run other) {
  return one.length != 0 && other.length != 0 && one.start < other.start + other.length && other.start < one.start + one.length;
}

/* Whether any two of the runs share a word. */
static bool any_share(const struct run *runs, uint64_t count) {
  for (uint64_t i = 0; i < count; i++)
    for (uint64_t j = 0; j < i; j++)
      if (share(runs[i], runs[j]))
        return true;
  return false;
}

static bool any_shares_with(struct run one, const struct run *runs, uint64_t count) {
  for (uint64_t i = 0; i < count; i++)
    if (share(one, runs[i]))
      return true;
  return false;
}

/* Request #105: "Refusals 1 to 12 still return 0." */
static uint64_t refused(uint64_t number) {
  return told(number, 0);
}

/* A fault in a block is the whole answer that it draws, and 0 where there is none. Request #105: "For 13 to 22 the answer's value
   becomes the word number times 4, plus 1 for a left half, 2 for a right half, 0 otherwise." */
static uint64_t fault_at(unsigned number, uint64_t word) {
  return told(number, word * 4);
}

static uint64_t half_fault(unsigned number, uint64_t word, bool left) {
  return told(number, word * 4 + (left ? 1 : 2));
}

/* ---- make */

/* Refusal 3: "map not eight pairs, or breaking its rule": "The stretches lie inside the core and share no word." */
static bool read_map(struct run *stretches, uint64_t core_length, const uint64_t *map, uint64_t map_length) {
  struct run core = {0, core_length};
  if (map_length != MAP_LENGTH)
    return false;
  for (unsigned room = 0; room < ROOMS; room++) {
    stretches[room] = (struct run){map[2 * room], map[2 * room + 1]};
    if (!inside(stretches[room], core))
      return false;
  }
  return !any_share(stretches, ROOMS);
}

uint64_t reader_make(struct reader *desk, uint64_t core_length, const uint64_t *map, uint64_t map_length) {
  struct run stretches[ROOMS];
  if (core_length == 0 || core_length > CORE_MOST)
    return refused(REFUSED_CORE_LENGTH);
  if (!read_map(stretches, core_length, map, map_length))
    return refused(REFUSED_MAP);
  memset(desk, 0, sizeof *desk);
  desk->core_length = core_length;
  memcpy(desk->map, stretches, sizeof stretches);
  return told(MADE, 0);
}

/* ---- open */

/* How many places the room holds. */
static unsigned places_held(const struct reader *desk, uint64_t room) {
  unsigned held = 0;
  for (unsigned place = 0; place < PLACES; place++)
    held += desk->places[place].stage != FREE && desk->places[place].room == room;
  return held;
}

/* "Say F places are free and H rooms hold none" */
static unsigned places_free(const struct reader *desk) {
  unsigned free = 0;
  for (unsigned place = 0; place < PLACES; place++)
    free += desk->places[place].stage == FREE;
  return free;
}

static unsigned rooms_without(const struct reader *desk) {
  unsigned rooms = 0;
  for (unsigned room = 0; room < ROOMS; room++)
    rooms += places_held(desk, room) == 0;
  return rooms;
}

/* Refusal 7: "area empty, not inside the room's stretch, or sharing a word with one the room holds" */
static bool area_fits(const struct reader *desk, uint64_t room, struct run area) {
  if (area.length == 0 || !inside(area, desk->map[room]))
    return false;
  for (unsigned place = 0; place < PLACES; place++)
    if (desk->places[place].stage != FREE && desk->places[place].room == room && share(area, desk->places[place].area))
      return false;
  return true;
}

/* Refusal 8: "over 128 entries, half a pair, an I/O number over 65,535, a table not inside the area, or two tables sharing a
   word". The lists are copied into the load. */
static bool read_lists(struct load *load, const uint64_t *io, uint64_t io_length, const uint64_t *tables, uint64_t tables_length) {
  if (io_length > ENTRIES_MOST || tables_length > PAIRS_MOST || tables_length % 2 != 0)
    return false;
  load->io_count = io_length;
  load->table_count = tables_length / 2;
  for (uint64_t i = 0; i < load->io_count; i++) {
    load->io[i] = io[i];
    if (io[i] > VALUE_MOST)
      return false;
  }
  for (uint64_t i = 0; i < load->table_count; i++) {
    load->tables[i] = (struct run){tables[2 * i], tables[2 * i + 1]};
    if (!inside(load->tables[i], load->area))
      return false;
  }
  return !any_share(load->tables, load->table_count);
}

/* "sets each word of the area to zero" */
static void clear_area(const struct load *load, uint64_t *core) {
  memset(core + load->area.start, 0, load->area.length * sizeof *core);
}

uint64_t reader_open(struct reader *desk, uint64_t *core, uint64_t core_length, uint64_t room, uint64_t area, uint64_t size,
                     const uint64_t *io, uint64_t io_length, const uint64_t *tables, uint64_t tables_length) {
  struct load load = {.stage = LABEL_DUE, .room = room, .area = {area, size}};
  unsigned place = 0;
  if (core_length != desk->core_length)
    return refused(REFUSED_CORE_LENGTH);
  if (room >= ROOMS)
    return refused(REFUSED_ROOM);
  if (places_held(desk, room) == HELD_MOST)
    return refused(REFUSED_HOLDS_TWO);
  if (places_held(desk, room) == 1 && places_free(desk) <= rooms_without(desk)) /* "F is not greater than H" */
    return refused(REFUSED_HOLDS_ONE);
  if (!area_fits(desk, room, load.area))
    return refused(REFUSED_AREA);
  if (!read_lists(&load, io, io_length, tables, tables_length))
    return refused(REFUSED_LISTS);
  while (desk->places[place].stage != FREE) /* "It gives the lowest free place": one is free, for F is at least H */
    place++;
  desk->places[place] = load;
  clear_area(&load, core);
  return told(OPENED, place);
}

/* ---- the label */

static bool letter_or_digit(uint64_t character) {
  return (character >= LETTER_A && character <= LETTER_Z) || (character >= DIGIT_0 && character <= DIGIT_9);
}

/* "The first is a letter or digit; spaces only at the end." The word at fault is that of the first character that may not stand
   where it does: after a space that is the next one that is no space. */
static uint64_t read_name(const uint64_t *block) {
  bool ended = false;
  for (unsigned i = 0; i < NAME_LENGTH; i++) {
    unsigned word = i / IN_WORD, low = BITS_IN_WORD - CHARACTER_BITS * (i % IN_WORD + 1);
    uint64_t character = part(block[word], low + CHARACTER_BITS - 1, low);
    bool named = letter_or_digit(character) || (i > 0 && character == HYPHEN);
    if (i > 0 && character == SPACE)
      ended = true;
    else if (ended || !named)
      return fault_at(REFUSED_LABEL, word);
  }
  return 0;
}

static bool is_carried(uint64_t type) {
  return type == JUMP_SWITCH || type == CHANNEL || type == UNIT || type == CORE;
}

/* "Types 0 and 2 together have at most 16 entries, with type 3 at most 128; type 12 has at most 128." */
static bool entries_in_bounds(const uint64_t entries[TYPES]) {
  uint64_t channels = entries[JUMP_SWITCH] + entries[CHANNEL];
  return channels <= CHANNELS_MOST && channels + entries[UNIT] <= ENTRIES_MOST && entries[CORE] <= ENTRIES_MOST;
}

/* "table types carried are 0 (jump switch), 2 (channel), 3 (unit) and 12 (core), in rising order, none twice, none with 0 entries."
   Word 3 counts tables in bits 28-18 and entries in bits 10-0; a table's word has its type in bits 35-32, its entries in bits 8-0.
   The bounds are tested at each word, for the entries up to there; "a wrong entry total (tested after the table words)" is word 3's
   (#105). Four types rise, so that a fifth word is at fault whatever it says. Gives the entries of each type. */
static uint64_t read_label_tables(const uint64_t *block, uint64_t entries[TYPES]) {
  uint64_t tables = part(block[COUNTS], 28, 18), total = 0, type_least = 0;
  for (uint64_t at = FIRST_TABLE; at < FIRST_TABLE + tables; at++) {
    uint64_t type = part(block[at], 35, 32), count = part(block[at], 8, 0);
    if (!is_carried(type) || type < type_least || count == 0)
      return fault_at(REFUSED_LABEL, at);
    entries[type] = count;
    if (!entries_in_bounds(entries))
      return fault_at(REFUSED_LABEL, at);
    type_least = type + 1;
    total += count;
  }
  return total == part(block[COUNTS], 10, 0) ? 0 : fault_at(REFUSED_LABEL, COUNTS); /* "The entry total must agree" */
}

/* "Word 253: bits 33-18 segments, bits 15-0 table sections, rest zero"; "the segment count is 1, and table sections are no more
   than core entries." */
static bool counts_are_right(uint64_t word, uint64_t core_entries) {
  return part(word, 35, 34) == 0 && part(word, 33, 18) == 1 && part(word, 17, 16) == 0 && part(word, 15, 0) <= core_entries;
}

/* "Then 16 if the lists' counts differ from the file's or a jump switch or channel number is over 15." */
static bool lists_suit(const struct load *load, const uint64_t entries[TYPES]) {
  if (load->io_count != load->channels + entries[UNIT] || load->table_count != entries[CORE])
    return false;
  for (uint64_t i = 0; i < load->channels; i++)
    if (load->io[i] > CHANNEL_MOST)
      return false;
  return true;
}

/* What the label says by itself, and how many entries of each type it tells of. */
static uint64_t read_label_words(const uint64_t *block, uint64_t entries[TYPES]) {
  uint64_t fault = read_name(block);
  if (fault != 0)
    return fault;
  if (part(block[TYPE_FLAG], 35, 33) != 1)
    return fault_at(REFUSED_TYPE_FLAG, TYPE_FLAG);
  fault = read_label_tables(block, entries);
  if (fault != 0)
    return fault;
  if (!counts_are_right(block[SEGMENTS_AND_SECTIONS], entries[CORE]))
    return fault_at(REFUSED_LABEL, SEGMENTS_AND_SECTIONS);
  return block[NAME_AGAIN] == block[0] ? 0 : fault_at(REFUSED_LABEL, NAME_AGAIN); /* "Word 255 repeats word 0." */
}

/* The label, and whether it suits the lists: "word 3 for the label's 16" (#105). */
static uint64_t read_label(struct load *load, const uint64_t *block) {
  uint64_t entries[TYPES] = {0}, fault = read_label_words(block, entries);
  if (fault != 0)
    return fault;
  load->no_longer_tables = bit(block[COUNTS], 35);
  load->channels = entries[JUMP_SWITCH] + entries[CHANNEL];
  load->sections = part(block[SEGMENTS_AND_SECTIONS], 15, 0);
  if (!lists_suit(load, entries))
    return fault_at(REFUSED_ASSIGNMENTS, COUNTS);
  /* "With no entries there is no modification block." */
  load->stage = load->io_count + load->table_count == 0 ? SEGMENT_DUE : ENTRIES_DUE;
  return 0;
}

/* ---- modification blocks */

/* "The assigned length must be at least this, and equal to it when the label's bit 35 is set (16)." */
static bool length_suits(const struct load *load, uint64_t table, uint64_t minimum) {
  uint64_t assigned = load->tables[table].length;
  return assigned == minimum || (assigned > minimum && !load->no_longer_tables);
}

/* "Words 1 to 254 hold entries, split across blocks where needed": "two words for types 0, 2 and 3, three for type 12"; "only the
   third word's bits 15-0 matter, the minimum length." That word is the one at fault, in the block where it stands. */
static uint64_t read_entries(struct load *load, const uint64_t *block) {
  uint64_t io_words = IO_ENTRY * load->io_count, words = io_words + CORE_ENTRY * load->table_count;
  for (unsigned at = FIRST; at <= LAST && load->entry_words < words; at++) {
    uint64_t core_word = load->entry_words - io_words; /* among the words of the core entries, once those are reached */
    bool third = load->entry_words >= io_words && core_word % CORE_ENTRY == CORE_ENTRY - 1;
    if (third && !length_suits(load, core_word / CORE_ENTRY, part(block[at], 15, 0)))
      return fault_at(REFUSED_ASSIGNMENTS, at);
    load->entry_words++;
  }
  if (load->entry_words == words)
    load->stage = SEGMENT_DUE;
  return 0;
}

/* ---- program blocks: what heads a section */

/* "In a bank word bits 35, 34, 17, 16 are zero, bits 33-18 the word count, bits 15-0 the relative address." */
static bool read_bank(uint64_t word, struct run *bank) {
  *bank = (struct run){part(word, 15, 0), part(word, 33, 18)};
  return part(word, 35, 34) == 0 && part(word, 17, 16) == 0;
}

/* "Both lie in the area, sharing no word with each other or a table." Tables are absolute. */
static bool bank_lies_right(const struct load *load, struct run bank) {
  struct run absolute = {load->area.start + bank.start, bank.length};
  return inside(absolute, load->area) && !any_shares_with(absolute, load->tables, load->table_count);
}

/* "Segment section, first and once, four words: IBANK, DBANK, two disregarded." A zero word or the end closes a block before it,
   so that it always heads a block: its four words are never split. The word at fault is "the identifier's first for 17 and 18"
   (#105), the DBANK's faults too. */
static uint64_t read_segment(struct load *load, const uint64_t *block, unsigned *at) {
  if (!read_bank(block[*at], &load->ibank) || !read_bank(block[*at + 1], &load->dbank))
    return fault_at(REFUSED_SECTION, *at);
  if (load->ibank.length == 0) /* "IBANK count at least 1; DBANK may be 0." */
    return fault_at(REFUSED_SECTION, *at);
  if (!bank_lies_right(load, load->ibank) || !bank_lies_right(load, load->dbank) || share(load->ibank, load->dbank))
    return fault_at(REFUSED_SECTION, *at);
  load->in_table = false;
  load->stage = GROUP_DUE;
  *at += SEGMENT;
  return 0;
}

/* "Table section, one word: bits 35-34 are 01, bits 33-18 a count from 1 to the assigned length, bits 17-8 zero, bits 7-0 the
   table's number, rising from section to section. All other words, and a number with no table, are 17." */
static uint64_t read_table_section(struct load *load, const uint64_t *block, unsigned *at) {
  uint64_t word = block[*at], count = part(word, 33, 18), table = part(word, 7, 0);
  if (part(word, 35, 34) != TABLE_SECTION || part(word, 17, 8) != 0)
    return fault_at(REFUSED_SECTION, *at);
  if (table < load->table_least || table >= load->table_count)
    return fault_at(REFUSED_SECTION, *at);
  if (count == 0 || count > load->tables[table].length)
    return fault_at(REFUSED_SECTION, *at);
  load->in_table = true;
  load->table = table;
  load->section_words = count;
  load->table_least = table + 1;
  load->sections--;
  load->stage = GROUP_DUE;
  *at += 1;
  return 0;
}

/* ---- program blocks: fields. Of a fault these give the number, or 0: which word and half it is, store_words knows. */

/* Type 001: "table address plus or minus a table length". "type 001 has bit 15 zero, bit 14 set for minus, bits 13-7 the address's
   number, bits 6-0 the length's." */
static unsigned pair_value(const struct load *load, uint64_t field, int64_t *value) {
  uint64_t address = part(field, 13, 7), length = part(field, 6, 0);
  if (bit(field, 15))
    return REFUSED_FORM;
  if (address >= load->table_count || length >= load->table_count)
    return REFUSED_REFERENCE;
  int64_t added = (int64_t)load->tables[length].length;
  *value = (int64_t)load->tables[address].start + (bit(field, 14) ? -added : added);
  return 0;
}

/* Type 010: "table address or length, plus or minus a constant". "short: bit 15 zero, bit 14 set for minus, bit 13 set for a
   length, bits 12-6 the number, bits 5-0 the constant." "long: bit 15 set, bit 14 set for minus, bits 13-0 a constant of 64 or
   more, and nine more indicator bits: set for a length, a zero, and seven bits of number. Any other form, and minus with constant
   0, is 19." */
static unsigned table_value(const struct load *load, uint64_t field, uint64_t nine, int64_t *value) {
  bool is_long = bit(field, 15), minus = bit(field, 14);
  bool length = is_long ? bit(nine, 8) : bit(field, 13);
  uint64_t number = is_long ? part(nine, 6, 0) : part(field, 12, 6);
  int64_t constant = (int64_t)(is_long ? part(field, 13, 0) : part(field, 5, 0));
  if (is_long && (constant < LONG_CONSTANT_LEAST || bit(nine, 7)))
    return REFUSED_FORM;
  if (minus && constant == 0)
    return REFUSED_FORM;
  if (number >= load->table_count)
    return REFUSED_REFERENCE;
  struct run table = load->tables[number];
  *value = (int64_t)(length ? table.length : table.start) + (minus ? -constant : constant);
  return 0;
}

/* Type 100: "left only: bits 25-22, a number below the type 0 and 2 count, become its assignment" */
static unsigned change_channel(const struct load *load, bool left, uint64_t *word) {
  uint64_t number = part(*word, 25, 22);
  if (!left)
    return REFUSED_FORM;
  if (number >= load->channels)
    return REFUSED_REFERENCE;
  *word = with(*word, 25, 22, load->io[number]);
  return 0;
}

/* Type 111: "the field, a number of a type 3 entry, becomes its assignment" */
static unsigned unit_value(const struct load *load, uint64_t field, int64_t *value) {
  if (field < load->channels || field >= load->io_count)
    return REFUSED_REFERENCE;
  *value = (int64_t)load->io[field];
  return 0;
}

/* Changes one half of a word as its type says, or gives the fault's number. "The 16-bit fields are bits 33-18 and 15-0." */
static unsigned change_half(const struct load *load, bool left, uint64_t type, uint64_t nine, uint64_t *word) {
  unsigned low = left ? 18 : 0, fault = 0;
  uint64_t field = part(*word, low + 15, low);
  int64_t value = 0;
  switch (type) {
  case BY_AREA: /* 000: "field plus the area's address" */
    value = (int64_t)(field + load->area.start);
    break;
  case BY_PAIR:
    fault = pair_value(load, field, &value);
    break;
  case BY_TABLE:
    fault = table_value(load, field, nine, &value);
    break;
  case BY_CHANNEL:
    return change_channel(load, left, word);
  case BY_UNIT:
    fault = unit_value(load, field, &value);
    break;
  default:
    fault = REFUSED_FORM; /* "Others are 19." */
  }
  if (fault != 0)
    return fault;
  if (value < 0 || value > VALUE_MOST)
    return REFUSED_VALUE;
  *word = with(*word, low + 15, low, (uint64_t)value);
  return 0;
}

/* ---- program blocks: groups */

/* The words of a group after its identifier. "The program words come first." */
struct group {
  const uint64_t *words;
  uint64_t first_word; /* the number of the first of them in its block */
  uint64_t program_words;
  uint64_t indicator_bits; /* of the words after those */
  const uint64_t *last;    /* its last word */
};

/* `count` of the indicator bits, from bit `at` on. "Indicators are read from the last word of the group, most significant bit
   first, and run on into the word before it." */
static uint64_t indicator(const struct group *group, uint64_t at, unsigned count) {
  const uint64_t *word = group->last - at / BITS_IN_WORD;
  unsigned unread = BITS_IN_WORD - (unsigned)(at % BITS_IN_WORD); /* so many bits of this word are still to be read */
  if (count <= unread)
    return part(*word, unread - 1, unread - count);
  return part(*word, unread - 1, 0) << (count - unread) | *(word - 1) >> (BITS_IN_WORD - (count - unread));
}

/* How many bits the indicator at bit `at` has: "1 bit for no change, 13 for type 010 with the field's bit 15 set, 4 for any other
   type, carried or not." Gives 0 where the indicator words end in its middle. */
static unsigned indicator_length(const struct group *group, uint64_t at, uint64_t word, bool left) {
  uint64_t there = group->indicator_bits - at;
  unsigned length;
  if (there == 0)
    return 0;
  if (indicator(group, at, 1) == 0)
    return NO_CHANGE;
  if (there < CHANGE)
    return 0;
  length = indicator(group, at + 1, 3) == BY_TABLE && bit(word, left ? 33 : 15) ? LONG_CHANGE : CHANGE;
  return length <= there ? length : 0;
}

/* "The group has just as many indicator words as the bits need". */
static bool indicators_fit(const struct group *group) {
  uint64_t at = 0;
  for (uint64_t half = 0; half < 2 * group->program_words; half++) {
    unsigned length = indicator_length(group, at, group->words[half / 2], half % 2 == 0);
    if (length == 0)
      return false;
    at += length;
  }
  return group->indicator_bits - at < BITS_IN_WORD;
}

/* "Each program word has a left indicator, then a right": changes the words and stores them from `to` on. Words stored before a
   fault do not matter, since the fault has the whole area set to zero. The word at fault is "the program word for 19 to 21" (#105),
   and the half is told. */
static uint64_t store_words(const struct load *load, const struct group *group, uint64_t *to) {
  uint64_t at = 0;
  for (uint64_t i = 0; i < group->program_words; i++) {
    uint64_t word = group->words[i];
    for (int half = 0; half < 2; half++) {
      unsigned length = indicator_length(group, at, group->words[i], half == 0), fault = 0;
      uint64_t nine = length == LONG_CHANGE ? indicator(group, at + CHANGE, LONG_CHANGE - CHANGE) : 0;
      if (length > NO_CHANGE)
        fault = change_half(load, half == 0, indicator(group, at + 1, 3), nine, &word);
      if (fault != 0)
        return half_fault(fault, group->first_word + i, half == 0);
      at += length;
    }
    to[i] = word;
  }
  return 0;
}

/* Where a group's relative address 0 is in the core, and the run of relative addresses in which its words must lie. "Group
   addresses count from the Program Name, or from the table's first word, and the words must lie in that bank, or in the table
   section's count." */
struct home {
  uint64_t zero;
  struct run run;
};

/* "bit 16 zero for the IBANK and set for the DBANK or a table section" */
static bool find_home(const struct load *load, bool bit_16, struct home *home) {
  if (load->in_table)
    *home = (struct home){load->tables[load->table].start, {0, load->section_words}};
  else
    *home = (struct home){load->area.start, bit_16 ? load->dbank : load->ibank};
  return bit_16 || !load->in_table;
}

/* After a section's last group. "After the last section's last group the rest of the block is disregarded and the termination block
   is due." */
static void end_section(struct load *load) {
  load->stage = load->sections == 0 ? TERMINATION_DUE : TABLE_SECTION_DUE;
}

/* "Group: bits 35-34 are 10, bits 33-26 the words after the identifier, bits 25-18 the program words (at least 1), bit 17 set on
   the section's last group, .. bits 15-0 the relative address." It stays in one block, "Otherwise 18, tested before any field". */
static uint64_t read_group(struct load *load, uint64_t *core, const uint64_t *block, unsigned *at) {
  uint64_t word = block[*at], words = part(word, 33, 26), program_words = part(word, 25, 18), relative = part(word, 15, 0), fault;
  struct home home;
  if (part(word, 35, 34) != GROUP || program_words == 0 || program_words > words || *at + words > LAST)
    return fault_at(REFUSED_GROUP, *at);
  if (!find_home(load, bit(word, 16), &home) || !inside((struct run){relative, program_words}, home.run))
    return fault_at(REFUSED_GROUP, *at);
  struct group group = {block + *at + 1, *at + 1, program_words, BITS_IN_WORD * (words - program_words), block + *at + words};
  if (!indicators_fit(&group))
    return fault_at(REFUSED_GROUP, *at);
  fault = store_words(load, &group, core + home.zero + relative);
  if (bit(word, 17))
    end_section(load);
  *at += 1 + (unsigned)words;
  return fault;
}

/* "where an identifier's first word is due, a zero word or the end at word 254 closes the block." */
static uint64_t read_program(struct load *load, uint64_t *core, const uint64_t *block) {
  unsigned at = FIRST;
  uint64_t fault = 0;
  while (fault == 0 && load->stage != TERMINATION_DUE && at <= LAST && block[at] != 0) {
    if (load->stage == SEGMENT_DUE)
      fault = read_segment(load, block, &at);
    else if (load->stage == TABLE_SECTION_DUE)
      fault = read_table_section(load, block, &at);
    else
      fault = read_group(load, core, block, &at);
  }
  return fault;
}

/* ---- the termination block */

/* "Termination: word 1 bits 15-0 give the start, relative to the Program Name." Refusal 22: "start not in the IBANK". */
static uint64_t read_termination(struct load *load, const uint64_t *block) {
  uint64_t start = part(block[FIRST], 15, 0);
  if (!inside((struct run){start, 1}, load->ibank))
    return fault_at(REFUSED_START, FIRST);
  load->start = load->area.start + start;
  load->stage = COMPLETE;
  return 0;
}

/* ---- feed */

/* "Sum the other 255 words, drop overflow above bit 35, and add the upper 18 bits of the result to the lower 18". Request #104: "a
   carry out of bit 35 is added back at bit 0, each time one arises". */
uint64_t reader_checksum(const uint64_t *block, unsigned at) {
  uint64_t sum = 0;
  for (unsigned i = 0; i < WORDS_IN_BLOCK; i++) {
    if (i == at)
      continue;
    sum += block[i];
    if (bit(sum, 36))
      sum = part(sum, 35, 0) + 1;
  }
  return part(sum, 35, 18) + part(sum, 17, 0);
}

/* Refusal 11: "block not 256 words, or a word of 2^36 or more" */
static bool is_block(const uint64_t *block, uint64_t block_length) {
  if (block_length != WORDS_IN_BLOCK)
    return false;
  for (unsigned i = 0; i < WORDS_IN_BLOCK; i++)
    if (block[i] >> BITS_IN_WORD != 0)
      return false;
  return true;
}

/* "The checksum word is word 254 of the label and word 255 elsewhere." */
static bool is_sealed(const struct load *load, const uint64_t *block) {
  unsigned at = load->stage == LABEL_DUE ? LABEL_CHECKSUM : CHECKSUM;
  return block[at] == reader_checksum(block, at);
}

/* "Order: one label, modification blocks, program blocks, one termination block. A label is known by its place alone and never
   gives 13." */
static uint64_t read_block(struct load *load, uint64_t *core, const uint64_t *block) {
  const uint64_t wrong_record = fault_at(REFUSED_RECORD, IDENTIFIER);
  switch (load->stage) {
  case LABEL_DUE:
    return read_label(load, block);
  case ENTRIES_DUE:
    return block[IDENTIFIER] == MODRC ? read_entries(load, block) : wrong_record;
  case TERMINATION_DUE:
    return block[IDENTIFIER] == TRMRC ? read_termination(load, block) : wrong_record;
  default:
    return block[IDENTIFIER] == PRORC ? read_program(load, core, block) : wrong_record;
  }
}

/* Refusal 9: "place over 11, free, or another room's" */
static bool holds(const struct reader *desk, uint64_t room, uint64_t place) {
  return place < PLACES && desk->places[place].stage != FREE && desk->places[place].room == room;
}

/* Refusals 2, 4 and 9, which feed and release share; 0 where none is due. */
static unsigned not_theirs(const struct reader *desk, uint64_t core_length, uint64_t room, uint64_t place) {
  if (core_length != desk->core_length)
    return REFUSED_CORE_LENGTH;
  if (room >= ROOMS)
    return REFUSED_ROOM;
  return holds(desk, room, place) ? 0 : REFUSED_PLACE;
}

uint64_t reader_feed(struct reader *desk, uint64_t *core, uint64_t core_length, uint64_t room, uint64_t place,
                     const uint64_t *block, uint64_t block_length) {
  struct load *load;
  uint64_t fault, number = not_theirs(desk, core_length, room, place);
  if (number != 0)
    return refused(number);
  load = &desk->places[place];
  if (load->stage == COMPLETE || load->stage == BROKEN)
    return refused(REFUSED_ENDED);
  if (!is_block(block, block_length))
    return refused(REFUSED_BLOCK);
  if (!is_sealed(load, block))
    return refused(REFUSED_CHECKSUM);
  fault = read_block(load, core, block);
  if (fault != 0) { /* "Refusals 13 to 22 set the whole area to zero and mark the load broken." */
    clear_area(load, core);
    load->stage = BROKEN;
    return fault;
  }
  /* "An accepted block answers more, and the termination block answers done with the absolute start." */
  return load->stage == COMPLETE ? told(DONE, load->start) : told(MORE, 0);
}

/* ---- release */

/* "frees the place and its area, which serve again, and writes no core word" */
uint64_t reader_release(struct reader *desk, uint64_t core_length, uint64_t room, uint64_t place) {
  unsigned number = not_theirs(desk, core_length, room, place);
  if (number != 0)
    return refused(number);
  desk->places[place].stage = FREE;
  return told(RELEASED, 0);
}

/* ---- reseal */

/* The rule before request #104: "Sum the other 255 words, drop overflow above bit 35, and add the upper 18 bits of the result to
   the lower 18". */
uint64_t reader_old_checksum(const uint64_t *block, unsigned at) {
  uint64_t sum = 0;
  for (unsigned i = 0; i < WORDS_IN_BLOCK; i++) {
    if (i == at)
      continue;
    sum += block[i];
    if (bit(sum, 36))
      sum = part(sum, 35, 0);
  }
  return part(sum, 35, 18) + part(sum, 17, 0);
}

/* Request #104: "block by block, once the old rule has passed". The block with index 0 is the label. */
uint64_t reader_reseal(uint64_t *block, uint64_t block_length, uint64_t index) {
  unsigned at = index == 0 ? LABEL_CHECKSUM : CHECKSUM;
  if (!is_block(block, block_length))
    return refused(REFUSED_BLOCK);
  if (block[at] != reader_old_checksum(block, at))
    return refused(REFUSED_CHECKSUM);
  block[at] = reader_checksum(block, at);
  return told(RESEALED, 0);
}
