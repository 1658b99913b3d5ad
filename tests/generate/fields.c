/* fields.c: the changes of fields.h, in the table's order of 01. */

#include "fields.h"

unsigned change_length(const struct change *change) {
  return change->type == CHANGE_TABLE && part(change->field, 15, 15) != 0 ? LONG_BITS : CHANGE_BITS;
}

void wild_change(struct chance *chance, struct change *change) {
  change->type = below(chance, MODIFICATION_TYPES);
  change->field = below(chance, VALUE_MOST + 1);
  change->nine = below(chance, bit_at(LONG_MORE_BITS));
  change->becomes = 0;
}

static bool fits(int64_t value) {
  return 0 <= value && value <= VALUE_MOST;
}

/* ---- one field of each type, from its parts */

static struct change area_field(const struct file *file, uint64_t field) {
  return (struct change){CHANGE_AREA, field, 0, field + file->area.start};
}

static struct change pair_field(bool minus, uint64_t address, uint64_t length, int64_t value) {
  return (struct change){CHANGE_PAIR, put(0, 14, 14, minus) | put(0, 13, 7, address) | put(0, 6, 0, length), 0, (uint64_t)value};
}

static struct change short_field(bool minus, bool length, uint64_t number, uint64_t constant, int64_t value) {
  uint64_t field = put(0, 14, 14, minus) | put(0, 13, 13, length) | put(0, 12, 6, number) | put(0, 5, 0, constant);
  return (struct change){CHANGE_TABLE, field, 0, (uint64_t)value};
}

static struct change long_field(bool minus, bool length, uint64_t number, uint64_t constant, int64_t value) {
  uint64_t field = bit_at(15) | put(0, 14, 14, minus) | put(0, 13, 0, constant), nine = put(0, 8, 8, length) | put(0, 6, 0, number);
  return (struct change){CHANGE_TABLE, field, nine, (uint64_t)value};
}

/* The channel's number stands in the word's bits 25-22: bits 7-4 of the left field. */
static struct change channel_field(struct chance *chance, uint64_t number, uint64_t assigned) {
  uint64_t field = below(chance, VALUE_MOST + 1);
  return (struct change){CHANGE_CHANNEL, put(field, 7, 4, number), 0, put(field, 7, 4, assigned)};
}

/* ---- values of tables */

/* What type 001 makes of two tables. */
static int64_t pair_of(const struct file *file, bool minus, uint64_t address, uint64_t length) {
  int64_t from = (int64_t)file->tables[address].start, by = (int64_t)file->tables[length].length;
  return minus ? from - by : from + by;
}

/* What a constant is added to or taken from in type 010. */
static int64_t base_of(const struct file *file, bool length, uint64_t number) {
  return (int64_t)(length ? file->tables[number].length : file->tables[number].start);
}

/* A constant from least to most that gives a value within the bounds, often the last one; or a value beyond them, often the first
   one. False: there is none. */
static bool find_constant(struct chance *chance, int64_t base, bool minus, bool beyond, int64_t least, int64_t most,
                          int64_t *found) {
  int64_t last = minus ? base : VALUE_MOST - base; /* the largest constant whose value is within the bounds */
  int64_t low = beyond && last >= least ? last + 1 : least, high = beyond || last > most ? most : last;
  if (low > high)
    return false;
  *found = one_in(chance, 3) ? (beyond ? low : high) : (int64_t)between(chance, (uint64_t)low, (uint64_t)high);
  return true;
}

/* Type 010, short or long, with a value within or beyond the bounds. */
static bool table_change(struct chance *chance, const struct file *file, bool is_long, bool beyond, struct change *change) {
  bool minus = one_in(chance, 2), length = one_in(chance, 2);
  int64_t base, constant;
  uint64_t number;
  if (file->table_count == 0)
    return false;
  number = below(chance, file->table_count);
  base = base_of(file, length, number);
  if (!find_constant(chance, base, minus, beyond,
                     is_long ? LONG_LEAST
                     : minus ? 1
                             : 0,
                     is_long ? LONG_MOST : SHORT_MOST, &constant))
    return false;
  int64_t value = minus ? base - constant : base + constant;
  *change = is_long ? long_field(minus, length, number, (uint64_t)constant, value)
                    : short_field(minus, length, number, (uint64_t)constant, value);
  return true;
}

/* Type 001 with a value within or beyond the bounds. */
static bool pair_change(struct chance *chance, const struct file *file, bool beyond, struct change *change) {
  for (int tries = 0; tries < 8 && file->table_count > 0; tries++) {
    bool minus = one_in(chance, 2);
    uint64_t address = below(chance, file->table_count), length = below(chance, file->table_count);
    int64_t value = pair_of(file, minus, address, length);
    *change = pair_field(minus, address, length, value);
    if (fits(value) != beyond)
      return true;
  }
  return false;
}

/* ---- right changes */

static bool area_change(struct chance *chance, const struct file *file, struct change *change) {
  uint64_t most = VALUE_MOST - file->area.start;
  *change = area_field(file, one_in(chance, 4) ? most : below(chance, most + 1));
  return true;
}

static bool channel_change(struct chance *chance, const struct file *file, struct change *change) {
  uint64_t number;
  if (file->channels == 0)
    return false;
  number = below(chance, file->channels);
  *change = channel_field(chance, number, file->io[number]);
  return true;
}

static bool unit_change(struct chance *chance, const struct file *file, struct change *change) {
  uint64_t number;
  if (file->io_count == file->channels)
    return false;
  number = between(chance, file->channels, file->io_count - 1);
  *change = (struct change){CHANGE_UNIT, number, 0, file->io[number]};
  return true;
}

bool right_change(struct chance *chance, const struct file *file, bool left, struct change *change) {
  switch (below(chance, 6)) {
  case 0:
    return area_change(chance, file, change);
  case 1:
    return pair_change(chance, file, false, change);
  case 2:
    return table_change(chance, file, false, false, change);
  case 3:
    return table_change(chance, file, true, false, change);
  case 4:
    return left && channel_change(chance, file, change);
  default:
    return unit_change(chance, file, change);
  }
}

/* ---- faults */

/* 19: the type, or the form. The numbers may be wrong as well: 19 comes before 20. */
static bool form_fault(struct chance *chance, const struct file *file, bool left, struct change *change) {
  static const uint64_t not_carried[3] = {3, 5, 6}; /* the types that have no name */
  bool minus = one_in(chance, 2), length = one_in(chance, 2);
  uint64_t number = below(chance, ENTRIES_MOST);
  wild_change(chance, change);
  switch (file->wanted) {
  case TYPE_NOT_CARRIED:
    change->type = not_carried[below(chance, 3)];
    return true;
  case CHANNEL_RIGHT:
    change->type = CHANGE_CHANNEL;
    return !left;
  case PAIR_FORM:
    change->type = CHANGE_PAIR;
    change->field |= bit_at(15);
    return true;
  case SHORT_MINUS_0:
    *change = short_field(true, length, number, 0, 0);
    return true;
  case LONG_SMALL:
    *change = long_field(minus, length, number, one_in(chance, 2) ? LONG_LEAST - 1 : below(chance, LONG_LEAST), 0);
    return true;
  case LONG_BIT:
    *change = long_field(minus, length, number, between(chance, LONG_LEAST, LONG_MOST), 0);
    change->nine |= bit_at(7);
    return true;
  default:
    return false;
  }
}

/* A number that one too many, or many too many, makes wrong. */
static uint64_t no_number(struct chance *chance, uint64_t count, uint64_t most) {
  return one_in(chance, 2) ? count : between(chance, count, most);
}

/* 20: the reference. */
static bool reference_fault(struct chance *chance, const struct file *file, bool left, struct change *change) {
  bool minus = one_in(chance, 2), length = one_in(chance, 2), second = one_in(chance, 2);
  bool tables_full = file->table_count == ENTRIES_MOST;
  uint64_t tables = file->table_count, none = tables_full ? 0 : no_number(chance, tables, ENTRIES_MOST - 1);
  uint64_t some = tables == 0 ? none : below(chance, tables);
  switch (file->wanted) {
  case NO_CHANNEL:
    if (!left || file->channels == CHANNELS_MOST)
      return false;
    *change = channel_field(chance, no_number(chance, file->channels, CHANNELS_MOST - 1), 0);
    return true;
  case NO_UNIT:
    *change = (struct change){CHANGE_UNIT, no_number(chance, file->io_count, VALUE_MOST), 0, 0};
    return true;
  case UNIT_IS_CHANNEL:
    if (file->channels == 0)
      return false;
    *change = (struct change){CHANGE_UNIT, one_in(chance, 2) ? file->channels - 1 : below(chance, file->channels), 0, 0};
    return true;
  case NO_PAIR:
    *change = second ? pair_field(minus, some, none, 0) : pair_field(minus, none, some, 0);
    return !tables_full;
  case NO_SHORT:
    *change = short_field(minus, length, none, between(chance, 1, SHORT_MOST), 0);
    return !tables_full;
  case NO_LONG:
    *change = long_field(minus, length, none, between(chance, LONG_LEAST, LONG_MOST), 0);
    return !tables_full;
  default:
    return false;
  }
}

/* 21: the value. */
static bool value_fault(struct chance *chance, const struct file *file, struct change *change) {
  switch (file->wanted) {
  case AREA_OVER:
    if (file->area.start == 0)
      return false;
    *change = area_field(file, no_number(chance, VALUE_MOST + 1 - file->area.start, VALUE_MOST));
    return true;
  case PAIR_OVER:
    return pair_change(chance, file, true, change);
  case SHORT_OVER:
    return table_change(chance, file, false, true, change);
  case LONG_OVER:
    return table_change(chance, file, true, true, change);
  default:
    return false;
  }
}

bool faulty_change(struct chance *chance, const struct file *file, bool left, struct change *change) {
  return form_fault(chance, file, left, change) || reference_fault(chance, file, left, change) || value_fault(chance, file, change);
}
