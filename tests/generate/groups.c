/* groups.c: the groups of a section, right or with one fault. */

#include "groups.h"

#include "fields.h"

enum { LEAST_GROUP = 3, GROUP_WORDS_TOLD = 255 }; /* an identifier, a program word and its indicators; what bits 33-26 can tell */

/* A group while it is put together. */
struct group {
  uint64_t program[WORDS_BETWEEN], becomes[WORDS_BETWEEN];
  uint64_t indicators[WORDS_BETWEEN]; /* the first is to be the group's last word */
  unsigned words, bits;
  unsigned density; /* a half is changed so many times in four */
  bool wild;
};

static void add_bits(struct writer *writer, struct group *group, uint64_t value, unsigned count) {
  while (count-- > 0) {
    unsigned at = BITS_IN_WORD - 1 - group->bits % BITS_IN_WORD;
    uint64_t *word = &group->indicators[group->bits / BITS_IN_WORD];
    if (at == BITS_IN_WORD - 1)
      *word = any_word(writer->chance); /* its spare bits by chance */
    *word = put(*word, at, at, value >> count);
    group->bits++;
  }
}

static bool is_field_fault(enum fault fault) {
  return TYPE_NOT_CARRIED <= fault && fault <= LONG_OVER;
}

/* What this half is to be. False: it is not changed. The group's identifier is the word that is written next. After a fault the
   rest of the group may be at fault too: the first one is given. */
static bool choose_change(struct writer *writer, struct group *group, bool left, struct change *change) {
  struct chance *chance = writer->chance;
  struct file *file = writer->file;
  if (is_field_fault(file->wanted) && !file->faulty && one_in(chance, writer->rare) && faulty_change(chance, file, left, change)) {
    mark(file, file->count - 1, where(writer->at + 1 + group->words, left ? LEFT_HALF : RIGHT_HALF));
    group->wild = one_in(chance, 2);
    return true;
  }
  if (group->wild) {
    wild_change(chance, change);
    return one_in(chance, 2);
  }
  return below(chance, 4) < group->density && right_change(chance, file, left, change);
}

/* A half's indicator and field, and what becomes of the field. */
static void add_half(struct writer *writer, struct group *group, bool left) {
  struct change change;
  unsigned low = left ? 18 : 0, at = group->words;
  bool changed = choose_change(writer, group, left, &change);
  add_bits(writer, group, changed, PLAIN_BITS);
  if (!changed)
    return;
  add_bits(writer, group, change.type, CHANGE_BITS - PLAIN_BITS);
  if (change_length(&change) == LONG_BITS)
    add_bits(writer, group, change.nine, LONG_MORE_BITS);
  group->program[at] = put(group->program[at], low + 15, low, change.field);
  group->becomes[at] = put(group->becomes[at], low + 15, low, change.becomes);
}

/* Adds program words while another one, with two of the longest indicators, is sure to fit. */
static void fill_group(struct writer *writer, struct group *group, unsigned most, unsigned space) {
  while (group->words < most && group->words + 1 + indicator_words(group->bits + 2 * LONG_BITS) <= space) {
    group->program[group->words] = group->becomes[group->words] = one_in(writer->chance, 10) ? 0 : any_word(writer->chance);
    add_half(writer, group, true);
    add_half(writer, group, false);
    group->words++;
  }
}

/* A wrong bank or relative address for a group. */
static void home_faults(struct writer *writer, const struct home *home, uint64_t program_words, bool *bit_16, uint64_t *relative) {
  struct chance *chance = writer->chance;
  const struct file *file = writer->file;
  uint64_t past = home->run.start + home->run.length - program_words + 1;
  bool before = home->run.start > 0 && one_in(chance, 2);
  if (before && fires_sometime(writer, GROUP_AWAY))
    *relative = one_in(chance, 2) ? home->run.start - 1 : below(chance, home->run.start);
  else if (past <= VALUE_MOST && fires_sometime(writer, GROUP_AWAY))
    *relative = one_in(chance, 2) ? past : between(chance, past, VALUE_MOST);
  if (fires_sometime(writer, GROUP_BIT_16))
    *bit_16 = !*bit_16;
  if (!home->in_table && file->dbank.length == 0 && fires_sometime(writer, GROUP_EMPTY_DBANK)) {
    *bit_16 = true;
    *relative = one_in(chance, 2) ? file->dbank.start : *relative;
  }
}

static uint64_t group_identifier(uint64_t kind, uint64_t words, uint64_t program_words, bool last, bool bit_16, uint64_t relative) {
  return put(0, 35, 34, kind) | put(0, 33, 26, words) | put(0, 25, 18, program_words) | put(0, 17, 17, last) |
         put(0, 16, 16, bit_16) | put(0, 15, 0, relative);
}

/* The identifier of a group, wrong in one place if that is wanted. `words` follow it, and `space` could in this block. */
static uint64_t group_word(struct writer *writer, const struct home *home, uint64_t words, uint64_t program_words,
                           uint64_t relative, bool last, uint64_t space) {
  static const uint64_t others[3] = {0, KIND_TABLE_SECTION, 3};
  struct chance *chance = writer->chance;
  bool bit_16 = home->bit_16;
  uint64_t kind = KIND_GROUP;
  home_faults(writer, home, program_words, &bit_16, &relative);
  if (fires_sometime(writer, GROUP_KIND))
    kind = others[below(chance, 3)];
  if (fires_sometime(writer, GROUP_PAST_254))
    words = one_in(chance, 2) ? space + 1 : between(chance, space + 1, GROUP_WORDS_TOLD);
  if (fires_sometime(writer, GROUP_FEW_WORDS))
    words = one_in(chance, 2) ? program_words - 1 : below(chance, program_words);
  if (fires_sometime(writer, GROUP_NO_WORDS)) {
    program_words = 0;
    words = one_in(chance, 2) ? 0 : words;
  }
  return group_identifier(kind, words, program_words, last, bit_16, relative);
}

/* Writes the group: identifier, program words, so many words more than are needed, indicator words from the last but `fewer` to the
   first. */
static void lay_down(struct writer *writer, const struct group *group, uint64_t identifier, unsigned more, unsigned fewer) {
  write_word(writer, identifier);
  for (unsigned i = 0; i < group->words; i++)
    write_word(writer, group->program[i]);
  for (unsigned i = 0; i < more; i++)
    write_word(writer, one_in(writer->chance, 2) ? 0 : any_word(writer->chance));
  for (unsigned i = indicator_words(group->bits) - fewer; i > 0; i--)
    write_word(writer, group->indicators[i - 1]);
}

/* How many program words a group is to have at most. */
static unsigned group_most(const struct writer *writer, uint64_t length) {
  struct chance *chance = writer->chance;
  if (writer->file->count > BLOCKS_MOST / 2)
    return 1;
  return (unsigned)smaller(length, one_in(chance, 4) ? WORDS_BETWEEN : between(chance, 1, one_in(chance, 3) ? 60 : 5));
}

/* The identifier of a group at the start of its home with one indicator word. */
static void write_plain_group(struct writer *writer, const struct home *home, uint64_t program_words) {
  write_word(writer, group_identifier(KIND_GROUP, program_words + 1, program_words, false, home->bit_16, home->run.start));
}

/* A group that would be right, did its only indicator word not stand in word 255: the upper bits of a checksum word are zeros, and
   say "no change" for up to 8 words. Groups of one word lead up to it. */
static bool write_past_254(struct writer *writer, const struct home *home) {
  enum { WORDS_MOST = 8 };
  if (home->run.length < WORDS_MOST || !wants(writer, GROUP_PAST_254) || one_in(writer->chance, 2))
    return false;
  make_room(writer, LEAST_GROUP);
  while (writer->at < LAST_WORD - WORDS_MOST) {
    write_plain_group(writer, home, 1);
    write_word(writer, any_word(writer->chance));
    write_word(writer, any_word(writer->chance) >> 2);
  }
  fires(writer, GROUP_PAST_254);
  write_plain_group(writer, home, LAST_WORD - writer->at);
  writer->at = CHECKSUM_WORD;
  return true;
}

static void write_group(struct writer *writer, const struct home *home, bool last) {
  struct chance *chance = writer->chance;
  struct group group;
  unsigned more, fewer, most, space;
  if (write_past_254(writer, home))
    return;
  make_room(writer, wants(writer, INDICATORS_MORE) ? LEAST_GROUP + 1 : LEAST_GROUP);
  space = LAST_WORD - writer->at;
  more = fires_sometime(writer, INDICATORS_MORE);
  fewer = fires_sometime(writer, INDICATORS_FEWER);
  most = group_most(writer, home->run.length);
  group.words = group.bits = 0;
  group.density = (unsigned)below(chance, 5);
  if (fewer) { /* long, with many indicators: so that the words end in the middle of one */
    most = (unsigned)smaller(home->run.length, 40);
    group.density = 4;
  }
  if (more && home->run.length >= BITS_IN_WORD / 2 && one_in(chance, 2)) { /* just 36 bits: so that the words end where they do */
    most = BITS_IN_WORD / 2;
    group.density = 0;
  }
  uint64_t relative = home->run.start + below(chance, home->run.length - most + 1);
  group.wild = fires_sometime(writer, WILD_FIELDS) || (more + fewer > 0 && group.density != 0 && one_in(chance, 2)); /* 18 first */
  fill_group(writer, &group, most, space - more);
  uint64_t words = group.words + indicator_words(group.bits) + more - fewer;
  lay_down(writer, &group, group_word(writer, home, words, group.words, relative, last, space), more, fewer);
  for (unsigned i = 0; i < group.words; i++)
    writer->file->image[home->zero + relative + i] = group.becomes[i];
}

void write_groups(struct writer *writer, const struct home *first, const struct home *second) {
  struct chance *chance = writer->chance;
  uint64_t groups = one_in(chance, 12) ? between(chance, 1, 60) : between(chance, 1, 4);
  for (uint64_t i = 0; i < groups; i++) {
    bool last = i + 1 == groups || writer->file->count > BLOCKS_MOST / 2;
    write_group(writer, second->run.length > 0 && one_in(chance, 2) ? second : first, last);
    if (last)
      return;
  }
}
