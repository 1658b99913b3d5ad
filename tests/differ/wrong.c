/* wrong.c: the steps with wrong arguments: often one number beside a right one, or any number up to 2^64 - 1. What is lent is
   always as long as is said, for that is taken on trust. Now and then all is right after all, and the call is accepted. */

#include <string.h>

#include "steps.h"

/* ---- numbers */

/* Any size of number, often one beside a bound. */
static uint64_t odd_number(void) {
  const uint64_t bounds[] = {
      0, 1, ROOMS - 1, ROOMS, PLACES - 1, PLACES, CORE_MOST - 1, CORE_MOST, bit_at(32), bit_at(BITS_IN_WORD), bit_at(63)};
  uint64_t bound = bounds[below(&chance, sizeof bounds / sizeof bounds[0])];
  switch (below(&chance, 4)) {
  case 0:
    return bound - 1;
  case 1:
    return any_size(&chance);
  default:
    return bound + below(&chance, 2);
  }
}

/* A number beside this one, or an odd one. */
static uint64_t near(uint64_t number) {
  switch (below(&chance, 3)) {
  case 0:
    return number + 1;
  case 1:
    return number - 1;
  default:
    return odd_number();
  }
}

/* A length of core that can be lent. */
static uint64_t odd_core_length(void) {
  const uint64_t lengths[] = {0, core_length - 1, core_length + 1, CORE_MOST, CORE_MOST + 1, below(&chance, 200)};
  return lengths[below(&chance, 6)];
}

/* One of so many, often the first or the last. */
static uint64_t some_index(uint64_t count) {
  return one_in(&chance, 4) ? 0 : one_in(&chance, 3) ? count - 1 : below(&chance, count);
}

/* ---- make */

void step_wrong_make(void) {
  struct numbers map = one_in(&chance, 3) ? any_map(core_length) : map_of(reader.map);
  uint64_t length = one_in(&chance, 3) ? near(core_length) : core_length, which = below(&chance, MAP_LENGTH);
  switch (below(&chance, 5)) {
  case 0:
    map.count = one_in(&chance, 2) ? MAP_LENGTH - 1 + 2 * below(&chance, 2) : below(&chance, 40);
    break;
  case 1:
    map.at[which] = near(map.at[which]);
    break;
  case 2: /* a stretch that ends beside the end of the core, or past 2^64 */
    map.at[which] = near(length - map.at[which ^ 1]);
    break;
  case 3: /* a stretch twice */
    memmove(map.at + which / 2 * 2, map.at + below(&chance, ROOMS) * 2, 2 * sizeof map.at[0]);
    break;
  }
  if (CLAMP_CODE(both_make(length, &map, 0)) == MADE) {
    forget_loads();
    begin_core(length);
  }
}

/* ---- open */

/* Spoils the area: its start, its length, or both, so that it ends where it did or past 2^64. */
static void spoil_area(struct run *area) {
  uint64_t end = area->start + area->length;
  switch (below(&chance, 3)) {
  case 0:
    area->start = near(area->start);
    break;
  case 1:
    area->length = near(area->length);
    break;
  default:
    area->length = near(area->length);
    area->start = one_in(&chance, 2) ? end - area->length : near(end - area->length);
  }
}

static void spoil_io(struct numbers *io) {
  uint64_t *one = &io->at[some_index(io->count + 1)];
  if (one_in(&chance, 2))
    io->count = one_in(&chance, 2) ? ENTRIES_MOST + 1 : between(&chance, ENTRIES_MOST - 8, 300);
  else
    *one = one_in(&chance, 2) ? VALUE_MOST + 1 : odd_number();
}

static void spoil_tables(struct numbers *tables) {
  uint64_t pairs = tables->count / 2, which = 2 * some_index(pairs + 1), part = below(&chance, 2);
  switch (below(&chance, 4)) {
  case 0:
    tables->count = one_in(&chance, 2) ? PAIRS_MOST + 1 + below(&chance, 2) : between(&chance, PAIRS_MOST - 6, 600);
    break;
  case 1:
    tables->count += 1;
    break;
  case 2:
    tables->at[which + part] = near(tables->at[which + part]);
    break;
  default: /* a table twice */
    if (pairs > 0)
      memmove(tables->at + which, tables->at + 2 * below(&chance, pairs), 2 * sizeof tables->at[0]);
  }
}

static void spoil_open(uint64_t *length, uint64_t *room, struct run *area, struct numbers *io, struct numbers *tables) {
  switch (below(&chance, 9)) {
  case 0:
    *length = odd_core_length();
    break;
  case 1:
    *room = one_in(&chance, 2) ? ROOMS : odd_number();
    break;
  case 2:
  case 3:
    spoil_area(area);
    break;
  case 4:
  case 5:
    spoil_io(io);
    break;
  default:
    spoil_tables(tables);
  }
}

void step_wrong_open(void) {
  uint64_t room, length = core_length, answer;
  struct run area = any_area(&room);
  struct file *file = file_make(&chance, area, NO_FAULT);
  struct numbers io = io_of(file), tables = tables_of(file);
  for (uint64_t times = between(&chance, 1, 2); times > 0; times--)
    spoil_open(&length, &room, &area, &io, &tables);
  answer = both_open(length, room, area, &io, &tables, 0);
  if (CLAMP_CODE(answer) == OPENED)
    keep_file(CLAMP_VALUE(answer), file, false);
  else
    file_drop(file);
}

/* ---- feed */

static void spoil_feed(uint64_t *length, uint64_t *room, uint64_t *place, struct numbers *block) {
  uint64_t *word = &block->at[some_index(WORDS_IN_BLOCK)];
  switch (below(&chance, 8)) {
  case 0:
    *length = odd_core_length();
    break;
  case 1:
    *room = one_in(&chance, 2) ? below(&chance, ROOMS + 1) : odd_number();
    break;
  case 2:
    *place = one_in(&chance, 2) ? below(&chance, PLACES + 1) : odd_number();
    break;
  case 3:
    block->count = one_in(&chance, 2) ? WORDS_IN_BLOCK - 1 + 2 * below(&chance, 2) : below(&chance, NUMBERS_MOST);
    break;
  case 4:
    *word |= bit_at(one_in(&chance, 3) ? BITS_IN_WORD : (unsigned)between(&chance, BITS_IN_WORD, 63));
    break;
  case 5:
    word = &block->at[between(&chance, LABEL_CHECKSUM_WORD, CHECKSUM_WORD)];
    *word ^= any_bit(&chance, BITS_IN_WORD);
    break;
  case 6:
    *word ^= any_bit(&chance, BITS_IN_WORD);
    break;
  default:
    *word = odd_number();
  }
}

void step_wrong_feed(void) {
  unsigned held = any_held();
  uint64_t length = core_length, room = below(&chance, ROOMS), place = below(&chance, PLACES), answer;
  struct numbers block = {.count = 0};
  if (held != PLACES) {
    block = next_block_of(held);
    room = reader.places[held].room;
    place = held;
  }
  for (uint64_t times = between(&chance, 1, 2); times > 0; times--)
    spoil_feed(&length, &room, &place, &block);
  answer = both_feed(length, room, place, &block, 0);
  if (!changes_nothing(CLAMP_CODE(answer)))
    foretell_no_more(place);
}

/* ---- release */

void step_wrong_release(void) {
  unsigned held = any_held();
  uint64_t length = one_in(&chance, 4) ? near(core_length) : core_length;
  uint64_t room = held != PLACES && one_in(&chance, 2) ? reader.places[held].room : near(below(&chance, ROOMS + 1));
  uint64_t place = held != PLACES && one_in(&chance, 2) ? held : near(below(&chance, PLACES + 1));
  if (CLAMP_CODE(both_release(length, room, place, 0)) == RELEASED)
    drop_file(place);
}
