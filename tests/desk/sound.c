/* sound.c: whether a desk is sound, by the ranges of docs/DESK.md. */

#include "block_layout.h"
#include "desk.h"

/* ---- runs of words; no sum is made, so none wraps */

bool inside(uint64_t start, uint64_t length, uint64_t outer, uint64_t outer_length) {
  return start >= outer && start - outer <= outer_length && length <= outer_length - (start - outer);
}

bool apart(uint64_t start, uint64_t length, uint64_t other, uint64_t other_length) {
  if (length == 0 || other_length == 0)
    return true;
  return start <= other ? length <= other - start : other_length <= start - other;
}

/* ---- the map and the holders */

static bool map_is_sound(const uint64_t *map, uint64_t core_words) {
  for (int room = 0; room < ROOMS; room++) {
    const uint64_t *stretch = map + 2 * room;
    if (!inside(stretch[0], stretch[1], 0, core_words))
      return false;
    for (const uint64_t *other = map; other < stretch; other += 2)
      if (!apart(stretch[0], stretch[1], other[0], other[1]))
        return false;
  }
  return true;
}

static bool holders_are_sound(const uint64_t *numbers) {
  int held[ROOMS] = {0}, free = 0, idle = 0;
  for (int place = 0; place < PLACES; place++) {
    uint64_t holder = numbers[place_at(place) + HOLDER_AT];
    if (holder > ROOMS)
      return false;
    if (holder == 0)
      free++;
    else if (++held[holder - 1] > HELD_MOST)
      return false;
  }
  for (int room = 0; room < ROOMS; room++)
    idle += held[room] == 0;
  return free >= idle;
}

/* ---- a place */

/* A table of a place as docs/DESK.md has it read. */
void table_read(const uint64_t *place, uint64_t table, uint64_t *at, uint64_t *length) {
  uint64_t rank = rank_of(place[RANKS_AT + table]), away = rank_address(place[RANKS_AT + table]);
  if (rank < place[KEPT_COUNT_AT] && kept_number(place[KEPT_AT + rank]) == table) {
    *at = kept_address(place[KEPT_AT + rank]);
    *length = kept_length(place[KEPT_AT + rank]);
    return;
  }
  *at = inside(away, 0, place[AREA_AT], place[SIZE_AT]) ? away : place[AREA_AT];
  *length = 0;
}

static bool bank_is_sound(const uint64_t *place, const uint64_t *bank) {
  return inside(bank[0], bank[1], 0, place[SIZE_AT]);
}

/* A stage's numbers are in range only so far as what is due uses them (crates/stage/specs/Ranges.antt). */
static bool stage_is_sound(const uint64_t *place) {
  uint64_t io = place[IO_COUNT_AT], tables = place[TABLE_COUNT_AT], at, length;
  bool counts = place[CHANNELS_AT] <= io && place[SECTIONS_AT] <= tables;
  bool ibank = bank_is_sound(place, place + IBANK_AT), dbank = bank_is_sound(place, place + DBANK_AT);
  switch (place[DUE_AT]) {
  case DUE_ENTRIES:
    return counts && place[NUMBER_AT] < entry_blocks(io, tables);
  case DUE_SEGMENT:
    return counts;
  case DUE_SEGMENT_GROUP:
    return counts && ibank && dbank;
  case DUE_TABLE_SECTION:
    return counts && ibank;
  case DUE_TABLE_GROUP:
    if (!counts || !ibank || place[NUMBER_AT] >= tables)
      return false;
    table_read(place, place[NUMBER_AT], &at, &length);
    return place[COUNT_AT] <= length;
  case DUE_TERMINATION:
    return ibank;
  default: /* the label is due, or the load is complete or broken */
    return true;
  }
}

static bool place_is_sound(const uint64_t *place, const uint64_t *stretch) {
  uint64_t end = place[AREA_AT];
  if (place[SIZE_AT] == 0 || !inside(place[AREA_AT], place[SIZE_AT], stretch[0], stretch[1]))
    return false;
  if (place[IO_COUNT_AT] > ENTRIES_MOST || place[TABLE_COUNT_AT] > ENTRIES_MOST || place[KEPT_COUNT_AT] > ENTRIES_MOST)
    return false;
  for (uint64_t i = 0; i < place[KEPT_COUNT_AT]; i++) {
    uint64_t at = kept_address(place[KEPT_AT + i]);
    if (at < end)
      return false;
    end = at + kept_length(place[KEPT_AT + i]);
  }
  return end <= place[AREA_AT] + place[SIZE_AT] && stage_is_sound(place);
}

/* ---- the desk */

bool is_sound(const uint64_t *numbers) {
  uint64_t core_words = numbers[CORE_LENGTH_AT];
  if (core_words == 0 || core_words > CORE_MOST || !map_is_sound(numbers + MAP_AT, core_words) || !holders_are_sound(numbers))
    return false;
  for (int place = 0; place < PLACES; place++) {
    const uint64_t *one = numbers + place_at(place);
    if (one[HOLDER_AT] == 0)
      continue;
    if (!place_is_sound(one, numbers + stretch_at(one[HOLDER_AT] - 1)))
      return false;
    for (int before = 0; before < place; before++) {
      const uint64_t *other = numbers + place_at(before);
      if (other[HOLDER_AT] != 0 && !apart(one[AREA_AT], one[SIZE_AT], other[AREA_AT], other[SIZE_AT]))
        return false;
    }
  }
  return true;
}
