/* desks.c: the steps with a wrong desk. The reader has no such desk, so only the proved loader is called. */

#include <stdlib.h>
#include <string.h>

#include "steps.h"
#include "where.h"

uint64_t changed_desks, changed_desks_refused;

/* One of the four calls, on this desk, with right arguments where there is a load for them. */
static uint64_t call_on(uint64_t *desk, uint64_t length, uint64_t which) {
  unsigned held = any_held();
  uint64_t place = held == PLACES ? 0 : held, room = held == PLACES ? 0 : reader.places[held].room, other_room;
  struct run area = any_area(&other_room);
  struct numbers map = map_of(reader.map), block = {.count = WORDS_IN_BLOCK};
  if (held != PLACES)
    block = next_block_of(held);
  switch (which) {
  case MAKE:
    return clamp_make(desk, length, core_length, lend_copy(&lent_first, map.at, map.count), map.count);
  case OPEN:
    return clamp_open(desk, length, lent_core.start, core_length, other_room, area.start, area.length, NULL, 0, NULL, 0);
  case FEED:
    return clamp_feed(desk, length, lent_core.start, core_length, room, place, lend_copy(&lent_first, block.at, block.count),
                      block.count);
  default:
    return clamp_release(desk, length, core_length, room, place);
  }
}

/* This desk, which is not the one in use, must be refused with 1, and be left as it was. */
static void must_refuse(const char *what, uint64_t *desk, uint64_t length, uint64_t which) {
  uint64_t *copy = malloc((length + 1) * sizeof *copy), answer;
  if (copy == NULL)
    abort();
  memcpy(copy, desk, length * sizeof *copy);
  answer = call_on(length == 0 ? NULL : desk, length, which);
  calls++;
  if (answer != REFUSED(DESK))
    fail(what, "the desk was to be refused", answer, REFUSED(DESK), 0);
  if (memcmp(desk, copy, length * sizeof *copy) != 0 || !fence_stands(desk) || !desk_is_as_before() || !cores_agree())
    fail(what, "refused, and something changed", answer, REFUSED(DESK), 0);
  seen[REFUSED_DESK]++;
  free(copy);
}

/* The desk in use, cut short or with a number more. */
void step_desk_length(void) {
  const uint64_t lengths[4] = {desk_words - 1, desk_words + 1, 0, below(&chance, desk_words)};
  uint64_t length = lengths[below(&chance, 4)], *desk = lend(&lent_other, length);
  for (uint64_t i = 0; i < length; i++)
    desk[i] = i < desk_words ? lent_desk.start[i] : 0;
  must_refuse("desk of another length", desk, length, between(&chance, MAKE, RELEASE));
}

/* All numbers of the desk by chance: it is as good as certain that it is not sound. */
void step_any_desk(void) {
  uint64_t *desk = lend(&lent_other, desk_words);
  for (uint64_t i = 0; i < desk_words; i++)
    desk[i] = any_size(&chance);
  must_refuse("any desk", desk, desk_words, between(&chance, OPEN, RELEASE));
}

/* Whether the call can give such an answer at all. */
static bool is_answer_of(uint64_t which, uint64_t answer) {
  uint64_t code = CLAMP_CODE(answer), value = CLAMP_VALUE(answer);
  if (which == FEED && tells_where(code))
    return can_be(answer);
  if (code >= REFUSED_DESK && code <= (which == OPEN ? REFUSED_LISTS : which == FEED ? REFUSED_CHECKSUM : REFUSED_PLACE))
    return value == 0;
  if (which == OPEN)
    return code == OPENED && value < PLACES;
  if (which == FEED)
    return (code == MORE && value == 0) || (code == DONE && value < CORE_MOST);
  return code == RELEASED && value == 0;
}

/* Where a number is to be changed: anywhere, or where one is not 0, for many numbers of a desk are not in use. */
static uint64_t any_number_at(const uint64_t *desk) {
  uint64_t at = below(&chance, desk_words);
  if (one_in(&chance, 3))
    return at;
  for (uint64_t i = 0; i < desk_words && desk[at] == 0; i++)
    at = (at + 1) % desk_words;
  return at;
}

/* The desk in use with one number changed. Whether it is sound then only the proved loader can tell: so it is only looked at
   whether it answers, and whether a refusal changes nothing. Then desk and core are set back. */
void step_changed_desk(void) {
  uint64_t which = between(&chance, OPEN, RELEASE), *desk = lent_desk.start, at = any_number_at(desk), answer;
  uint64_t changed = desk[at] ^ (one_in(&chance, 2) ? any_bit(&chance, 40) : any(&chance));
  desk[at] = changed;
  answer = call_on(desk, desk_words, which);
  calls++;
  changed_desks++;
  changed_desks_refused += answer == REFUSED(DESK);
  if (!is_answer_of(which, answer) || !fence_stands(desk) || !fence_stands(lent_core.start))
    fail("changed desk", "no such answer, or written before a slice", answer, answer, 0);
  if (changes_nothing(CLAMP_CODE(answer))) {
    bool kept = desk[at] == changed && cores_agree();
    desk[at] = desk_before[at];
    if (!kept || !desk_is_as_before())
      fail("changed desk", "refused, and something changed", answer, answer, 0);
  }
  memcpy(desk, desk_before, desk_words * sizeof *desk);
  memcpy(lent_core.start, mirror, core_length * sizeof *mirror);
}
