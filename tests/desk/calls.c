/* calls.c: make, open and release, each with its answer and all that it leaves. */

#include <string.h>

#include "desk.h"

bool make_is(const char *from, uint64_t want, uint64_t core_words, const uint64_t *map, uint64_t map_len) {
  const uint64_t *lent_map = lend_list(map_end, map, map_len);
  keep();
  uint64_t got = clamp_make(desk, desk_len, core_words, lent_map, map_len);
  bool ok = CHECK_FOR(from, got == want);
  CHECK_FOR(from, same(was_core, core, core_len));
  CHECK_FOR(from, same(lent_map, map, map_len));
  if (got != told(MADE, 0)) {
    CHECK_FOR(from, nothing_changed());
    return ok;
  }
  was_desk[CORE_LENGTH_AT] = core_words;
  memcpy(was_desk + MAP_AT, map, MAP_LENGTH * sizeof *map);
  for (int place = 0; place < PLACES; place++)
    was_desk[place_at(place) + HOLDER_AT] = 0;
  CHECK_FOR(from, same(was_desk, desk, desk_len));
  CHECK_FOR(from, is_sound(desk));
  return ok;
}

/* ---- open */

/* Whether a place has just these lists; gives how many tables it is to keep. */
static uint64_t lists_are(const char *from, const uint64_t *place, const uint64_t *io, uint64_t io_count, const uint64_t *tables,
                          uint64_t table_count) {
  uint64_t kept = 0, at, length;
  bool right = true;
  for (uint64_t i = 0; i < io_count; i++)
    right &= io_number(place, i) == io[i];
  CHECK_FOR(from, right);
  right = true;
  for (uint64_t i = 0; i < table_count; i++) {
    table_read(place, i, &at, &length);
    right &= at == tables[2 * i] && length == tables[2 * i + 1];
    kept += tables[2 * i + 1] != 0;
  }
  CHECK_FOR(from, right);
  right = true;
  for (uint64_t i = 1; i < kept; i++)
    right &= place[KEPT_AT + i - 1] < place[KEPT_AT + i];
  CHECK_FOR(from, right);
  return kept;
}

/* What an accepted open leaves, where was_desk and was_core are from before. */
static void opened_right(const char *from, uint64_t given, uint64_t room, uint64_t area, uint64_t size, const uint64_t *io,
                         uint64_t io_count, const uint64_t *tables, uint64_t table_count) {
  uint64_t *place = desk + place_at(given), *was = was_desk + place_at(given), kept;
  bool right = true;
  for (uint64_t lower = 0; lower < given; lower++)
    CHECK_FOR(from, was_desk[place_at(lower) + HOLDER_AT] != 0);
  CHECK_FOR(from, was[HOLDER_AT] == 0);
  CHECK_FOR(from, place[HOLDER_AT] == room + 1 && place[AREA_AT] == area && place[SIZE_AT] == size);
  for (int i = STAGE_AT; i < STAGE_AT + STAGE_WORDS; i++)
    right &= place[i] == 0;
  CHECK_FOR(from, right);
  kept = lists_are(from, place, io, io_count, tables, table_count);
  CHECK_FOR(from, place[IO_COUNT_AT] == io_count && place[TABLE_COUNT_AT] == table_count && place[KEPT_COUNT_AT] == kept);
  /* what stands past the lists is as it was, and so is all the rest of the desk */
  memcpy(was, place, (OWN_WORDS + STAGE_WORDS) * sizeof *was);
  memcpy(was + IO_AT, place + IO_AT, (io_count + IO_IN_ONE - 1) / IO_IN_ONE * sizeof *was);
  memcpy(was + KEPT_AT, place + KEPT_AT, kept * sizeof *was);
  memcpy(was + RANKS_AT, place + RANKS_AT, table_count * sizeof *was);
  CHECK_FOR(from, same(was_desk, desk, desk_len));
  CHECK_FOR(from, is_sound(desk));
  memset(was_core + area, 0, size * sizeof *was_core);
  CHECK_FOR(from, same(was_core, core, core_len));
}

bool open_is(const char *from, uint64_t want, uint64_t room, uint64_t area, uint64_t size, const uint64_t *io, uint64_t io_len,
             const uint64_t *tables, uint64_t tables_len) {
  const uint64_t *lent_io = lend_list(io_end, io, io_len), *lent_tables = lend_list(tables_end, tables, tables_len);
  keep();
  uint64_t got =
      clamp_open(desk, desk_len, core_len == 0 ? NULL : core, core_len, room, area, size, lent_io, io_len, lent_tables, tables_len);
  bool ok = CHECK_FOR(from, got == want);
  CHECK_FOR(from, same(lent_io, io, io_len) && same(lent_tables, tables, tables_len));
  if (CLAMP_CODE(got) != OPENED || CLAMP_VALUE(got) >= PLACES)
    CHECK_FOR(from, nothing_changed());
  else if (ok)
    opened_right(from, CLAMP_VALUE(got), room, area, size, io, io_len, tables, tables_len / 2);
  return ok;
}

/* ---- release */

bool release_is(const char *from, uint64_t want, uint64_t core_words, uint64_t room, uint64_t place) {
  keep();
  uint64_t got = clamp_release(desk, desk_len, core_words, room, place);
  bool ok = CHECK_FOR(from, got == want);
  CHECK_FOR(from, same(was_core, core, core_len));
  if (got != told(RELEASED, 0)) {
    CHECK_FOR(from, nothing_changed());
    return ok;
  }
  if (!ok)
    return ok;
  was_desk[place_at(place) + HOLDER_AT] = 0;
  CHECK_FOR(from, same(was_desk, desk, desk_len));
  CHECK_FOR(from, is_sound(desk));
  return ok;
}
