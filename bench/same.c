/* same.c: compares the peer with the library. It is linked with the comparison of tests/differ.c so that each call made on the
   library comes here first (ld --wrap): the peer gets the same call on copies of desk and core, and answer, desk and core must be
   the same afterwards. Each call is also made on desks, and with blocks, in which a few numbers are changed: many are refused, and
   some are desks that no file leads to. A block that is to be resealed is copied in the same way. Run by `bench/run same`. */

#include <inttypes.h>
#include <stdio.h>
#include <stdlib.h>
#include <string.h>
#include <unistd.h>

#include "desk_layout.h"
#include "differ/both.h"
#include "guarded.h"
#include "peer.h"

enum { CHANGED_EACH = 4 };

/* One call with its arguments but desk and core; first and second are the lists, the map or the block. */
struct call {
  unsigned which;
  uint64_t desk_len, core_len, room, place, area, size, first_len, second_len;
  const uint64_t *first, *second;
};

uint64_t __real_clamp_make(uint64_t *, uint64_t, uint64_t, const uint64_t *, uint64_t);
uint64_t __real_clamp_open(uint64_t *, uint64_t, uint64_t *, uint64_t, uint64_t, uint64_t, uint64_t, const uint64_t *, uint64_t,
                           const uint64_t *, uint64_t);
uint64_t __real_clamp_feed(uint64_t *, uint64_t, uint64_t *, uint64_t, uint64_t, uint64_t, const uint64_t *, uint64_t);
uint64_t __real_clamp_release(uint64_t *, uint64_t, uint64_t, uint64_t, uint64_t);
uint64_t __real_clamp_reseal(uint64_t *, uint64_t, uint64_t);

/* A loader: the library, or the peer. */
struct loader {
  uint64_t (*make)(uint64_t *, uint64_t, uint64_t, const uint64_t *, uint64_t);
  uint64_t (*open)(uint64_t *, uint64_t, uint64_t *, uint64_t, uint64_t, uint64_t, uint64_t, const uint64_t *, uint64_t,
                   const uint64_t *, uint64_t);
  uint64_t (*feed)(uint64_t *, uint64_t, uint64_t *, uint64_t, uint64_t, uint64_t, const uint64_t *, uint64_t);
  uint64_t (*release)(uint64_t *, uint64_t, uint64_t, uint64_t, uint64_t);
};

static const struct loader the_library = {__real_clamp_make, __real_clamp_open, __real_clamp_feed, __real_clamp_release};
static const struct loader the_peer = {peer_make, peer_open, peer_feed, peer_release};

static uint64_t call_by(const struct loader *by, const struct call *c, uint64_t *desk, uint64_t *core) {
  switch (c->which) {
  case MAKE:
    return by->make(desk, c->desk_len, c->core_len, c->first, c->first_len);
  case OPEN:
    return by->open(desk, c->desk_len, core, c->core_len, c->room, c->area, c->size, c->first, c->first_len, c->second,
                    c->second_len);
  case FEED:
    return by->feed(desk, c->desk_len, core, c->core_len, c->room, c->place, c->first, c->first_len);
  default:
    return by->release(desk, c->desk_len, c->core_len, c->room, c->place);
  }
}

/* ---- copies */

/* A copy of these numbers, before this end of memory; of none, no memory at all. */
static uint64_t *copied(uint64_t *end, const uint64_t *from, uint64_t length) {
  return length == 0 ? NULL : memcpy(end - length, from, length * sizeof *from);
}

static bool same(const uint64_t *one, const uint64_t *other, uint64_t length) {
  return length == 0 || memcmp(one, other, length * sizeof *one) == 0;
}

/* ---- comparing */

static uint64_t compared, changed_desks, changed_codes[CODES];
static uint64_t *desks[2], *cores[2]; /* the ends of their memory: the library's on changed desks, and the peer's */
static uint64_t *block_end;           /* and of the peer's block, where one is resealed */
static struct chance turn;            /* begins again with each round, so that a round can be done again alone */
static uint64_t turn_of = UINT64_MAX;

static void print_counts(void) {
  uint64_t accepted = 0;
  for (unsigned code = 0; code < CODES; code++)
    accepted += changes_nothing(code) ? 0 : changed_codes[code];
  printf("peer: %" PRIu64 " calls the same, %" PRIu64 " more on changed desks (%" PRIu64 " refused with 1, %" PRIu64
         " went past refusal 12)\n",
         compared, changed_desks, changed_codes[REFUSED_DESK], accepted);
}

static void differs(const char *what, const struct call *c, uint64_t proved, uint64_t peer) {
  static const char *const names[] = {"make", "open", "feed", "release", "reseal"};
  printf("same: seed %" PRIu64 ", %s: %s differ, library %" PRIu64 " %" PRIu64 ", peer %" PRIu64 " %" PRIu64
         "\n0 passed, 1 failed\n",
         seed, names[c->which], what, CLAMP_CODE(proved), CLAMP_VALUE(proved), CLAMP_CODE(peer), CLAMP_VALUE(peer));
  fflush(stdout);
  _exit(1);
}

/* The peer's desk and core are the copies 1; the library's are given. */
static uint64_t compare_on(const struct call *c, uint64_t *desk, uint64_t *core, uint64_t core_words) {
  uint64_t *peer_desk = copied(desks[1], desk, c->desk_len), *peer_core = copied(cores[1], core, core_words);
  uint64_t peer = call_by(&the_peer, c, peer_desk, peer_core), proved = call_by(&the_library, c, desk, core);
  if (proved != peer)
    differs("answers", c, proved, peer);
  if (!same(desk, peer_desk, c->desk_len))
    differs("desks", c, proved, peer);
  if (!same(core, peer_core, core_words))
    differs("cores", c, proved, peer);
  return proved;
}

/* ---- changed desks */

/* Any number of a desk, mostly one near to what stands there. */
static uint64_t changed_number(const uint64_t *desk, uint64_t number) {
  switch (below(&turn, 8)) {
  case 0:
    return number + 1;
  case 1:
    return number - 1;
  case 2:
    return number ^ any_bit(&turn, 64);
  case 3:
    return below(&turn, LOAD_BROKEN + 2); /* what is due, or a holder */
  case 4:
    return below(&turn, 200);
  case 5:
    return desk[below(&turn, DESK_WORDS)];
  case 6:
    return number + kept_table(0, below(&turn, 5), 0) - kept_table(0, 2, 0);
  default:
    return any_size(&turn);
  }
}

enum { SIZE_SOME = 70000 }; /* sizes up to somewhat over what a core has */

/* The stage of a place as another, with numbers that are often in range. */
static void change_stage(uint64_t *place) {
  place[DUE_AT] = below(&turn, LOAD_BROKEN + 1);
  for (unsigned i = DUE_AT + 1; i < STAGE_AT + STAGE_WORDS; i++) {
    uint64_t most = i == CHANNELS_AT ? place[IO_COUNT_AT] : i <= NUMBER_AT ? place[TABLE_COUNT_AT] : place[SIZE_AT];
    if (one_in(&turn, 2))
      place[i] = one_in(&turn, 4) ? any_size(&turn) : below(&turn, most % SIZE_SOME + 1);
  }
}

/* Two kept tables change their numbers, two ranks change places, or an area moves by its tables. */
static void change_tables(uint64_t *place) {
  uint64_t most = place[KEPT_COUNT_AT] % ENTRIES_MOST + 1, number;
  uint64_t *one = place + KEPT_AT + below(&turn, most), *other = place + KEPT_AT + below(&turn, most);
  switch (below(&turn, 4)) {
  case 0:
    number = kept_number(*one);
    *one = put(*one, 39, 20, kept_number(*other));
    *other = put(*other, 39, 20, number);
    break;
  case 1:
    one += RANKS_AT - KEPT_AT;
    other += RANKS_AT - KEPT_AT;
    number = *one;
    *one = *other;
    *other = number;
    break;
  case 2:
    *one = put(*one, 19, 0, 0);
    break;
  default:
    *one = put(*one, 19, 0, below(&turn, 30));
  }
}

/* The place as a load of any room, in a few words of its stretch, without lists. */
static void change_holder(const uint64_t *desk, uint64_t *place) {
  uint64_t room = below(&turn, ROOMS), start = desk[stretch_at(room)], length = desk[stretch_at(room) + 1];
  if (length == 0 || length > CORE_MOST)
    return;
  memset(place, 0, (OWN_WORDS + STAGE_WORDS) * sizeof *place);
  place[HOLDER_AT] = room + 1;
  place[AREA_AT] = start + below(&turn, length);
  place[SIZE_AT] = between(&turn, 1, 3);
}

/* One kept table somewhere in the area, of any number. */
static void change_kept(uint64_t *place) {
  uint64_t size = place[SIZE_AT] % CORE_MOST + 1, at = place[AREA_AT] + below(&turn, size), number = below(&turn, 4);
  place[KEPT_COUNT_AT] = 1;
  place[KEPT_AT] = kept_table(at, number, between(&turn, 1, (size + 7) / 8));
  place[RANKS_AT + below(&turn, 4)] = 0;
}

static void change_desk(uint64_t *desk, uint64_t p) {
  enum { FIRSTS = 8 }; /* the first few of a list */
  static const struct {
    unsigned from, count;
  } parts[] = {{0, OWN_WORDS},    {0, OWN_WORDS + STAGE_WORDS}, {STAGE_AT, STAGE_WORDS}, {IO_AT, IO_WORDS}, {KEPT_AT, KEPT_WORDS},
               {KEPT_AT, FIRSTS}, {RANKS_AT, RANK_WORDS},       {RANKS_AT, FIRSTS}};
  uint64_t which = below(&turn, 14), *place = desk + place_at(p), *number;
  switch (which) {
  case 0:
    number = desk + below(&turn, PLACES_AT);
    *number = changed_number(desk, *number);
    break;
  case 9:
    change_tables(place);
    break;
  case 10:
    change_holder(desk, desk + place_at(below(&turn, PLACES)));
    break;
  case 11:
    change_kept(place);
    break;
  case 12:
  case 13:
    change_stage(place);
    break;
  default: /* 1 to 8 */
    number = place + parts[which - 1].from + below(&turn, parts[which - 1].count);
    *number = changed_number(desk, *number);
  }
}

/* What heads a section: a table's number, or a bank's address, and its count. */
static uint64_t section_word(uint64_t kind, uint64_t count, uint64_t number) {
  return put(0, 35, 34, kind) | put(0, 33, 18, count) | put(0, 15, 0, number);
}

/* A program block that begins with a section, for a place that waits for one. */
static void change_section(uint64_t *block, uint64_t *place) {
  uint64_t *bank = block + FIRST_WORD;
  memset(place + STAGE_AT, 0, STAGE_WORDS * sizeof *place);
  place[DUE_AT] = one_in(&turn, 2) ? DUE_TABLE_SECTION : DUE_SEGMENT;
  place[SECTIONS_AT] = below(&turn, 3);
  place[NUMBER_AT] = below(&turn, 3);
  place[IBANK_AT + 1] = 1;
  block[IDENTIFIER_WORD] = PRORC;
  block[FIRST_WORD] = section_word(KIND_TABLE_SECTION, between(&turn, 1, 6), below(&turn, 6));
  for (; bank < block + FIRST_WORD + 2 && place[DUE_AT] == DUE_SEGMENT; bank++)
    *bank = section_word(0, below(&turn, 40), below(&turn, 60));
}

/* The block with a few bits turned over, or with such a section. */
static void change_block(uint64_t *block, uint64_t *place) {
  if (one_in(&turn, 4))
    change_section(block, place);
  for (uint64_t times = below(&turn, 3); times > 0; times--)
    block[one_in(&turn, 2) ? below(&turn, 12) : below(&turn, WORDS_IN_BLOCK)] ^= any_bit(&turn, BITS_IN_WORD);
  seal(block, place[DUE_AT] == DUE_LABEL);
}

/* The call on a desk, and with a block, in which a few numbers are changed. */
static void compare_changed(struct call c, const uint64_t *desk, const uint64_t *core, uint64_t core_words) {
  uint64_t *other = copied(desks[0], desk, DESK_WORDS), *other_core = copied(cores[0], core, core_words), block[WORDS_IN_BLOCK];
  uint64_t p = c.which != OPEN && c.place < PLACES && !one_in(&turn, 4) ? c.place : below(&turn, PLACES);
  for (uint64_t times = below(&turn, 4); times > 0; times--)
    change_desk(other, p);
  if (c.which == FEED && c.first_len == WORDS_IN_BLOCK && one_in(&turn, 2)) {
    memcpy(block, c.first, sizeof block);
    change_block(block, other + place_at(p));
    c.first = block;
  }
  changed_codes[CLAMP_CODE(compare_on(&c, other, other_core, core_words))]++;
  changed_desks++;
}

/* ---- the calls, as the linker hands them over */

static void set_up_once(void) {
  static bool begun;
  if (begun)
    return;
  for (unsigned i = 0; i < 2; i++) {
    desks[i] = guarded_end(DESK_WORDS + 1);
    cores[i] = guarded_end(CORE_MOST + 1);
  }
  block_end = guarded_end(NUMBERS_MOST);
  atexit(print_counts);
  begun = true;
}

static uint64_t wrapped(const struct call *c, uint64_t *desk, uint64_t *core, uint64_t core_words) {
  uint64_t result;
  set_up_once();
  if (turn_of != seed)
    turn.state = turn_of = seed;
  for (unsigned i = 0; i < CHANGED_EACH && c->which != MAKE && c->desk_len == DESK_WORDS; i++)
    compare_changed(*c, desk, core, core_words);
  result = compare_on(c, desk, core, core_words);
  compared++;
  return result;
}

uint64_t __wrap_clamp_make(uint64_t *desk, uint64_t desk_len, uint64_t core_len, const uint64_t *map, uint64_t map_len);
uint64_t __wrap_clamp_open(uint64_t *desk, uint64_t desk_len, uint64_t *core, uint64_t core_len, uint64_t room, uint64_t area,
                           uint64_t size, const uint64_t *io, uint64_t io_len, const uint64_t *tables, uint64_t tables_len);
uint64_t __wrap_clamp_feed(uint64_t *desk, uint64_t desk_len, uint64_t *core, uint64_t core_len, uint64_t room, uint64_t place,
                           const uint64_t *block, uint64_t block_len);
uint64_t __wrap_clamp_release(uint64_t *desk, uint64_t desk_len, uint64_t core_len, uint64_t room, uint64_t place);
uint64_t __wrap_clamp_reseal(uint64_t *block, uint64_t block_len, uint64_t index);

uint64_t __wrap_clamp_make(uint64_t *desk, uint64_t desk_len, uint64_t core_len, const uint64_t *map, uint64_t map_len) {
  struct call c = {.which = MAKE, .desk_len = desk_len, .core_len = core_len, .first = map, .first_len = map_len};
  return wrapped(&c, desk, NULL, 0);
}

uint64_t __wrap_clamp_open(uint64_t *desk, uint64_t desk_len, uint64_t *core, uint64_t core_len, uint64_t room, uint64_t area,
                           uint64_t size, const uint64_t *io, uint64_t io_len, const uint64_t *tables, uint64_t tables_len) {
  struct call c = {.which = OPEN, .desk_len = desk_len, .core_len = core_len, .room = room, .area = area, .size = size};
  c.first = io;
  c.first_len = io_len;
  c.second = tables;
  c.second_len = tables_len;
  return wrapped(&c, desk, core, core_len);
}

uint64_t __wrap_clamp_feed(uint64_t *desk, uint64_t desk_len, uint64_t *core, uint64_t core_len, uint64_t room, uint64_t place,
                           const uint64_t *block, uint64_t block_len) {
  struct call c = {.which = FEED, .desk_len = desk_len, .core_len = core_len, .room = room, .place = place};
  c.first = block;
  c.first_len = block_len;
  return wrapped(&c, desk, core, core_len);
}

uint64_t __wrap_clamp_release(uint64_t *desk, uint64_t desk_len, uint64_t core_len, uint64_t room, uint64_t place) {
  struct call c = {.which = RELEASE, .desk_len = desk_len, .core_len = core_len, .room = room, .place = place};
  return wrapped(&c, desk, NULL, 0);
}

uint64_t __wrap_clamp_reseal(uint64_t *block, uint64_t block_len, uint64_t index) {
  struct call c = {.which = RESEAL};
  set_up_once();
  uint64_t *peer_block = copied(block_end, block, block_len);
  uint64_t peer = peer_reseal(peer_block, block_len, index), proved = __real_clamp_reseal(block, block_len, index);
  if (proved != peer)
    differs("answers", &c, proved, peer);
  if (!same(block, peer_block, block_len))
    differs("blocks", &c, proved, peer);
  compared++;
  return proved;
}
