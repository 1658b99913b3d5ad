/* desk.h: what the tests of the desk share. They call make, open and release of libclamp.a as the emulator calls them, and compare
   what each leaves with document 01 and docs/DESK.md. All numbers are fixed or come from a generator with fixed seeds. */

#ifndef DESK_H
#define DESK_H

#include <stdbool.h>
#include <stddef.h>
#include <stdint.h>

#include "clamp.h"
#include "desk_layout.h"

/* ---- lend.c: counting */

extern unsigned long passed, failed;

#define TEXT_OF(number) #number
#define TEXT(number) TEXT_OF(number)
#define HERE __FILE__ ":" TEXT(__LINE__)

/* Counts one check; `here` is where it stands, and `from` the test that came there or NULL. Gives whether it holds. */
bool count_check(bool ok, const char *here, const char *from, const char *what);

#define CHECK(ok) count_check(ok, HERE, NULL, #ok)
#define CHECK_FOR(from, ok) count_check(ok, HERE, from, #ok)

/* ---- lend.c: numbers by chance, from a seed */

extern uint64_t seed;

uint64_t any(void);
uint64_t below(uint64_t bound);

/* ---- lend.c: what is lent. Desk and core are those in use; `was_` is what they were before a call. */

extern uint64_t *desk, *core, desk_len, core_len;
extern uint64_t was_desk[DESK_WORDS + 1], was_core[CORE_MOST + 1];
extern uint64_t *io_end, *tables_end, *map_end; /* the ends of the memory for lists */

void set_up(void);
void lend_desk(uint64_t length);
void lend_core(uint64_t length);
const uint64_t *lend_list(uint64_t *end, const uint64_t *list, uint64_t length); /* a copy; of no numbers, NULL */

void fill_desk(void); /* any numbers */
void fill_core(void); /* any words of 36 bits but zero */
void keep(void);      /* desk and core are as they are before a call */
bool same(const uint64_t *one, const uint64_t *other, uint64_t length);
bool nothing_changed(void);

/* ---- sound.c: a desk, by the ranges of docs/DESK.md */

bool inside(uint64_t start, uint64_t length, uint64_t outer, uint64_t outer_length);
bool apart(uint64_t start, uint64_t length, uint64_t other, uint64_t other_length);
void table_read(const uint64_t *place, uint64_t table, uint64_t *at, uint64_t *length);
bool is_sound(const uint64_t *numbers);

/* ---- calls.c: the calls, each with its answer and all that it leaves. `want` is the whole answer; `from` is the test. */

bool make_is(const char *from, uint64_t want, uint64_t core_words, const uint64_t *map, uint64_t map_len);
bool open_is(const char *from, uint64_t want, uint64_t room, uint64_t area, uint64_t size, const uint64_t *io, uint64_t io_len,
             const uint64_t *tables, uint64_t tables_len);
bool release_is(const char *from, uint64_t want, uint64_t core_words, uint64_t room, uint64_t place);

#define MAKE(want, core_words, map) make_is(HERE, want, core_words, map, MAP_LENGTH)
#define MAKE_LENGTH(want, core_words, map, map_len) make_is(HERE, want, core_words, map, map_len)
#define OPEN(want, room, area, size) open_is(HERE, want, room, area, size, NULL, 0, NULL, 0)
#define OPEN_IO(want, room, area, size, io, io_len) open_is(HERE, want, room, area, size, io, io_len, NULL, 0)
#define OPEN_PAIRS(want, room, area, size, pairs, length) open_is(HERE, want, room, area, size, NULL, 0, pairs, length)
#define OPEN_LISTS(want, room, area, size, io, io_len, pairs, length)                                                              \
  open_is(HERE, want, room, area, size, io, io_len, pairs, length)
#define RELEASE(want, room, place) release_is(HERE, want, core_len, room, place)
#define RELEASE_LENGTH(want, core_words, room, place) release_is(HERE, want, core_words, room, place)

/* ---- desks.c: desks to begin with. What stood in desk and core before is by chance. */

/* The even desk: each room has as many words of the core, one room's after the other's. */
enum { EVEN_CORE = 4096, STRETCH = EVEN_CORE / ROOMS, LOAD = 160 };

void even_desk(void);
uint64_t even_stretch(uint64_t room);             /* where its stretch starts */
uint64_t even_area(uint64_t room, uint64_t load); /* where an area of LOAD words for its load 0, 1 or 2 starts */

void whole_desk(uint64_t core_words); /* all of the core is room 0's */

extern const uint64_t empty_map[MAP_LENGTH];

/* Core lengths that are not EVEN_CORE. */
enum { OTHER_LENGTHS = 7 };
extern const uint64_t other_lengths[OTHER_LENGTHS];

/* Numbers that are too large for anything, most of them near 2^64. */
enum { TOPS = 9 };
extern const uint64_t tops[TOPS];

/* Wild numbers for one of the desk: small ones, other fixed ones, the old one's neighbours, and the old one with one bit turned. */
enum { SMALL_WILDS = PLACES + 1, FIXED_WILDS = 46, FEW_WILDS = FIXED_WILDS + 2, WILDS = FEW_WILDS + 64 };

uint64_t wild(unsigned which, uint64_t old);

/* ---- the tests */

void test_make_order(void); /* make.c */
void test_make_lengths(void);
void test_make_core_lengths(void);
void test_make_map_lengths(void);
void test_make_stretches(void);
void test_make_near_top(void);
void test_make_again(void);
void test_open_order(void); /* open.c */
void test_open_core_length(void);
void test_open_rooms(void);
void test_open_areas(void);
void test_open_beside(void);
void test_open_io(void); /* lists.c */
void test_open_tables(void);
void test_open_widest(void);
void test_release_order(void); /* release.c */
void test_release_edges(void);
void test_release_again(void);
void test_morning(void); /* grants.c */
void test_who_is_next(void);
void test_long_day(void);
void test_wild_numbers(void); /* wild.c */
void test_wild_stages(void);
void test_wild_blocks(void);
void test_wild_kept(void);
void test_wild_areas(void);
void test_wild_holders(void);
void test_random_desks(void);
void test_example(void); /* main.c */

#endif
