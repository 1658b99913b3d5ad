/* loads.h: what the measurements share: a desk of up to twelve loads, the answers that are due, the clock, and the one call that is
   counted. */

#ifndef LOADS_H
#define LOADS_H

#include <inttypes.h>
#include <stdio.h>
#include <stdlib.h>
#include <time.h>

#include "clamp.h"
#include "rules.h"

/* ---- the loads */

/* The core is as long as it can be, each room has an eighth of it, and an area is half of that: rooms 0 to 3 hold the first and the
   last four of twelve loads, rooms 4 to 7 one each. */
enum { STRETCH_WORDS = CORE_MOST / ROOMS, AREA_WORDS = STRETCH_WORDS / 2, TABLE_WORDS = 8 };

static inline void even_map(uint64_t *map) {
  for (uint64_t room = 0; room < ROOMS; room++) {
    map[2 * room] = STRETCH_WORDS * room;
    map[2 * room + 1] = STRETCH_WORDS;
  }
}

static inline uint64_t room_of(uint64_t load) {
  return load % ROOMS;
}

static inline uint64_t area_of(uint64_t load) {
  return STRETCH_WORDS * room_of(load) + AREA_WORDS * (load / ROOMS);
}

/* The list of this many tables that lie one after the other from this address on, the lowest first or last. */
static inline void write_tables(uint64_t *tables, uint64_t count, uint64_t from, bool falling) {
  for (uint64_t i = 0; i < count; i++) {
    tables[2 * i] = from + TABLE_WORDS * (falling ? count - 1 - i : i);
    tables[2 * i + 1] = TABLE_WORDS;
  }
}

/* Ends the program where the answer is not of this code. */
static inline void expect(const char *who, uint64_t answer, uint64_t code) {
  if (CLAMP_CODE(answer) != code) {
    fprintf(stderr, "%s: answer %" PRIu64 " where %" PRIu64 " is due\n", who, CLAMP_CODE(answer), code);
    exit(1);
  }
}

/* ---- the clock */

enum { NANOSECONDS_IN_SECOND = 1000000000 };

/* Processor time in nanoseconds: not that of the other programs of a busy machine. */
static inline double now(void) {
  struct timespec t;
  clock_gettime(CLOCK_PROCESS_CPUTIME_ID, &t);
  return (double)t.tv_sec * NANOSECONDS_IN_SECOND + (double)t.tv_nsec;
}

/* Nanoseconds of one call, of this many. */
static inline double batch(void (*call)(void), unsigned calls) {
  double t = now();
  for (unsigned i = 0; i < calls; i++)
    call();
  return (now() - t) / calls;
}

/* ---- one call, to be counted: PROGRAM once FIRST SECOND */

enum { FIRST_AT = 2, SECOND_AT = 3, ONCE_ARGUMENTS = 4 };

/* bench/run finds these two by name. Each has a remark of its own, so that the compiler does not make them one. */
__attribute__((noinline)) static void begin_call(void) {
  __asm__ volatile("# begin");
}

__attribute__((noinline)) static void end_call(void) {
  __asm__ volatile("# end");
}

/* Makes the call twice; the second is counted. */
static inline void once(void (*call)(void)) {
  call();
  begin_call();
  call();
  end_call();
}

#endif
