/* How the cost of a call grows with what is in use on the desk: a release that is refused with 9 tests the whole desk and does
   nothing else. Run by bench/run.

     desk                     a line for each number of loads, 0 to 12, parted by tabs: the number, and nanoseconds of processor
                              time a call, the least of many batches, where each load has 0, 16, 64 and 128 tables
     desk once LOADS TABLES   one such call between begin_call and end_call, for bench/run to count its instructions */
#include <math.h>

#include "loads.h"

enum { BATCHES = 40, RELEASES = 500 };

static uint64_t desk[CLAMP_DESK_WORDS], core[CORE_MOST], io[ENTRIES_MOST], tables[PAIRS_MOST];

/* This many loads, each with this many I/O numbers and as many tables. */
static void desk_of(unsigned loads, unsigned entries) {
  uint64_t map[MAP_LENGTH];
  even_map(map);
  expect("desk", clamp_make(desk, CLAMP_DESK_WORDS, CORE_MOST, map, MAP_LENGTH), CLAMP_MADE);
  for (unsigned load = 0; load < loads; load++) {
    uint64_t room = room_of(load), area = area_of(load), answer;
    write_tables(tables, entries, area, false);
    answer = clamp_open(desk, CLAMP_DESK_WORDS, core, CORE_MOST, room, area, AREA_WORDS, io, entries, tables, 2 * entries);
    expect("desk", answer, CLAMP_OPENED);
  }
}

static void refused(void) {
  expect("desk", clamp_release(desk, CLAMP_DESK_WORDS, CORE_MOST, 0, PLACES), CLAMP_REFUSED_PLACE);
}

static double least(void) {
  double best = INFINITY;
  for (unsigned i = 0; i < BATCHES; i++) {
    double t = batch(refused, RELEASES);
    if (t < best)
      best = t;
  }
  return best;
}

static int counted(unsigned loads, unsigned entries) {
  desk_of(loads, entries);
  once(refused);
  return 0;
}

static int table(void) {
  static const unsigned loads[] = {0, 1, 2, 4, 8, PLACES}, sizes[] = {0, 16, 64, ENTRIES_MOST};
  enum { LINES = sizeof loads / sizeof loads[0], COLUMNS = sizeof sizes / sizeof sizes[0] };
  for (unsigned i = 0; i < LINES; i++) {
    printf("%u", loads[i]);
    for (unsigned j = 0; j < COLUMNS; j++) {
      desk_of(loads[i], sizes[j]);
      printf("\t%.1f", least());
    }
    printf("\n");
  }
  return 0;
}

int main(int count, char **arguments) {
  return count == ONCE_ARGUMENTS ? counted((unsigned)atoi(arguments[FIRST_AT]), (unsigned)atoi(arguments[SECOND_AT])) : table();
}
