/* main.c: the desk from outside: make, open and release of libclamp.a. Prints 'N passed, M failed'. */

#include <stdio.h>
#include <stdlib.h>

#include "desk.h"

/* The example of clamp.h. */
void test_example(void) {
  enum { CORE_WORDS = 4096, AREA = 512, SIZE = 64 };
  static uint64_t words[CORE_WORDS];
  const uint64_t map[MAP_LENGTH] = {0, CORE_WORDS};
  const uint64_t io[1] = {3};
  const uint64_t tables[2] = {560, 16};
  uint64_t length = clamp_desk_words();
  uint64_t *numbers = malloc(length * sizeof *numbers);
  uint64_t answer = clamp_make(numbers, length, CORE_WORDS, map, MAP_LENGTH);
  CHECK(CLAMP_CODE(answer) == CLAMP_MADE && CLAMP_VALUE(answer) == 0);
  answer = clamp_open(numbers, length, words, CORE_WORDS, 0, AREA, SIZE, io, 1, tables, 2);
  CHECK(CLAMP_CODE(answer) == CLAMP_OPENED && CLAMP_VALUE(answer) == 0);
  answer = clamp_release(numbers, length, CORE_WORDS, 0, CLAMP_VALUE(answer));
  CHECK(CLAMP_CODE(answer) == CLAMP_RELEASED && CLAMP_VALUE(answer) == 0);
  free(numbers);
}

static void (*const tests[])(void) = {
    test_make_order, test_make_lengths, test_make_core_lengths, test_make_map_lengths, test_make_stretches, test_make_near_top,
    test_make_again, test_open_order,   test_open_core_length,  test_open_rooms,       test_open_areas,     test_open_beside,
    test_open_io,    test_open_tables,  test_open_widest,       test_release_order,    test_release_edges,  test_release_again,
    test_morning,    test_who_is_next,  test_long_day,          test_wild_numbers,     test_wild_stages,    test_wild_blocks,
    test_wild_kept,  test_wild_areas,   test_wild_holders,      test_random_desks,     test_example};

int main(void) {
  const uint64_t first_seed = 0x9e3779b97f4a7c15;
  setvbuf(stdout, NULL, _IOLBF, 0); /* what failed is told even where the next call stops the program */
  set_up();
  for (size_t i = 0; i < sizeof tests / sizeof tests[0]; i++) {
    seed = first_seed + i; /* each test has its own numbers, whichever others run */
    tests[i]();
  }
  printf("%lu passed, %lu failed\n", passed, failed);
  return failed != 0;
}
