/* book.c: assign and needs of the library, called through clamp.h as the emulator calls them: every refusal at its edges, the
   lists, and both held against the second version of book_rules.h, over files and books by chance.

     book SEED ROUNDS BOOK     so many files by chance, with the seeds SEED, SEED + 1, ..; BOOK is the worked file's book, a file

   It ends with a line 'N passed, M failed'. What failed by chance is told with the seed of its file: book SEED 1 BOOK does that one
   again. */

#include "book/book.h"

#include <inttypes.h>
#include <stdio.h>
#include <stdlib.h>

enum { SEED_AT = 1, ROUNDS_AT = 2, BOOK_AT = 3, ARGUMENTS = 4, ROUNDS_OF_LOAD = 20 };

int main(int count, char **arguments) {
  if (count != ARGUMENTS) {
    printf("usage: book SEED ROUNDS BOOK\n0 passed, 1 failed\n");
    return 2;
  }
  uint64_t first = strtoull(arguments[SEED_AT], NULL, 10), rounds = strtoull(arguments[ROUNDS_AT], NULL, 10);
  setvbuf(stdout, NULL, _IOLBF, 0); /* what failed is told even where the next call stops the program */
  set_up();
  test_labels();
  test_missing();
  test_blocks();
  test_over();
  test_front_first();
  test_records();
  test_lengths();
  test_tags();
  test_shared();
  test_order();
  test_split();
  test_full();
  test_long();
  test_needs();
  test_worked(arguments[BOOK_AT]);
  test_chance(first, rounds);
  test_loads(first, (rounds + ROUNDS_OF_LOAD - 1) / ROUNDS_OF_LOAD);
  printf("%" PRIu64 " passed, %" PRIu64 " failed\n", passed, failed);
  return failed != 0;
}
