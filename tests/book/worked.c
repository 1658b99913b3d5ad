/* worked.c: the worked file of examples/worked_file.h, and the book that examples/book makes of examples/worked_book.txt: assigning
   by it gives the lists that the file is loaded with. */

#include "worked_file.h"

#include <stdio.h>

#include "book.h"

enum { WORKED_IO = sizeof worked_io / sizeof worked_io[0], WORKED_PAIRS = sizeof worked_tables / sizeof worked_tables[0] };

void test_worked(const char *path) {
  FILE *book = fopen(path, "rb");
  if (!check(book != NULL, "the book of the worked file can be read"))
    return;
  write_file(WORKED_IO, WORKED_PAIRS / 2);
  for (unsigned i = 0; i < given.length; i++)
    given.words[i] = 0;
  for (unsigned i = 0; i < sizeof worked_file / sizeof worked_file[0]; i++)
    if (worked_file[i].block <= needed())
      block_given(worked_file[i].block)[worked_file[i].at] = worked_file[i].value;
  given.book_length = fread(given.book, 1, sizeof given.book, book);
  fclose(book);
  assign_gives("the worked file by its book", worked_io, worked_tables);
  needs_is("the worked file's label", given.words, WORDS_IN_BLOCK, told_needs(WORKED_IO, WORKED_PAIRS / 2, 1));
}
