/* loads.c: what assign has written goes into open and feed. The generator makes a file and the lists that it is to be loaded with;
   a book of these lists and the file's tags must give the lists back, and with them the file loads to its image. */

#include <stdlib.h>
#include <string.h>

#include "book.h"
#include "generate/generate.h"

enum { CORE_WORDS = 4096 };

static struct chance chance;
static const struct file *file;
static uint64_t *desk, core[CORE_WORDS];

/* The number that the file's lists have for the entry. */
static uint64_t listed(char kind, uint64_t entry) {
  return kind == 'P' ? file->io[entry] : kind == 'A' ? file->tables[entry].start : file->tables[entry].length;
}

/* Entries that are listed with the same number share a tag now and then. */
static void share_tags(void) {
  for (unsigned k = 0; k < sizeof kinds; k++)
    for (uint64_t entry = 1; entry < entries_of(kinds[k]); entry++) {
      uint64_t other = below(&chance, entry);
      if (listed(kinds[k], entry) == listed(kinds[k], other))
        set_tag(kinds[k], entry, tag_given(kinds[k], other));
    }
}

/* The blocks of the file, with a book of its lists. */
static void give(void) {
  given.io = given.io_length = file->io_count;
  given.tables = file->table_count;
  given.tables_length = 2 * given.tables;
  given.length = WORDS_IN_BLOCK * (1 + needed());
  memcpy(given.words, file->blocks, given.length * sizeof given.words[0]);
  share_tags();
  write_book_by(listed);
}

/* The load by the lists that assign wrote, to its end. */
static void load(void) {
  const uint64_t map[MAP_LENGTH] = {0, CORE_WORDS}, words = clamp_desk_words();
  uint64_t answer;
  check(clamp_make(desk, words, CORE_WORDS, map, MAP_LENGTH) == told(MADE, 0), "made");
  answer = clamp_open(desk, words, core, CORE_WORDS, 0, file->area.start, file->area.length, got_io, given.io_length, got_tables,
                      given.tables_length);
  check(answer == told(OPENED, 0), "opened with the lists that assign wrote");
  for (unsigned block = 0; block <= file->termination; block++) {
    const uint64_t *from = block <= needed() ? block_given(block) : file->blocks[block];
    answer = clamp_feed(desk, words, core, CORE_WORDS, 0, 0, from, WORDS_IN_BLOCK);
    check(answer == (block == file->termination ? told(DONE, file->start) : told(MORE, 0)), "a block of a file that was assigned");
  }
  check(memcmp(core + file->area.start, file->image, file->area.length * sizeof core[0]) == 0,
        "the image of a file that was assigned");
}

static void test_load(void) {
  uint64_t size = between(&chance, 1, CORE_WORDS), io[ENTRIES_MOST], tables[PAIRS_MOST];
  struct file *made = file_make(&chance, (struct run){below(&chance, CORE_WORDS - size + 1), size}, NO_FAULT);
  file = made;
  give();
  for (uint64_t entry = 0; entry < given.io; entry++)
    io[entry] = listed('P', entry);
  for (uint64_t entry = 0; entry < given.tables; entry++) {
    tables[2 * entry] = listed('A', entry);
    tables[2 * entry + 1] = listed('L', entry);
  }
  needs_is("a file that is loaded", given.words, WORDS_IN_BLOCK, told_needs(given.io, given.tables, needed()));
  assign_gives("the lists of a file that is loaded", io, tables);
  load();
  file_drop(made);
}

void test_loads(uint64_t first, uint64_t rounds) {
  desk = malloc(clamp_desk_words() * sizeof *desk);
  if (!check(desk != NULL, "memory for a desk"))
    return;
  for (uint64_t round = 0; round < rounds; round++) {
    seed = chance.state = first + round;
    test_load();
  }
  seed = 0;
  free(desk);
}
