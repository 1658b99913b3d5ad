/* chance.c: all feeds of one load, for bench/run to count their instructions. The file is one by chance without a fault, as the tests
   have it (tests/generate), and the load is alone on the desk.

     chance once load SEED   the feeds of the file that the seed gives, between begin_call and end_call */
#include "generate/generate.h"
#include "loads.h"

enum { ROOM = 0, DECIMAL = 10 };

static uint64_t desk[CLAMP_DESK_WORDS], core[CORE_MOST], tables[PAIRS_MOST];

/* Any area of the room's stretch. */
static struct run any_area(struct chance *chance) {
  struct run area = {.start = below(chance, STRETCH_WORDS)};
  area.length = between(chance, 1, STRETCH_WORDS - area.start);
  return area;
}

static uint64_t open_file(const struct file *file) {
  uint64_t map[MAP_LENGTH], answer;
  even_map(map);
  expect("chance", clamp_make(desk, CLAMP_DESK_WORDS, CORE_MOST, map, MAP_LENGTH), CLAMP_MADE);
  for (uint64_t i = 0; i < file->table_count; i++) {
    tables[2 * i] = file->tables[i].start;
    tables[2 * i + 1] = file->tables[i].length;
  }
  answer = clamp_open(desk, CLAMP_DESK_WORDS, core, CORE_MOST, ROOM, file->area.start, file->area.length, file->io, file->io_count,
                      tables, 2 * file->table_count);
  expect("chance", answer, CLAMP_OPENED);
  return CLAMP_VALUE(answer);
}

int main(int count, char **arguments) {
  struct chance chance;
  struct file *file;
  uint64_t place, answer = 0;
  if (count != ONCE_ARGUMENTS)
    return 2;
  chance.state = strtoull(arguments[SECOND_AT], NULL, DECIMAL);
  file = file_make(&chance, any_area(&chance), NO_FAULT);
  place = open_file(file);
  begin_call();
  for (unsigned i = 0; i < file->count; i++)
    answer = clamp_feed(desk, CLAMP_DESK_WORDS, core, CORE_MOST, ROOM, place, file->blocks[i], WORDS_IN_BLOCK);
  end_call();
  expect("chance", answer, CLAMP_DONE);
  file_drop(file);
  return 0;
}
