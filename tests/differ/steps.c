/* steps.c: the loads, and the steps with right arguments. */

#include "steps.h"

#include <string.h>

#include "where.h"

uint64_t faults_seen[FAULT_KINDS], carries_seen[3];

/* What is fed to each place, and whether what comes of it is still foretold. */
static struct file *files[PLACES];
static unsigned next_block[PLACES];
static bool foretold[PLACES];

/* ---- places and their files */

void drop_file(uint64_t place) {
  file_drop(files[place]);
  files[place] = NULL;
}

void keep_file(uint64_t place, struct file *file, bool is_foretold) {
  files[place] = file;
  next_block[place] = 0;
  foretold[place] = is_foretold;
}

void foretell_no_more(uint64_t place) {
  foretold[place] = false;
}

void forget_loads(void) {
  for (unsigned place = 0; place < PLACES; place++)
    drop_file(place);
}

unsigned any_held(void) {
  unsigned held[PLACES], count = 0;
  for (unsigned place = 0; place < PLACES; place++)
    if (files[place] != NULL)
      held[count++] = place;
  return count == 0 ? PLACES : held[below(&chance, count)];
}

struct numbers next_block_of(unsigned place) {
  const struct file *file = files[place];
  unsigned which = next_block[place] < file->count ? next_block[place] : file->count - 1;
  struct numbers block = {.count = WORDS_IN_BLOCK};
  memcpy(block.at, file->blocks[which], sizeof file->blocks[which]);
  return block;
}

struct numbers io_of(const struct file *file) {
  struct numbers io = {.count = file->io_count};
  memcpy(io.at, file->io, sizeof file->io);
  return io;
}

struct numbers tables_of(const struct file *file) {
  struct numbers tables = {.count = 2 * file->table_count};
  for (uint64_t i = 0; i < file->table_count; i++) {
    tables.at[2 * i] = file->tables[i].start;
    tables.at[2 * i + 1] = file->tables[i].length;
  }
  return tables;
}

/* ---- stretches and areas */

struct numbers any_map(uint64_t length) {
  struct run stretches[ROOMS] = {{0, 0}};
  uint64_t at = 0, portion = between(&chance, 1, 8);
  unsigned room = (unsigned)below(&chance, ROOMS);
  for (unsigned i = 0; i < ROOMS; i++, room = (room + 3) % ROOMS) {
    uint64_t gap = one_in(&chance, 4) ? below(&chance, (length - at) / 8 + 1) : 0, left = length - at - gap;
    if (one_in(&chance, 10)) {
      stretches[room] = (struct run){below(&chance, length + 1), 0};
      continue;
    }
    stretches[room] = (struct run){at + gap, one_in(&chance, 8) ? left : left / portion};
    at += gap + stretches[room].length;
  }
  return map_of(stretches);
}

/* The words of the room's stretch on one side of an area that it holds; all of them where it holds none. */
static struct run free_run(uint64_t room) {
  struct run run = reader.map[room];
  for (unsigned place = 0; place < PLACES; place++) {
    struct run held = reader.places[place].area;
    if (reader.places[place].stage == FREE || reader.places[place].room != room)
      continue;
    if (one_in(&chance, 2))
      return (struct run){run.start, held.start - run.start};
    return (struct run){held.start + held.length, run.start + run.length - held.start - held.length};
  }
  return run;
}

struct run any_area(uint64_t *room) {
  struct run run;
  uint64_t size, from, tries = 0;
  do {
    *room = below(&chance, ROOMS);
    run = free_run(*room);
  } while (run.length == 0 && tries++ < 4);
  if (run.length == 0)
    return (struct run){below(&chance, core_length), 1};
  size = one_in(&chance, 8) ? run.length : between(&chance, 1, one_in(&chance, 4) ? run.length : (run.length + 1) / 2);
  from = one_in(&chance, 3) ? 0 : one_in(&chance, 3) ? run.length - size : below(&chance, run.length - size + 1);
  return (struct run){run.start + from, size};
}

/* ---- the steps */

/* Any kind of fault, and every fourth time none. */
static enum fault any_fault(void) {
  return one_in(&chance, 4) ? NO_FAULT : (enum fault)between(&chance, 1, FAULT_KINDS - 1);
}

/* An area where such a fault can be: a table's address less a length is below 0 only near to address 0. */
static struct run area_for(enum fault fault, uint64_t *room) {
  struct run area = any_area(room);
  for (int tries = 0; tries < 20 && fault == PAIR_OVER && area.start >= area.length / 2; tries++)
    area = any_area(room);
  return area;
}

void step_open(void) {
  enum fault fault = any_fault();
  uint64_t room, answer;
  struct run area = area_for(fault, &room);
  struct file *file = file_make(&chance, area, fault);
  struct numbers io = io_of(file), tables = tables_of(file);
  answer = both_open(core_length, room, area, &io, &tables, 0);
  if (CLAMP_CODE(answer) == OPENED)
    keep_file(CLAMP_VALUE(answer), file, true);
  else
    file_drop(file);
}

static void release(unsigned place) {
  both_release(core_length, reader.places[place].room, place, told(RELEASED, 0));
  drop_file(place);
}

void step_release(void) {
  unsigned place = any_held();
  if (place != PLACES)
    release(place);
}

/* Whether its load is complete or broken. */
static bool has_ended(unsigned place) {
  return reader.places[place].stage == COMPLETE || reader.places[place].stage == BROKEN;
}

/* What is foretold of the file's next block; 0: nothing. */
static uint64_t foretell(unsigned place) {
  const struct file *file = files[place];
  unsigned block = next_block[place];
  if (has_ended(place))
    return REFUSED(ENDED);
  if (!foretold[place])
    return 0;
  if (file->faulty && block >= file->fault_block)
    return file->fault_answer == NOT_FORETOLD ? 0 : told(file->fault_answer, file->fault_where);
  return block == file->termination ? told(DONE, file->start) : told(MORE, 0);
}

void check_image(const struct file *file, uint64_t answer) {
  if (memcmp(lent_core.start + file->area.start, file->image, file->area.length * sizeof *file->image) != 0)
    fail("feed", "another image was foretold", answer, answer, 0);
}

static void feed(unsigned place) {
  struct file *file = files[place];
  struct numbers block = next_block_of(place);
  bool label = next_block[place] == 0;
  uint64_t answer = both_feed(core_length, reader.places[place].room, place, &block, foretell(place));
  uint64_t carries = carries_in(block.at, label);
  carries_seen[carries < 2 ? carries : 2]++;
  if (foretold[place] && file->faulty && next_block[place] == file->fault_block) {
    faults_seen[file->wanted]++;
    note_fault(file->wanted, answer);
    if (file->fault_answer == REFUSED_CHECKSUM) { /* it has changed nothing: the file goes on with this block, sealed by the rule */
      seal(file->blocks[file->fault_block], label);
      file->faulty = false;
      return;
    }
  }
  if (foretold[place] && !file->faulty && CLAMP_CODE(answer) == DONE)
    check_image(file, answer);
  next_block[place]++;
}

void step_feed(void) {
  unsigned place = any_held();
  if (place == PLACES)
    step_open();
  else if (next_block[place] >= files[place]->count || (has_ended(place) && one_in(&chance, 2)))
    release(place);
  else
    feed(place);
}
