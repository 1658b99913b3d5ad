/* lend.c: counting, numbers by chance, and the memory that is lent. */

#include <stdio.h>
#include <string.h>

#include "desk.h"
#include "guarded.h"

/* ---- counting */

enum { TOLD_MOST = 50 };

unsigned long passed, failed;

bool count_check(bool ok, const char *here, const char *from, const char *what) {
  if (ok) {
    passed++;
    return true;
  }
  failed++;
  if (failed > TOLD_MOST)
    return false;
  printf("%s: ", here);
  if (from != NULL)
    printf("(from %s) ", from);
  printf("%s\n", what);
  return false;
}

/* ---- numbers by chance: the generator xorshift */

uint64_t seed;

uint64_t any(void) {
  seed ^= seed << 13;
  seed ^= seed >> 7;
  seed ^= seed << 17;
  return seed;
}

uint64_t below(uint64_t bound) {
  return any() % bound;
}

/* ---- lent memory: room for one number or pair more than is right */

static uint64_t *desk_end, *core_end;

uint64_t *desk, *core, desk_len, core_len;
uint64_t was_desk[DESK_WORDS + 1], was_core[CORE_MOST + 1];
uint64_t *io_end, *tables_end, *map_end;

void set_up(void) {
  desk_end = guarded_end(DESK_WORDS + 1);
  core_end = guarded_end(CORE_MOST + 1);
  io_end = guarded_end(ENTRIES_MOST + 1);
  tables_end = guarded_end(PAIRS_MOST + 2);
  map_end = guarded_end(2 * MAP_LENGTH);
}

void lend_desk(uint64_t length) {
  desk = desk_end - length;
  desk_len = length;
}

void lend_core(uint64_t length) {
  core = core_end - length;
  core_len = length;
}

const uint64_t *lend_list(uint64_t *end, const uint64_t *list, uint64_t length) {
  return length == 0 ? NULL : memcpy(end - length, list, length * sizeof *list);
}

void fill_desk(void) {
  for (uint64_t i = 0; i < desk_len; i++)
    desk[i] = any();
}

void fill_core(void) {
  for (uint64_t i = 0; i < core_len; i++)
    core[i] = any() >> (64 - BITS_IN_WORD) | 1;
}

void keep(void) {
  memcpy(was_desk, desk, desk_len * sizeof *desk);
  memcpy(was_core, core, core_len * sizeof *core);
}

bool same(const uint64_t *one, const uint64_t *other, uint64_t length) {
  return length == 0 || memcmp(one, other, length * sizeof *one) == 0;
}

bool nothing_changed(void) {
  return same(was_desk, desk, desk_len) && same(was_core, core, core_len);
}
