/* What the calls cost, beside a peer in C with the same duties (peer.c), beside the second loader in C (tests/reader.c) and beside
   copying and summing 256 words. Nanoseconds of processor time a call, the least of many batches; the batches take turns. Run by
   bench/run.

     feed                     a line for each call, parted by tabs: its name, and the nanoseconds of library, peer, reader and copy
     feed once LOADER-CALL N  one call between begin_call and end_call, for bench/run to count its instructions; N is few or full, or
                              the file's channels, units and tables, parted by commas; or falling for open, or how many groups the
                              block of a call of that name has */
#include <math.h>
#include <string.h>

#include "block_layout.h"
#include "file.h"
#include "peer.h"
#include "reader.h"

/* How many batches, and how many calls a batch of each kind has. */
enum { BATCHES = 300, FEEDS = 20, RELEASES = 100, OPENS = 5, MAKES = 50, RESEALS = 50 };

/* The load that is fed, the first; and where one more is opened, in the last words of the core, which no load has; and the index of
   the block that is resealed, which is no label. */
enum { ROOM = 0, PLACE = 0, LAST_ROOM = ROOMS - 1, LAST_AREA = CORE_MOST - AREA_WORDS, INDEX = 1 };

static const struct entries few = {.channels = 1, .units = 1, .tables = 2};

static uint64_t desk[CLAMP_DESK_WORDS], core[CORE_MOST], peer_desk[CLAMP_DESK_WORDS], peer_core[CORE_MOST], second_core[CORE_MOST];
static uint64_t io[ENTRIES_MOST], tables[PAIRS_MOST], block[WORDS_IN_BLOCK], map[MAP_LENGTH];
static struct reader second;
static uint64_t place;
static volatile uint64_t sink, last;

/* The same answer from all, and of this code. */
static void all_answer(uint64_t answer, uint64_t peer, uint64_t reader, uint64_t code) {
  expect("feed: the library", answer, code);
  expect("feed: the peer", peer, code);
  expect("feed: the reader", reader, code);
  if (answer != peer || answer != reader) {
    fprintf(stderr, "feed: the values of the answers differ\n");
    exit(1);
  }
}

/* ---- a desk with loads, on all loaders */

static void all_feed(uint64_t code) {
  all_answer(clamp_feed(desk, CLAMP_DESK_WORDS, core, CORE_MOST, ROOM, PLACE, block, WORDS_IN_BLOCK),
             peer_feed(peer_desk, CLAMP_DESK_WORDS, peer_core, CORE_MOST, ROOM, PLACE, block, WORDS_IN_BLOCK),
             reader_feed(&second, second_core, CORE_MOST, ROOM, PLACE, block, WORDS_IN_BLOCK), code);
}

static void all_open(unsigned load, struct entries entries) {
  uint64_t room = room_of(load), area = area_of(load);
  uint64_t n = entries.channels + entries.units, m = 2 * entries.tables;
  write_lists(io, tables, entries, area, false);
  all_answer(clamp_open(desk, CLAMP_DESK_WORDS, core, CORE_MOST, room, area, AREA_WORDS, io, n, tables, m),
             peer_open(peer_desk, CLAMP_DESK_WORDS, peer_core, CORE_MOST, room, area, AREA_WORDS, io, n, tables, m),
             reader_open(&second, second_core, CORE_MOST, room, area, AREA_WORDS, io, n, tables, m), CLAMP_OPENED);
}

static void all_make(void) {
  even_map(map);
  all_answer(clamp_make(desk, CLAMP_DESK_WORDS, CORE_MOST, map, MAP_LENGTH),
             peer_make(peer_desk, CLAMP_DESK_WORDS, CORE_MOST, map, MAP_LENGTH), reader_make(&second, CORE_MOST, map, MAP_LENGTH),
             CLAMP_MADE);
}

/* A desk with this many loads, all waiting for their labels; the block is the first one's. */
static void open_desk(unsigned loads, struct entries entries) {
  all_make();
  for (unsigned load = 0; load < loads; load++)
    all_open(load, entries);
  write_label_block(block, entries);
}

/* The same with the first load's segment section read. */
static void make_desk(unsigned loads, struct entries entries) {
  open_desk(loads, entries);
  all_feed(CLAMP_MORE);
  for (unsigned i = entries_blocks(entries); i > 0; i--) {
    write_entries_block(block);
    all_feed(CLAMP_MORE);
  }
  write_segment_block(block);
  all_feed(CLAMP_MORE);
}

/* ---- a block to be resealed, by all loaders */

static void all_reseal(void) {
  all_answer(clamp_reseal(block, WORDS_IN_BLOCK, INDEX), peer_reseal(block, WORDS_IN_BLOCK, INDEX),
             reader_reseal(block, WORDS_IN_BLOCK, INDEX), CLAMP_RESEALED);
}

/* One in whose sum no carry arises: its checksum is the same by either rule. So it can be resealed again and again, and is accepted
   each time. */
static void write_unchanging_block(void) {
  write_termination_block(block);
  all_reseal();
}

/* ---- what is timed */

/* As fast as the compiler makes it. */
__attribute__((optimize("O3"))) static void floor_copy(void) {
  static uint64_t to[WORDS_IN_BLOCK];
  uint64_t sum = 0;
  memcpy(to, block, sizeof to);
  for (unsigned i = 0; i < WORDS_IN_BLOCK; i++)
    sum += to[i];
  sink = sum;
}

/* Each call on each loader. */
enum { CLAMP, PEER, READER, LOADERS };
typedef void (*const by_each[LOADERS])(void);

static void clamp_fed(void) {
  last = clamp_feed(desk, CLAMP_DESK_WORDS, core, CORE_MOST, ROOM, PLACE, block, WORDS_IN_BLOCK);
}

static void peer_fed(void) {
  last = peer_feed(peer_desk, CLAMP_DESK_WORDS, peer_core, CORE_MOST, ROOM, PLACE, block, WORDS_IN_BLOCK);
}

static void reader_fed(void) {
  last = reader_feed(&second, second_core, CORE_MOST, ROOM, PLACE, block, WORDS_IN_BLOCK);
}

static void clamp_tested(void) { last = clamp_release(desk, CLAMP_DESK_WORDS, CORE_MOST, ROOM, PLACES); }
static void peer_tested(void) { last = peer_release(peer_desk, CLAMP_DESK_WORDS, CORE_MOST, ROOM, PLACES); }
static void reader_tested(void) { last = reader_release(&second, CORE_MOST, ROOM, PLACES); }
static void clamp_made(void) { last = clamp_make(desk, CLAMP_DESK_WORDS, CORE_MOST, map, MAP_LENGTH); }
static void peer_made(void) { last = peer_make(peer_desk, CLAMP_DESK_WORDS, CORE_MOST, map, MAP_LENGTH); }
static void reader_made(void) { last = reader_make(&second, CORE_MOST, map, MAP_LENGTH); }
static void clamp_resealed(void) { last = clamp_reseal(block, WORDS_IN_BLOCK, INDEX); }
static void peer_resealed(void) { last = peer_reseal(block, WORDS_IN_BLOCK, INDEX); }
static void reader_resealed(void) { last = reader_reseal(block, WORDS_IN_BLOCK, INDEX); }

static void clamp_opened(void) {
  place = CLAMP_VALUE(
      clamp_open(desk, CLAMP_DESK_WORDS, core, CORE_MOST, LAST_ROOM, LAST_AREA, AREA_WORDS, io, ENTRIES_MOST, tables, PAIRS_MOST));
  last = clamp_release(desk, CLAMP_DESK_WORDS, CORE_MOST, LAST_ROOM, place);
}

static void peer_opened(void) {
  place = CLAMP_VALUE(peer_open(peer_desk, CLAMP_DESK_WORDS, peer_core, CORE_MOST, LAST_ROOM, LAST_AREA, AREA_WORDS, io,
                                ENTRIES_MOST, tables, PAIRS_MOST));
  last = peer_release(peer_desk, CLAMP_DESK_WORDS, CORE_MOST, LAST_ROOM, place);
}

static void reader_opened(void) {
  place = CLAMP_VALUE(
      reader_open(&second, second_core, CORE_MOST, LAST_ROOM, LAST_AREA, AREA_WORDS, io, ENTRIES_MOST, tables, PAIRS_MOST));
  last = reader_release(&second, CORE_MOST, LAST_ROOM, place);
}

static by_each fed = {clamp_fed, peer_fed, reader_fed}, tested = {clamp_tested, peer_tested, reader_tested},
               opened = {clamp_opened, peer_opened, reader_opened}, made = {clamp_made, peer_made, reader_made},
               resealed = {clamp_resealed, peer_resealed, reader_resealed};

static void row(const char *name, by_each call, unsigned calls) {
  double best[LOADERS + 1] = {INFINITY, INFINITY, INFINITY, INFINITY}; /* of each loader, and of the copy */
  for (unsigned i = 0; i < BATCHES; i++)
    for (unsigned k = 0; k <= LOADERS; k++) {
      double t = batch(k < LOADERS ? call[k] : floor_copy, calls);
      if (t < best[k])
        best[k] = t;
    }
  printf("%s", name);
  for (unsigned k = 0; k <= LOADERS; k++)
    printf("\t%.1f", best[k]);
  printf("\n");
  fflush(stdout);
}

/* ---- the rows */

static const char *const shapes[SHAPES] = {"no half changed", "right halves 000", "every half changed", "mixed"};
static const char *const calls[SHAPES] = {"plain", "right", "dense", "mixed"};

enum { NAME_MOST = 80 };

static void fed_rows(const char *where, struct entries entries) {
  char name[NAME_MOST];
  for (enum shape shape = PLAIN; shape < SHAPES; shape++) {
    unsigned words = write_group_block(block, shape, entries, 1);
    all_feed(CLAMP_MORE);
    snprintf(name, sizeof name, "feed, %s: %u words, %s", where, words, shapes[shape]);
    row(name, fed, FEEDS);
    all_feed(CLAMP_MORE); /* each one timed was accepted: this is not broken */
  }
  if (memcmp(core, peer_core, sizeof core) != 0 || memcmp(core, second_core, sizeof core) != 0 ||
      memcmp(desk, peer_desk, sizeof desk) != 0) {
    fprintf(stderr, "feed: the cores or desks differ\n");
    exit(1);
  }
  block[CHECKSUM_WORD] ^= 1;
  snprintf(name, sizeof name, "feed, %s: checksum wrong (12)", where);
  row(name, fed, FEEDS);
  all_feed(CLAMP_REFUSED_CHECKSUM);
  snprintf(name, sizeof name, "release, %s: no such place (9)", where);
  row(name, tested, RELEASES);
}

static void opened_row(const char *name, unsigned loads, bool falling) {
  make_desk(loads, full);
  write_lists(io, tables, full, LAST_AREA, falling);
  row(name, opened, OPENS);
  expect("feed", last, CLAMP_RELEASED);
}

static void resealed_row(void) {
  write_unchanging_block();
  row("reseal", resealed, RESEALS);
  all_reseal(); /* each one timed was accepted: the block is as it was */
}

static int table(void) {
  make_desk(1, few);
  fed_rows("one load", few);
  make_desk(PLACES, full);
  fed_rows("full desk", full);
  opened_row("open and release, one load, tables rising", 1, false);
  opened_row("open and release, one load, tables falling", 1, true);
  opened_row("open and release, eleven loads, tables rising", PLACES - 1, false);
  opened_row("open and release, eleven loads, tables falling", PLACES - 1, true);
  row("make", made, MAKES);
  resealed_row();
  return 0;
}

/* ---- one call, to be counted */

static bool begins(const char *text, const char *with) {
  return strncmp(text, with, strlen(with)) == 0;
}

/* Feeds a block that is taken but once: before it is fed again, to be counted, the desks are put back. */
static void once_fed(unsigned by) {
  static uint64_t kept[CLAMP_DESK_WORDS];
  static struct reader kept_second;
  memcpy(kept, desk, sizeof kept);
  kept_second = second;
  fed[by]();
  memcpy(desk, kept, sizeof desk);
  memcpy(peer_desk, kept, sizeof peer_desk);
  second = kept_second;
  begin_call();
  fed[by]();
  end_call();
}

/* Whether the call is the feed of a label, of the modification block after it, of the one after that, or of the termination block:
   then the load waits for that, and the block is it. */
static bool read_whole(const char *call, unsigned loads, struct entries entries) {
  static const char *const in_order[] = {"label", "entries", "rest"};
  enum { NAMES = sizeof in_order / sizeof in_order[0] };
  unsigned fed_before = 0;
  if (strcmp(call, "termination") == 0) {
    write_last_block(block);
    all_feed(CLAMP_MORE);
    write_termination_block(block);
    return true;
  }
  while (fed_before < NAMES && strcmp(call, in_order[fed_before]) != 0)
    fed_before++;
  if (fed_before == NAMES)
    return false;
  open_desk(loads, entries);
  for (unsigned i = 0; i < fed_before; i++) {
    all_feed(CLAMP_MORE);
    write_entries_block(block);
  }
  return true;
}

static struct entries entries_named(const char *name) {
  enum { NUMBERS = 3 };
  struct entries entries = few;
  if (strcmp(name, "full") == 0)
    return full;
  if (strchr(name, ',') != NULL &&
      sscanf(name, "%" SCNu64 ",%" SCNu64 ",%" SCNu64, &entries.channels, &entries.units, &entries.tables) != NUMBERS) {
    fprintf(stderr, "feed: %s: no three numbers\n", name);
    exit(2);
  }
  return entries;
}

static int counted(const char *call, const char *where) {
  struct entries entries = entries_named(where);
  unsigned by = begins(call, "reader-") ? READER : begins(call, "peer-") ? PEER : CLAMP;
  unsigned loads = entries.tables == full.tables ? PLACES : 1;
  call += strcspn(call, "-") + 1;
  make_desk(loads, entries);
  write_group_block(block, MIXED, entries, strcmp(call, "groups") == 0 ? (unsigned)atoi(where) : 1);
  for (enum shape shape = PLAIN; shape < MIXED; shape++)
    if (strcmp(call, calls[shape]) == 0)
      write_group_block(block, shape, entries, 1);
  if (read_whole(call, loads, entries))
    once_fed(by);
  else if (strcmp(call, "open") == 0) {
    make_desk(PLACES - 1, full);
    write_lists(io, tables, full, LAST_AREA, strcmp(where, "falling") == 0);
    once(opened[by]);
  } else if (strcmp(call, "reseal") == 0) {
    write_unchanging_block();
    once(resealed[by]);
  } else if (strcmp(call, "make") == 0)
    once(made[by]);
  else if (strcmp(call, "test") == 0)
    once(tested[by]);
  else if (strcmp(call, "floor") == 0)
    once(floor_copy);
  else {
    if (strcmp(call, "checksum") == 0)
      block[CHECKSUM_WORD] ^= 1;
    once(fed[by]);
  }
  printf("%" PRIu64 "\n", CLAMP_CODE(last));
  return 0;
}

int main(int count, char **arguments) {
  return count == ONCE_ARGUMENTS ? counted(arguments[FIRST_AT], arguments[SECOND_AT]) : table();
}
