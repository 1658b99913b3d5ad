/* How much stack each call takes. The call runs on a stack that was filled with a pattern; what is no longer pattern was used.
   Prints for each call its name, a tab, and the most of many, in bytes below the caller's own frame (with the return address). Run
   by bench/run and by tests/stack. */
#include <string.h>
#include <ucontext.h>

#include "block_layout.h"
#include "books.h"
#include "reader.h"

enum { STACK_BYTES = 65536, STACK_ALIGNMENT = 64, PATTERN = 0xa5 };

static uint64_t desk[CLAMP_DESK_WORDS], core[CORE_MOST], io[ENTRIES_MOST], tables[PAIRS_MOST], block[WORDS_IN_BLOCK];
static uint64_t map[MAP_LENGTH], answer;
static _Alignas(STACK_ALIGNMENT) unsigned char stack[STACK_BYTES];
static unsigned char *from;
static ucontext_t here, there;
static void (*called)(void);

static uint64_t room, place, area, words_lent, number;
static uint64_t front[FRONT_WORDS_MOST], front_words, book_bytes;
static uint8_t book[BOOK_BYTES_MOST];

static void make(void) { answer = clamp_make(desk, CLAMP_DESK_WORDS, CORE_MOST, map, MAP_LENGTH); }

static void open(void) {
  answer = clamp_open(desk, CLAMP_DESK_WORDS, core, CORE_MOST, room, area, AREA_WORDS, io, ENTRIES_MOST, tables, PAIRS_MOST);
}

static void feed(void) { answer = clamp_feed(desk, CLAMP_DESK_WORDS, core, CORE_MOST, room, place, block, WORDS_IN_BLOCK); }
static void release(void) { answer = clamp_release(desk, CLAMP_DESK_WORDS, CORE_MOST, room, place); }
static void reseal(void) { answer = clamp_reseal(block, words_lent, number); }
static void words(void) { answer = clamp_desk_words(); }
static void needs(void) { answer = clamp_needs(front, words_lent); }
static void assign(void) {
  answer = clamp_assign(book, book_bytes, front, front_words, io, ENTRIES_MOST, tables, PAIRS_MOST);
}

static void run(void) {
  __asm__ volatile("mov %%rsp, %0" : "=r"(from));
  called();
}

static unsigned depth(void (*call)(void)) {
  unsigned untouched = 0;
  memset(stack, PATTERN, sizeof stack);
  called = call;
  getcontext(&there);
  there.uc_stack.ss_sp = stack;
  there.uc_stack.ss_size = sizeof stack;
  there.uc_link = &here;
  makecontext(&there, run, 0);
  swapcontext(&here, &there);
  while (stack[untouched] == PATTERN)
    untouched++;
  return (unsigned)(from - (stack + untouched));
}

enum { MAKE, OPEN, FEED, RELEASE, RESEAL, NEEDS_CALL, ASSIGN, WORDS, CALLS };

static unsigned most[CALLS];

static void note(unsigned which, void (*call)(void), uint64_t code) {
  unsigned d = depth(call);
  expect("stack", answer, code);
  if (d > most[which])
    most[which] = d;
}

static void seal(unsigned at) { block[at] = reader_checksum(block, at); }

/* Up to the groups of the segment section. The file has one table section besides. */
static void feed_head(void) {
  write_label_block(block, full);
  block[SECTIONS_WORD] = put(block[SECTIONS_WORD], 15, 0, 1);
  seal(LABEL_CHECKSUM_WORD);
  note(FEED, feed, CLAMP_MORE);
  for (unsigned i = entries_blocks(full); i > 0; i--) {
    write_entries_block(block);
    note(FEED, feed, CLAMP_MORE);
  }
  write_segment_block(block);
  note(FEED, feed, CLAMP_MORE);
}

/* The section of table 0: its word, and one group, its last, of which every half is changed. A group of a block with many is short
   enough for the table. */
static void write_table_block(void) {
  enum { MANY_GROUPS = 32, GROUP_WORD = FIRST_WORD + 1 };
  unsigned words, past;
  write_group_block(block, DENSE, full, MANY_GROUPS);
  words = 1 + (unsigned)part(block[FIRST_WORD], 33, 26);
  past = GROUP_WORD + words;
  memmove(block + GROUP_WORD, block + FIRST_WORD, words * sizeof *block);
  memset(block + past, 0, (CHECKSUM_WORD - past) * sizeof *block);
  block[FIRST_WORD] = put(0, 35, 34, KIND_TABLE_SECTION) | put(0, 33, 18, TABLE_WORDS);
  block[GROUP_WORD] |= bit_at(17) | bit_at(16);
  seal(CHECKSUM_WORD);
}

/* The load at place 0, to its end: every shape of program block, each refused once besides (12), and a table section. */
static void feed_file(void) {
  feed_head();
  for (enum shape shape = PLAIN; shape < SHAPES; shape++) {
    write_group_block(block, shape, full, 1);
    note(FEED, feed, CLAMP_MORE);
    block[CHECKSUM_WORD] ^= 1;
    note(FEED, feed, CLAMP_REFUSED_CHECKSUM);
  }
  write_last_block(block);
  note(FEED, feed, CLAMP_MORE);
  write_table_block();
  note(FEED, feed, CLAMP_MORE);
  write_termination_block(block);
  note(FEED, feed, CLAMP_DONE);
  note(FEED, feed, CLAMP_REFUSED_ENDED);
}

/* A field that is refused: bits of one of the first program words of a dense group, and what they become. */
static const struct fault {
  unsigned word, high, low;
  uint64_t value, code;
} faults[] = {
    {1, 33, 33, 1, CLAMP_REFUSED_FORM},                /* left, type 001 with bit 15 set */
    {2, 15, 0, ENTRIES_MOST, CLAMP_REFUSED_REFERENCE}, /* right, type 111, past the last unit */
    {0, 15, 0, VALUE_MOST, CLAMP_REFUSED_VALUE},       /* right, type 000, and no area but the first is at 0 */
};

/* The group in which it stands: of the segment section; of the same with an indicator word too many, which is refused first; of a
   table section. */
enum group { SEGMENT, MISCOUNTED, TABLE, GROUPS };

static void feed_fault(struct fault fault, enum group group) {
  unsigned at = FIRST_WORD + (group == TABLE) + 1 + fault.word;
  feed_head();
  if (group == TABLE) {
    write_last_block(block);
    note(FEED, feed, CLAMP_MORE);
    write_table_block();
  } else {
    write_group_block(block, DENSE, full, 1);
  }
  block[at] = put(block[at], fault.high, fault.low, fault.value);
  if (group == MISCOUNTED)
    block[FIRST_WORD] = put(block[FIRST_WORD], 25, 18, part(block[FIRST_WORD], 25, 18) - 1);
  seal(CHECKSUM_WORD);
  note(FEED, feed, group == MISCOUNTED ? CLAMP_REFUSED_GROUP : fault.code);
}

/* Where a field is refused the words of its group are gone through again. Each breaks its load: those from this place on. */
static void feed_faults(uint64_t first) {
  enum { FAULTS = sizeof faults / sizeof faults[0] };
  for (unsigned k = 0; k < GROUPS * FAULTS; k++) {
    place = first + k;
    room = room_of(place);
    feed_fault(faults[k % FAULTS], (enum group)(k / FAULTS));
  }
}

/* A block as the label, and as another: resealed where carries arise in its sum, and then refused (12); resealed where none does;
   with a word that is too large, and a word short (11). */
static void reseal_blocks(void) {
  for (number = 0; number < 2; number++) {
    unsigned at = number == 0 ? LABEL_CHECKSUM_WORD : CHECKSUM_WORD;
    words_lent = WORDS_IN_BLOCK;
    write_group_block(block, PLAIN, full, 1);
    block[at] = reader_old_checksum(block, at);
    note(RESEAL, reseal, CLAMP_RESEALED);
    note(RESEAL, reseal, CLAMP_REFUSED_CHECKSUM);
    memset(block, 0, sizeof block);
    note(RESEAL, reseal, CLAMP_RESEALED);
    block[LAST_WORD] = bit_at(BITS_IN_WORD);
    note(RESEAL, reseal, CLAMP_REFUSED_BLOCK);
    words_lent = WORDS_IN_BLOCK - 1;
    note(RESEAL, reseal, CLAMP_REFUSED_BLOCK);
  }
}

/* A block of the full file is sealed anew. */
static void seal_front(uint64_t block) {
  unsigned at = block == 0 ? LABEL_CHECKSUM_WORD : CHECKSUM_WORD;
  front[WORDS_IN_BLOCK * block + at] = reader_checksum(front + WORDS_IN_BLOCK * block, at);
}

/* Files that are refused: one word changed, and what is then due before the block is sealed anew, and after. */
static const struct change {
  unsigned word;
  uint64_t value, code, sealed_code;
} changes[] = {{TYPE_FLAG_WORD, 0, CLAMP_REFUSED_CHECKSUM, CLAMP_REFUSED_TYPE_FLAG},
               {NAME_WORD, 0, CLAMP_REFUSED_CHECKSUM, CLAMP_REFUSED_LABEL},
               {COUNTS_WORD, 1, CLAMP_REFUSED_CHECKSUM, CLAMP_REFUSED_LABEL},
               {NAME_AGAIN_WORD, 0, CLAMP_REFUSED_CHECKSUM, CLAMP_REFUSED_LABEL},
               {SECTIONS_WORD, UINT64_C(1) << BITS_IN_WORD, CLAMP_REFUSED_BLOCK, CLAMP_REFUSED_BLOCK},
               {3 * WORDS_IN_BLOCK, PRORC, CLAMP_REFUSED_CHECKSUM, CLAMP_REFUSED_RECORD}};

static void note_front(struct change change, uint64_t code) {
  if (change.word < WORDS_IN_BLOCK)
    note(NEEDS_CALL, needs, code);
  note(ASSIGN, assign, code);
}

static void refuse_fronts(void) {
  for (unsigned i = 0; i < sizeof changes / sizeof changes[0]; i++) {
    front_words = write_front(front, full);
    words_lent = WORDS_IN_BLOCK;
    front[changes[i].word] = changes[i].value;
    note_front(changes[i], changes[i].code);
    seal_front(changes[i].word / WORDS_IN_BLOCK);
    note_front(changes[i], changes[i].sealed_code);
  }
}

/* The full file and its book of 384 records; then books that are refused, of up to 4,096 records, and files. */
static void assign_books(void) {
  front_words = write_front(front, full);
  words_lent = WORDS_IN_BLOCK;
  book_bytes = write_whole_book(book, full);
  note(NEEDS_CALL, needs, CLAMP_NEEDS);
  note(ASSIGN, assign, CLAMP_ASSIGNED);
  book_bytes -= RECORD_BYTES;
  note(ASSIGN, assign, CLAMP_REFUSED_TAG_MISSING);
  for (uint64_t at = tags_in(full); at < RECORDS_MOST; at++)
    write_record(book, at, at % tags_in(full), full);
  book_bytes = BOOK_BYTES_MOST;
  note(ASSIGN, assign, CLAMP_REFUSED_TAG_TWICE);
  write_record(book, RECORDS_MOST - 1, tags_in(full), full);
  note(ASSIGN, assign, CLAMP_REFUSED_TAG_UNKNOWN);
  book[BOOK_BYTES_MOST - 1] = 0;
  note(ASSIGN, assign, CLAMP_REFUSED_BOOK);
  front_words--;
  note(ASSIGN, assign, CLAMP_REFUSED_BLOCK);
  front_words = WORDS_IN_BLOCK;
  note(ASSIGN, assign, CLAMP_REFUSED_RECORD);
  front_words = 0;
  note(ASSIGN, assign, CLAMP_REFUSED_RECORD);
  words_lent = 0;
  note(NEEDS_CALL, needs, CLAMP_REFUSED_BLOCK);
  refuse_fronts();
}

int main(void) {
  static const char *const names[CALLS] = {"make", "open", "feed", "release", "reseal", "needs", "assign", "desk_words"};
  even_map(map);
  note(MAKE, make, CLAMP_MADE);
  for (unsigned load = 0; load < PLACES; load++) {
    room = room_of(load);
    area = area_of(load);
    write_lists(io, tables, full, area, load % 2 == 1);
    note(OPEN, open, CLAMP_OPENED);
  }
  note(OPEN, open, CLAMP_REFUSED_HOLDS_TWO);
  room = place = 0;
  feed_file();
  feed_faults(2);
  room = place = 1;
  write_label_block(block, full);
  block[TYPE_FLAG_WORD] = 0;
  seal(LABEL_CHECKSUM_WORD);
  note(FEED, feed, CLAMP_REFUSED_TYPE_FLAG);
  note(RELEASE, release, CLAMP_RELEASED);
  note(RELEASE, release, CLAMP_REFUSED_PLACE);
  reseal_blocks();
  assign_books();
  note(WORDS, words, CLAMP_CODE(CLAMP_DESK_WORDS));
  for (unsigned i = 0; i < CALLS; i++)
    printf("%s\t%u\n", names[i], most[i]);
  return 0;
}
