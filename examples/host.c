/* host.c: a small host with tapes. Two rooms hold two loads each, of one program at four addresses, and the host feeds the four in
   turn, block by block. The first is assigned its channel and its table by a facility book, the others by lists. One tape is
   misread once and read again. One load is assigned a channel that does not exist, and is refused. One tape is cut off. The host
   says how each load ended, and why, and prints the areas of those that are complete. Then room 0 loads another program, the worked
   file of worked_file.h, which has something of all that the loader carries. Last, room 1 loads the first program once more, from a
   tape with a fault in it, and the host says in which word and half.

   Build it with the header and the library that `make lib` puts into build/:

     cc -Ibuild examples/host.c build/libclamp.a -o host

   or, after `make install`, with what pkg-config says of them:

     cc examples/host.c $(pkg-config --cflags --libs clamp) -o host */

#include <inttypes.h>
#include <stdio.h>
#include <stdlib.h>
#include <string.h>

#include "clamp.h"
#include "worked_file.h"

enum { CORE_WORDS = 4096, BLOCK_WORDS = 256, BLOCKS = 4, LOADS = 4, AGAIN_MOST = 3 };
enum { AREA_WORDS = 12, TABLE_WORDS = 4 };

#define COUNT(array) (sizeof(array) / sizeof(array)[0])

/* The program file, in octal; words that are not named are zero, and seal sets the checksums. It has one channel reference
   and one core table of at least two words. */
static const struct file_word program[] = {
    /* the label: the name SQUARES, DIRECT ROC simple, two modification tables, one segment, one table section */
    {0, 0, 0302632062712},
    {0, 1, 0300505050505},
    {0, 2, 0100000000000},
    {0, 3, 0000002000002},
    {0, 4, 0100000000001},
    {0, 5, 0600000000001},
    {0, 253, 0000001000001},
    {0, 255, 0302632062712},
    /* the modification block: the tag CH of the channel, in two words; the tags SQ and LSQ of the table and its least length, 2 */
    {1, 0, 0502224112710},
    {1, 1, 0101505050505},
    {1, 3, 0302605050505},
    {1, 4, 0213026050505},
    {1, 5, 0000000000002},
    /* the program block: the segment section has an IBANK of 4 words at 0 and a DBANK of 2 words at 4 */
    {2, 0, 0502527242710},
    {2, 1, 0000004000000},
    {2, 2, 0000002000004},
    /* a group of the IBANK: 4 program words, then their indicators */
    {2, 5, 0402404000000},
    {2, 6, 0100000000004}, /* right: 4 relative to the program, the first word of the DBANK (type 000) */
    {2, 7, 0750000000000}, /* left: the channel with number 0 (type 100) */
    {2, 8, 0100000000001}, /* right: the address of table 0, plus 1 (type 010) */
    {2, 9, 0740400000000}, /* right: the address of table 0 plus its length (type 001) */
    {2, 10, 0214122200000},
    /* a group of the DBANK, the section's last: 2 words that are not changed */
    {2, 11, 0401402600004},
    {2, 12, 0000000000144},
    {2, 13, 0777777777633},
    {2, 14, 0000000000000},
    /* a table section with one group: 2 words of table 0 */
    {2, 15, 0200002000000},
    {2, 16, 0401402600000},
    {2, 17, 0000000020000}, /* right: the length of table 0 (type 010) */
    {2, 18, 0000000000061},
    {2, 19, 0240000000000},
    /* the termination block: the start is the program's word 1 */
    {3, 0, 0503127222710},
    {3, 1, 0000000000001},
};

/* The facility book of the first load: the channel CH is number 3, and the table SQ, whose length tag is LSQ, has 4 words at 520.
   A record has 14 bytes: its kind, six Fieldata codes, here in octal, six digits and a newline. examples/book makes this book of the
   lines `P CH 3`, `A SQ 520` and `L LSQ 4`. */
static const char book[] = "P\010\015\005\005\005\005" "000003\n"
                           "A\030\026\005\005\005\005" "000520\n"
                           "L\021\030\026\005\005\005" "000004\n";

/* A tape: how many blocks it has, where they stand, the next to be read, and which is misread the first time; where none is, one
   past the last. */
struct tape {
  unsigned count;
  uint64_t (*blocks)[BLOCK_WORDS];
  unsigned next, misread;
};

/* A load: the room, its area, the two lists, and its tape; then the place that open gives, the last answer, which keeps the reason
   of a refusal, how often its block was read again, whether the place is held, and whether no block will follow. */
struct load {
  uint64_t room, area, size;
  const uint64_t *io;
  uint64_t io_length;
  const uint64_t *tables;
  uint64_t tables_length;
  struct tape tape;
  uint64_t place, answer;
  unsigned again;
  int held, ended;
};

static uint64_t squares[BLOCKS][BLOCK_WORDS], worked[WORKED_BLOCKS][BLOCK_WORDS], faulty[BLOCKS][BLOCK_WORDS];
static uint64_t core[CORE_WORDS];
static uint64_t *desk;

/* Each has one channel, and its table in the last words of its area. The first has its lists from the book. */
#define LISTS(channel, table)                                                                                                      \
  .io = (const uint64_t[]){channel}, .io_length = 1, .tables = (const uint64_t[]){table, TABLE_WORDS}, .tables_length = 2

static struct load loads[LOADS] = {
    {.room = 0, .area = 01000, .size = AREA_WORDS, .tape = {BLOCKS, squares, 0, 2}},
    {.room = 1, .area = 05000, .size = AREA_WORDS, LISTS(14, 05010), .tape = {BLOCKS, squares, 0, BLOCKS}},
    {.room = 0, .area = 02000, .size = AREA_WORDS, LISTS(16, 02010), .tape = {BLOCKS, squares, 0, BLOCKS}},
    {.room = 1, .area = 06000, .size = AREA_WORDS, LISTS(5, 06010), .tape = {2, squares, 0, BLOCKS}},
};

static struct load another = {
    .room = 0,
    .area = WORKED_AREA,
    .size = WORKED_SIZE,
    .io = worked_io,
    .io_length = COUNT(worked_io),
    .tables = worked_tables,
    .tables_length = COUNT(worked_tables),
    .tape = {WORKED_BLOCKS, worked, 0, WORKED_BLOCKS},
};

static struct load last = {.room = 1, .area = 05000, .size = AREA_WORDS, LISTS(14, 05010), .tape = {BLOCKS, faulty, 0, BLOCKS}};

/* The checksum: the sum of the other words, each carry out of bit 35 added back at bit 0; then its upper half added to its lower. It
   is word 254 of a label and word 255 elsewhere. */
static void seal(uint64_t *block, unsigned at) {
  uint64_t sum = 0;
  block[at] = 0;
  for (unsigned i = 0; i < BLOCK_WORDS; i++) {
    sum += block[i];
    sum = (sum & 0777777777777) + (sum >> 36);
  }
  block[at] = (sum >> 18 & 0777777) + (sum & 0777777);
}

static void write_words(uint64_t (*blocks)[BLOCK_WORDS], const struct file_word *words, size_t count) {
  for (size_t i = 0; i < count; i++)
    blocks[words[i].block][words[i].at] = words[i].value;
}

static void write_files(void) {
  write_words(squares, program, COUNT(program));
  for (unsigned i = 0; i < BLOCKS; i++)
    seal(squares[i], i == 0 ? 254 : 255);
  write_words(worked, worked_file, COUNT(worked_file)); /* which has its checksums */
  memcpy(faulty, squares, sizeof faulty);
  faulty[2][10] = 0561412220000; /* the indicators of words 6 to 9: the left half of word 6 has type 011, which is not carried */
  seal(faulty[2], 255);
}

/* The next block of the tape; 0 at the tape's end. */
static int read_block(struct tape *tape, uint64_t *block) {
  if (tape->next == tape->count)
    return 0;
  memcpy(block, tape->blocks[tape->next], sizeof tape->blocks[0]);
  if (tape->next == tape->misread) {
    block[100] ^= 1;
    tape->misread = tape->count;
  }
  tape->next++;
  return 1;
}

static void back_up(struct tape *tape) { tape->next--; }

/* The word of a fault, and the half where there is one. */
static void print_fault(uint64_t answer) {
  printf(", word %" PRIu64, CLAMP_FAULT_WORD(answer));
  if (CLAMP_FAULT_HALF(answer) == CLAMP_HALF_LEFT)
    printf(", left half");
  if (CLAMP_FAULT_HALF(answer) == CLAMP_HALF_RIGHT)
    printf(", right half");
}

/* A refusal has its number and its reason, and where the fault is if it tells that; to other answers that have one the value is
   added. */
static void print_answer(uint64_t answer) {
  if (CLAMP_IS_REFUSAL(answer))
    printf("refused %" PRIu64 ": ", CLAMP_CODE(answer));
  printf("%s", clamp_text(CLAMP_CODE(answer)));
  if (CLAMP_TELLS_FAULT(answer))
    print_fault(answer);
  if (CLAMP_CODE(answer) == CLAMP_OPENED)
    printf(", place %" PRIu64, CLAMP_VALUE(answer));
  if (CLAMP_CODE(answer) == CLAMP_DONE)
    printf(", start %06" PRIo64, CLAMP_VALUE(answer));
  if (CLAMP_CODE(answer) == CLAMP_NEEDS)
    printf(", I/O references %" PRIu64 ", core tables %" PRIu64 ", modification blocks %" PRIu64, CLAMP_NEEDS_IO(answer),
           CLAMP_NEEDS_TABLES(answer), CLAMP_NEEDS_BLOCKS(answer));
  printf("\n");
}

/* The words of an area that are not zero. */
static void print_area(uint64_t area, uint64_t size) {
  for (uint64_t at = area; at < area + size; at++)
    if (core[at] != 0)
      printf("%06" PRIo64 ": %012" PRIo64 "\n", at, core[at]);
}

/* Gives a load its lists by the book: the label, the tape's first block, tells how long they are, and how many modification blocks
   come after it. 0 where label, blocks or book are refused. */
static int assign_load(struct load *load) {
  static uint64_t io[128], tables[256]; /* as long as they can be */
  uint64_t blocks;
  load->answer = clamp_needs(load->tape.blocks[0], BLOCK_WORDS);
  print_answer(load->answer);
  if (CLAMP_IS_REFUSAL(load->answer))
    return 0;
  load->io = io;
  load->io_length = CLAMP_NEEDS_IO(load->answer);
  load->tables = tables;
  load->tables_length = 2 * CLAMP_NEEDS_TABLES(load->answer);
  blocks = 1 + CLAMP_NEEDS_BLOCKS(load->answer);
  if (blocks > load->tape.count) /* a tape that is cut off: assign will tell */
    blocks = load->tape.count;
  load->answer = clamp_assign((const uint8_t *)book, sizeof book - 1, load->tape.blocks[0], blocks * BLOCK_WORDS, io,
                              load->io_length, tables, load->tables_length);
  print_answer(load->answer);
  return CLAMP_CODE(load->answer) == CLAMP_ASSIGNED;
}

/* Opens a load; one that is refused has ended. */
static void open_load(struct load *load) {
  load->answer = clamp_open(desk, CLAMP_DESK_WORDS, core, CORE_WORDS, load->room, load->area, load->size, load->io, load->io_length,
                            load->tables, load->tables_length);
  load->place = CLAMP_VALUE(load->answer);
  load->held = CLAMP_CODE(load->answer) == CLAMP_OPENED;
  load->ended = !load->held;
  printf("room %" PRIu64 ", area %06" PRIo64 ": ", load->room, load->area);
  print_answer(load->answer);
}

/* Feeds a load its tape's next block. After refusal 12 nothing is changed, and the tape is backed up so that the block is read
   again. The load ends with its tape, with an answer that is not `more`, or with a block that never reads well. */
static void feed_load(struct load *load) {
  uint64_t block[BLOCK_WORDS];
  if (!read_block(&load->tape, block)) {
    load->ended = 1;
    return;
  }
  load->answer = clamp_feed(desk, CLAMP_DESK_WORDS, core, CORE_WORDS, load->room, load->place, block, BLOCK_WORDS);
  printf("place %" PRIu64 ", block %u: ", load->place, load->tape.next - 1);
  print_answer(load->answer);
  if (CLAMP_CODE(load->answer) == CLAMP_REFUSED_CHECKSUM && load->again < AGAIN_MOST) {
    load->again++;
    back_up(&load->tape);
  } else if (CLAMP_CODE(load->answer) == CLAMP_MORE)
    load->again = 0;
  else
    load->ended = 1;
}

/* Says how a load ended, and releases the place if it was given one. */
static void close_load(const struct load *load) {
  printf("room %" PRIu64 ", area %06" PRIo64 ": ", load->room, load->area);
  if (CLAMP_IS_REFUSAL(load->answer) || CLAMP_CODE(load->answer) == CLAMP_DONE)
    print_answer(load->answer);
  else
    printf("the tape ended before the load was complete\n");
  if (CLAMP_CODE(load->answer) == CLAMP_DONE)
    print_area(load->area, load->size);
  if (load->held)
    print_answer(clamp_release(desk, CLAMP_DESK_WORDS, CORE_WORDS, load->room, load->place));
}

/* Opens these loads, feeds them in turn until no block will follow, and closes them. */
static void run_loads(struct load *run, unsigned count) {
  unsigned waiting = count;
  for (unsigned i = 0; i < count; i++)
    open_load(&run[i]);
  while (waiting > 0) {
    waiting = 0;
    for (unsigned i = 0; i < count; i++)
      if (!run[i].ended) {
        feed_load(&run[i]);
        waiting++;
      }
  }
  for (unsigned i = 0; i < count; i++)
    close_load(&run[i]);
}

int main(void) {
  static const uint64_t map[16] = {0, 2048, 2048, 2048}; /* rooms 0 and 1 have half of the core each, the others no words */
  uint64_t answer;
  if (clamp_desk_words() != CLAMP_DESK_WORDS) {
    fprintf(stderr, "host: clamp.h is not this library's\n");
    return 1;
  }
  desk = malloc(CLAMP_DESK_WORDS * sizeof *desk);
  if (desk == NULL) {
    fprintf(stderr, "host: no memory for a desk\n");
    return 1;
  }
  write_files();
  answer = clamp_make(desk, CLAMP_DESK_WORDS, CORE_WORDS, map, 16);
  print_answer(answer);
  if (CLAMP_IS_REFUSAL(answer) || !assign_load(&loads[0])) {
    free(desk);
    return 1;
  }
  run_loads(loads, LOADS);
  run_loads(&another, 1);
  run_loads(&last, 1);
  free(desk);
  return 0;
}
