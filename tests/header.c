/* header.c: what clamp.h says beside its calls: versions, the desk's length, names and words of the codes, where a fault is, and
   that a desk is plain numbers that may be copied, saved and brought back; and the hand deck assigned and resealed. C99, C11 and
   C++: tests/header builds it as each, and runs it with the hand deck on standard input. */
#include <stdio.h>
#include <string.h>

#include "clamp.h"
#include "hand_deck.h"

static unsigned long passed, failed;

static void check(int ok, const char *what) {
  if (ok) {
    passed++;
    return;
  }
  failed++;
  printf("header: not so: %s\n", what);
}

/* ---- versions and lengths */

static void check_numbers(void) {
  char version[64];
  uint64_t desk[CLAMP_DESK_WORDS];
  check(clamp_desk_words() == CLAMP_DESK_WORDS, "CLAMP_DESK_WORDS is what clamp_desk_words() answers");
  check(sizeof desk == 29224, "a desk has 29,224 bytes");
  sprintf(version, "%d.%d.%d", CLAMP_VERSION_MAJOR, CLAMP_VERSION_MINOR, CLAMP_VERSION_PATCH);
  check(strcmp(version, CLAMP_VERSION_STRING) == 0, "the version's string is its three numbers");
  check(CLAMP_VERSION_NUMBER == CLAMP_VERSION_MAJOR * 10000 + CLAMP_VERSION_MINOR * 100 + CLAMP_VERSION_PATCH, "the version's number");
}

/* ---- codes */

static const uint64_t refusals[] = {CLAMP_REFUSED_DESK, CLAMP_REFUSED_CORE, CLAMP_REFUSED_MAP, CLAMP_REFUSED_ROOM,
                                    CLAMP_REFUSED_HOLDS_TWO, CLAMP_REFUSED_KEPT, CLAMP_REFUSED_AREA, CLAMP_REFUSED_LISTS,
                                    CLAMP_REFUSED_PLACE, CLAMP_REFUSED_ENDED, CLAMP_REFUSED_BLOCK, CLAMP_REFUSED_CHECKSUM,
                                    CLAMP_REFUSED_RECORD, CLAMP_REFUSED_TYPE_FLAG, CLAMP_REFUSED_LABEL, CLAMP_REFUSED_ASSIGNMENTS,
                                    CLAMP_REFUSED_SECTION, CLAMP_REFUSED_GROUP, CLAMP_REFUSED_FORM, CLAMP_REFUSED_REFERENCE,
                                    CLAMP_REFUSED_VALUE, CLAMP_REFUSED_START};
static const struct {
  uint64_t name, number; /* 23 and 71 are no answers of this version */
} others[] = {{CLAMP_REFUSED_BOOK, 24},
              {CLAMP_REFUSED_TAG_UNKNOWN, 25},
              {CLAMP_REFUSED_TAG_TWICE, 26},
              {CLAMP_REFUSED_TAG_MISSING, 27},
              {CLAMP_MADE, 64},
              {CLAMP_OPENED, 65},
              {CLAMP_MORE, 66},
              {CLAMP_DONE, 67},
              {CLAMP_RELEASED, 68},
              {CLAMP_ASSIGNED, 69},
              {CLAMP_NEEDS, 70},
              {CLAMP_RESEALED, 72}};

enum { REFUSALS = sizeof refusals / sizeof refusals[0], OTHERS = sizeof others / sizeof others[0] };

/* Whether it is one of the numbers that have names. */
static int is_answer(uint64_t code) {
  unsigned i;
  for (i = 0; i < OTHERS; i++)
    if (code == others[i].number)
      return 1;
  return code >= 1 && code <= REFUSALS;
}

static uint64_t calls;
static uint64_t counted(uint64_t answer) {
  calls++;
  return answer;
}

static void check_codes(void) {
  const char *const none = clamp_text(0);
  uint64_t code, other;
  unsigned i;
  check(REFUSALS == 22, "refusals 1 to 22 have names");
  for (i = 0; i < REFUSALS; i++)
    check(refusals[i] == i + 1, "each name has its number");
  check(OTHERS == 4 + 8, "four refusals of a book and eight accepted answers have names");
  for (i = 0; i < OTHERS; i++)
    check(others[i].name == others[i].number, "each of these has its number");
  for (code = 0; code < 200; code++) {
    int named = is_answer(code);
    check((strcmp(clamp_text(code), none) != 0) == named, "just the answers of this version have words");
    check((CLAMP_IS_REFUSAL(code << 32) != 0) == (code >= 1 && code <= 63), "codes 1 to 63 are refusals");
    check((CLAMP_IS_REFUSAL((code << 32) + 0xffffffffu) != 0) == (code >= 1 && code <= 63), "whatever the value");
    for (other = 0; other < code; other++)
      if (named)
        check(strcmp(clamp_text(code), clamp_text(other)) != 0, "no two answers have the same words");
  }
  check(strcmp(clamp_text(UINT64_MAX), none) == 0, "a number that is no code has words");
  check(CLAMP_CODE(((uint64_t)67 << 32) + 65535) == 67 && CLAMP_VALUE(((uint64_t)67 << 32) + 65535) == 65535, "an answer taken apart");
  check(CLAMP_IS_REFUSAL(counted((uint64_t)12 << 32)) && calls == 1, "the macro evaluates its argument once");
  check(CLAMP_VALUE(counted(7)) + CLAMP_CODE(counted(7)) == 7 && calls == 3, "the macros evaluate their argument once");
}

/* ---- where a fault is */

/* Every word and half, put together as the header says; and the codes that tell them. */
static void check_faults(void) {
  static const uint64_t halves[] = {CLAMP_HALF_NONE, CLAMP_HALF_LEFT, CLAMP_HALF_RIGHT};
  uint64_t code, word, half;
  for (half = 0; half < 3; half++) {
    check(halves[half] == half, "each half has its number");
    for (word = 0; word < 256; word++) {
      uint64_t answer = ((uint64_t)CLAMP_REFUSED_FORM << 32) + 4 * word + half;
      check(CLAMP_FAULT_WORD(answer) == word && CLAMP_FAULT_HALF(answer) == half, "word and half taken apart");
      check(CLAMP_CODE(answer) == 19 && CLAMP_TELLS_FAULT(answer), "and the number with them");
    }
  }
  for (code = 0; code < 200; code++)
    check((CLAMP_TELLS_FAULT((code << 32) + 25) != 0) == (code >= 13 && code <= 22), "refusals 13 to 22 tell where the fault is");
  check(CLAMP_FAULT_WORD(code < 200 ? 30 : 25) == 6 && CLAMP_FAULT_HALF(24 | 1) == CLAMP_HALF_LEFT, "of any expression");
  calls = 0;
  check(CLAMP_FAULT_WORD(counted(25)) == 6 && CLAMP_FAULT_HALF(counted(25)) == CLAMP_HALF_LEFT && calls == 2, "25 is word 6, left");
  check(CLAMP_TELLS_FAULT(counted((uint64_t)22 << 32)) && calls == 3, "these macros evaluate their argument once, too");
}

/* ---- a desk that is saved and brought back */

struct state {
  uint64_t before; /* so that the two desks do not stand alike */
  uint64_t desk[CLAMP_DESK_WORDS], core[4096];
};

static struct state first, second;
static unsigned char saved[sizeof first.desk + sizeof first.core];

static uint64_t fed(struct state *state, unsigned block) {
  return clamp_feed(state->desk, CLAMP_DESK_WORDS, state->core, 4096, 0, 0, deck[block], 256);
}

static int same(void) {
  return memcmp(first.desk, second.desk, sizeof first.desk) == 0 && memcmp(first.core, second.core, sizeof first.core) == 0;
}

/* At every point of a load desk and core are saved as bytes and brought back elsewhere; both go on in the same way to the end. */
static void check_saved(void) {
  uint64_t map[16] = {0, 4096};
  unsigned point, block;
  for (point = 0; point <= 3; point++) {
    memset(&first, 0x5a, sizeof first);
    memset(&second, 0xa5, sizeof second);
    check(CLAMP_CODE(clamp_make(first.desk, CLAMP_DESK_WORDS, 4096, map, 16)) == CLAMP_MADE, "made");
    check(clamp_open(first.desk, CLAMP_DESK_WORDS, first.core, 4096, 0, 512, 64, NULL, 0, NULL, 0) == (uint64_t)CLAMP_OPENED << 32,
          "opened, with lists of length 0 at NULL");
    for (block = 0; block < point; block++)
      fed(&first, block);
    memcpy(saved, first.desk, sizeof first.desk);
    memcpy(saved + sizeof first.desk, first.core, sizeof first.core);
    memcpy(second.desk, saved, sizeof second.desk);
    memcpy(second.core, saved + sizeof second.desk, sizeof second.core);
    for (; block < 3; block++) {
      uint64_t answer = fed(&first, block);
      check(answer == ((uint64_t)(block < 2 ? CLAMP_MORE : CLAMP_DONE) << 32) + (block < 2 ? 0 : 512), "the load goes on");
      check(fed(&second, block) == answer && same(), "so does the one brought back");
    }
    check(first.core[512] == 01007, "the program's word");
    check(CLAMP_CODE(clamp_release(second.desk, CLAMP_DESK_WORDS, 4096, 0, 0)) == CLAMP_RELEASED, "released");
    check(clamp_release(first.desk, CLAMP_DESK_WORDS - 1, 4096, 0, 0) == (uint64_t)CLAMP_REFUSED_DESK << 32, "a part of a desk");
  }
}

/* ---- a fault, told by the library */

/* The hand deck's program block, with other indicators of word 6 in word 7, and so another checksum: type 011, which is not carried,
   for the left half or for the right half. */
static void check_told_fault(void) {
  static const struct {
    uint64_t indicators, checksum, half;
  } faults[] = {{UINT64_C(0540000000000), 01506451, CLAMP_HALF_LEFT}, {UINT64_C(0260000000000), 01226451, CLAMP_HALF_RIGHT}};
  uint64_t map[16] = {0, 4096}, block[256], answer;
  unsigned i;
  for (i = 0; i < 2; i++) {
    memcpy(block, deck[1], sizeof block);
    block[7] = faults[i].indicators;
    block[255] = faults[i].checksum;
    clamp_make(first.desk, CLAMP_DESK_WORDS, 4096, map, 16);
    clamp_open(first.desk, CLAMP_DESK_WORDS, first.core, 4096, 0, 512, 64, NULL, 0, NULL, 0);
    fed(&first, 0);
    answer = clamp_feed(first.desk, CLAMP_DESK_WORDS, first.core, 4096, 0, 0, block, 256);
    check(CLAMP_CODE(answer) == CLAMP_REFUSED_FORM && CLAMP_TELLS_FAULT(answer), "a type that is not carried");
    check(CLAMP_FAULT_WORD(answer) == 6 && CLAMP_FAULT_HALF(answer) == faults[i].half, "at word 6, in its half");
    answer = fed(&first, 1);
    check(answer == (uint64_t)CLAMP_REFUSED_ENDED << 32 && !CLAMP_TELLS_FAULT(answer), "then the load has ended");
  }
}

/* ---- the calls that need no desk */

/* Every value that needs can tell, put together as the header says. */
static void check_needs(void) {
  uint64_t io, tables;
  for (io = 0; io <= 128; io++) {
    int apart = 1;
    for (tables = 0; tables <= 128; tables++) {
      uint64_t blocks = (2 * io + 3 * tables + 253) / 254;
      uint64_t answer = ((uint64_t)CLAMP_NEEDS << 32) + io + 1024 * tables + 1048576 * blocks;
      apart = apart && CLAMP_NEEDS_IO(answer) == io && CLAMP_NEEDS_TABLES(answer) == tables && CLAMP_NEEDS_BLOCKS(answer) == blocks;
    }
    check(apart, "what a label needs taken apart");
  }
  calls = 0;
  check(CLAMP_NEEDS_IO(counted(1)) == 1 && CLAMP_NEEDS_TABLES(counted(1024)) == 1 && calls == 2, "these macros evaluate");
  check(CLAMP_NEEDS_BLOCKS(counted(1048576)) == 1 && calls == 3, "their argument once, too");
}

/* The hand deck has no entries: its label is all that assign takes, and an empty book gives empty lists, which may be at NULL. */
static void check_assigned(void) {
  static const uint8_t record[] = "P\006\005\005\005\005\005000001\n";
  uint64_t answer, list[1] = {7};
  check(sizeof record - 1 == CLAMP_RECORD_BYTES, "a record has 14 bytes");
  check(clamp_needs(deck[0], 256) == (uint64_t)CLAMP_NEEDS << 32, "the hand deck needs no lists");
  check(clamp_needs(NULL, 0) == (uint64_t)CLAMP_REFUSED_BLOCK << 32, "a label of length 0 at NULL");
  check(CLAMP_CODE(clamp_needs(deck[1], 256)) == CLAMP_REFUSED_CHECKSUM, "a block that is no label, and is sealed elsewhere");
  check(clamp_assign(NULL, 0, deck[0], 256, NULL, 0, NULL, 0) == (uint64_t)CLAMP_ASSIGNED << 32, "the hand deck is assigned");
  answer = clamp_assign(NULL, 0, deck[0], 512, NULL, 0, NULL, 0);
  check(CLAMP_CODE(answer) == CLAMP_REFUSED_RECORD && CLAMP_FAULT_WORD(answer) == 256, "a block over, at word 256");
  answer = clamp_assign(NULL, 0, NULL, 0, NULL, 0, NULL, 0);
  check(CLAMP_CODE(answer) == CLAMP_REFUSED_RECORD && CLAMP_FAULT_WORD(answer) == 0, "no block at all");
  check(clamp_assign(record, 14, deck[0], 256, NULL, 0, NULL, 0) == (uint64_t)CLAMP_REFUSED_TAG_UNKNOWN << 32, "no such tag");
  check(clamp_assign(record, 13, deck[0], 256, NULL, 0, NULL, 0) == (uint64_t)CLAMP_REFUSED_BOOK << 32, "a part of a record");
  check(clamp_assign(NULL, 0, deck[0], 256, list, 1, NULL, 0) == (uint64_t)CLAMP_REFUSED_BOOK << 32, "a list too long");
  check(list[0] == 7, "which is as it was");
}

/* By the rule before request #104 the hand deck's program block ended 000001146450. No carry arises in the other blocks, which are
   the same by either rule. */
static void check_resealed(void) {
  uint64_t block[256];
  unsigned i;
  for (i = 0; i < DECK_BLOCKS; i++) {
    memcpy(block, deck[i], sizeof block);
    if (i == 1)
      block[255] = 01146450;
    check(clamp_reseal(block, 256, i) == (uint64_t)CLAMP_RESEALED << 32, "resealed");
    check(memcmp(block, deck[i], sizeof block) == 0, "a resealed block of the hand deck is the one that is fed");
    check(CLAMP_CODE(clamp_reseal(block, 256, i)) == (i == 1 ? CLAMP_REFUSED_CHECKSUM : CLAMP_RESEALED), "resealed once more");
    check(clamp_reseal(block, 255, i) == (uint64_t)CLAMP_REFUSED_BLOCK << 32, "a part of a block");
    check(memcmp(block, deck[i], sizeof block) == 0, "the block is as it was");
  }
  check(clamp_reseal(NULL, 0, 0) == (uint64_t)CLAMP_REFUSED_BLOCK << 32, "a block of length 0 at NULL");
}

int main(void) {
  read_deck();
  check_numbers();
  check_codes();
  check_faults();
  check_saved();
  check_told_fault();
  check_needs();
  check_assigned();
  check_resealed();
  printf("%lu passed, %lu failed\n", passed, failed);
  return failed != 0;
}
