/* where.c: the words and halves of where.h. */

#include "where.h"

#include <stdio.h>

#include "clamp.h"

/* ---- kinds of fault: name, the refusal, whether it tells a half, at how many words it must be seen, and what its word is. Where a
   fault can be at a few words alone, each of them must be seen; where it can be at any, more than one. */

enum { SOME = 2, LABEL_WORDS = 10 };

#define KINDS(X)                                                                                \
  X(AT_RECORD, REFUSED_RECORD, false, 1, "the identifier of a block")                           \
  X(AT_TYPE_FLAG, REFUSED_TYPE_FLAG, false, 1, "the type flag")                                 \
  X(AT_LABEL, REFUSED_LABEL, false, LABEL_WORDS, "a word of the label")                         \
  X(AT_LABEL_LISTS, REFUSED_ASSIGNMENTS, false, 1, "the counts of the label")                   \
  X(AT_ENTRY, REFUSED_ASSIGNMENTS, false, SOME, "an entry in the first modification block")     \
  X(AT_LATER_ENTRY, REFUSED_ASSIGNMENTS, false, SOME, "an entry in a later modification block") \
  X(AT_SECTION, REFUSED_SECTION, false, SOME, "the identifier of a section")                    \
  X(AT_GROUP, REFUSED_GROUP, false, SOME, "the identifier of a group")                          \
  X(AT_FORM, REFUSED_FORM, true, SOME, "a program word")                                        \
  X(AT_REFERENCE, REFUSED_REFERENCE, true, SOME, "a program word")                              \
  X(AT_VALUE, REFUSED_VALUE, true, SOME, "a program word")                                      \
  X(AT_START, REFUSED_START, false, 1, "the start")

#define KIND_NAME(name, code, halves, least, text) name,
enum kind { KINDS(KIND_NAME) KIND_COUNT };
#undef KIND_NAME

#define KIND_ROW(name, code, halves, least, text) {code, halves, least, text},
static const struct {
  unsigned code;
  bool halves;
  unsigned least;
  const char *text;
} kinds[KIND_COUNT] = {KINDS(KIND_ROW)};
#undef KIND_ROW

static bool seen_at[KIND_COUNT][HALVES][WORDS_IN_BLOCK], fault_seen_at[FAULT_KINDS][WORDS_IN_BLOCK];

/* ---- what can be */

/* The name, the entries in all, a word for each table and one too many, what is counted in word 253, and the name once more. */
static bool is_label_word(uint64_t word) {
  return word <= NAME_WORD + 1 || (COUNTS_WORD <= word && word <= TABLES_WORD + TYPES_CARRIED) || word == SECTIONS_WORD ||
         word == NAME_AGAIN_WORD;
}

/* A group has a word before its program words, its identifier, and at least one after them. */
static bool is_word_of(enum kind kind, uint64_t word) {
  switch (kind) {
  case AT_RECORD:
    return word == IDENTIFIER_WORD;
  case AT_TYPE_FLAG:
    return word == TYPE_FLAG_WORD;
  case AT_LABEL:
    return is_label_word(word);
  case AT_LABEL_LISTS:
    return word == COUNTS_WORD;
  case AT_ENTRY:
    return CORE_ENTRY_WORDS <= word && word <= LAST_WORD;
  case AT_FORM:
  case AT_REFERENCE:
  case AT_VALUE:
    return FIRST_WORD < word && word < LAST_WORD;
  case AT_START:
    return word == FIRST_WORD;
  default:
    return FIRST_WORD <= word && word <= LAST_WORD;
  }
}

static bool is_half_of(enum kind kind, uint64_t half) {
  return kinds[kind].halves ? half == LEFT_HALF || half == RIGHT_HALF : half == NO_HALF;
}

static bool fits(enum kind kind, uint64_t answer) {
  return kinds[kind].code == CLAMP_CODE(answer) && is_word_of(kind, CLAMP_FAULT_WORD(answer)) &&
         is_half_of(kind, CLAMP_FAULT_HALF(answer));
}

bool can_be(uint64_t answer) {
  unsigned kind = 0;
  while (kind < KIND_COUNT && !fits((enum kind)kind, answer))
    kind++;
  return kind < KIND_COUNT;
}

/* ---- what was seen */

/* The kind of a refusal that was given when this stage was due; KIND_COUNT where it can be none. */
static unsigned kind_of(enum stage due, bool later, uint64_t answer) {
  unsigned kind = 0;
  if (CLAMP_CODE(answer) == REFUSED_ASSIGNMENTS)
    kind = due == LABEL_DUE ? AT_LABEL_LISTS : later ? AT_LATER_ENTRY : AT_ENTRY;
  while (kind < KIND_COUNT && kinds[kind].code != CLAMP_CODE(answer))
    kind++;
  return kind < KIND_COUNT && fits((enum kind)kind, answer) ? kind : KIND_COUNT;
}

bool note_where(enum stage due, bool later, uint64_t answer) {
  unsigned kind = kind_of(due, later, answer);
  if (kind == KIND_COUNT)
    return false;
  seen_at[kind][CLAMP_FAULT_HALF(answer)][CLAMP_FAULT_WORD(answer)] = true;
  return true;
}

void note_fault(enum fault fault, uint64_t answer) {
  if (tells_where(CLAMP_CODE(answer)))
    fault_seen_at[fault][CLAMP_FAULT_WORD(answer)] = true;
}

static unsigned words_in(const bool seen[WORDS_IN_BLOCK]) {
  unsigned words = 0;
  for (unsigned word = 0; word < WORDS_IN_BLOCK; word++)
    words += seen[word];
  return words;
}

/* At how many words this was seen, in this half. */
static bool print_kind(enum kind kind, unsigned half) {
  static const char *const halves[HALVES] = {"", ", left half", ", right half"};
  unsigned words = words_in(seen_at[kind][half]);
  printf("words of refusal %u, %s%s: %u", kinds[kind].code, kinds[kind].text, halves[half], words);
  if (words < kinds[kind].least)
    printf(", and %u are due", kinds[kind].least);
  printf("\n");
  return words >= kinds[kind].least;
}

/* A fault of the label's tables must be seen at the words of several: a count that runs on is over its limit at one of them. */
static bool print_table_faults(void) {
  bool all = true;
  for (unsigned fault = TABLES_MORE; fault <= MANY_THEN_ORDER; fault++) {
    if (words_in(fault_seen_at[fault]) >= SOME)
      continue;
    printf("never seen at %u words: %s\n", SOME, fault_text((enum fault)fault));
    all = false;
  }
  return all;
}

bool print_where(void) {
  bool all = print_table_faults();
  for (unsigned kind = 0; kind < KIND_COUNT; kind++)
    for (unsigned half = 0; half < HALVES; half++)
      if (is_half_of((enum kind)kind, half))
        all = print_kind((enum kind)kind, half) && all;
  return all;
}
