/* name.c: the name of a label, right or with one fault. */

#include "writer.h"

static void put_name(uint64_t *block, const unsigned characters[NAME_CHARACTERS]) {
  uint64_t *name = block + NAME_WORD;
  name[0] = name[1] = 0;
  for (int i = 0; i < NAME_CHARACTERS; i++)
    name[i / CHARACTERS_IN_WORD] = name[i / CHARACTERS_IN_WORD] << CHARACTER_BITS | characters[i];
}

static unsigned name_character(struct chance *chance) {
  unsigned which = (unsigned)below(chance, LETTERS + DIGITS + 1);
  return which == LETTERS + DIGITS ? HYPHEN : which < LETTERS ? FIRST_LETTER + which : FIRST_DIGIT + which - LETTERS;
}

/* A character that stands nowhere in a name. */
static unsigned no_character(struct chance *chance) {
  static const unsigned char gaps[4][2] = {
      {000, SPACE - 1}, {LAST_LETTER + 1, HYPHEN - 1}, {HYPHEN + 1, FIRST_DIGIT - 1}, {LAST_DIGIT + 1, 077}};
  unsigned which = (unsigned)below(chance, 4);
  return (unsigned)between(chance, gaps[which][0], gaps[which][1]);
}

enum { LAST_CHARACTER = NAME_CHARACTERS - 1 };

/* The word in which this character of the name stands. */
static unsigned name_word(unsigned character) {
  return NAME_WORD + character / CHARACTERS_IN_WORD;
}

/* A character that no name has, anywhere but at its start: in either word, or in the one that is wanted. */
static void wrong_character(struct writer *writer, unsigned characters[NAME_CHARACTERS]) {
  struct chance *chance = writer->chance;
  unsigned first = (unsigned)between(chance, 1, CHARACTERS_IN_WORD - 1);
  unsigned second = (unsigned)between(chance, CHARACTERS_IN_WORD, LAST_CHARACTER), either = one_in(chance, 2) ? first : second;
  if (fires_at(writer, NAME_FIRST_WORD, name_word(first)))
    characters[first] = no_character(chance);
  if (fires_at(writer, NAME_SECOND_WORD, name_word(second)))
    characters[second] = no_character(chance);
  if (fires_at(writer, LABEL_THEN_TYPE_FLAG, name_word(either)))
    characters[either] = no_character(chance);
}

/* A space, and after it the name goes on: the fault is the next character that is no space. */
static void gap_in_name(struct writer *writer, unsigned characters[NAME_CHARACTERS]) {
  struct chance *chance = writer->chance;
  bool across = wants(writer, NAME_GAP_ACROSS);
  unsigned space = (unsigned)between(chance, 1, across ? CHARACTERS_IN_WORD - 1 : LAST_CHARACTER - 1);
  unsigned after = (unsigned)between(chance, across ? CHARACTERS_IN_WORD : space + 1, LAST_CHARACTER), next = space + 1;
  if (!across && !wants(writer, NAME_GAP))
    return;
  characters[space] = SPACE;
  for (unsigned i = space; across && i < CHARACTERS_IN_WORD; i++)
    characters[i] = SPACE;
  characters[after] = name_character(chance);
  while (characters[next] == SPACE)
    next++;
  mark(writer->file, 0, where(name_word(next), NO_HALF));
}

void write_name(struct writer *writer) {
  struct chance *chance = writer->chance;
  unsigned characters[NAME_CHARACTERS], length = (unsigned)between(chance, 1, NAME_CHARACTERS);
  for (unsigned i = 0; i < NAME_CHARACTERS; i++)
    characters[i] = i < length ? name_character(chance) : SPACE;
  while (characters[0] == HYPHEN)
    characters[0] = name_character(chance);
  if (fires_at(writer, NAME_START, NAME_WORD))
    characters[0] = one_in(chance, 3) ? SPACE : one_in(chance, 2) ? HYPHEN : no_character(chance);
  wrong_character(writer, characters);
  gap_in_name(writer, characters);
  put_name(block_of(writer), characters);
}
