/* worked.c: the files of crates/worked_file through the library and the second loader. Answers, with the word and half of each
   refusal, and cores must be those that the theorems of that crate say. tests/worked writes worked_words.h, the words of the
   definitions, and runs this. */

#include <stdio.h>
#include <string.h>

#include "clamp.h"
#include "reader.h"
#include "worked_file.h"

/* The refusal's number, its word and half, the block that is refused, and the words of it that are not the worked file's. */
struct faulty {
  unsigned number, word, half, block;
  struct file_word words[4];
};

#include "tests/worked_words.h"

#define COUNT(array) (sizeof(array) / sizeof(array)[0])

enum { CORE_WORDS = 4096, OLD_WORD = 5, FAULTS = 55, BLOCKS = 5, IDENTIFIER_WORD = 0, CHECKSUM_WORD = 255 };

/* The file with 85 core tables; what the blocks are that the definitions name one after another. */
enum { SPLIT_AREA = 02000, SPLIT_TABLES = 85, SPLIT_IBANK = 2, SPLIT_SIZE = SPLIT_IBANK + SPLIT_TABLES + 1 };
enum { SPLIT_LABEL, SPLIT_LAST_ENTRIES, SPLIT_OTHER_ENTRIES, SPLIT_PROGRAM, SPLIT_TERMINATION };

typedef uint64_t block_words[WORDS_IN_BLOCK];

/* What a load is opened with. */
struct given {
  struct run area;
  const uint64_t *io, *tables;
  uint64_t io_length, tables_length;
};

static const struct given worked = {{WORKED_AREA, WORKED_SIZE}, spec_io, spec_tables, COUNT(spec_io), COUNT(spec_tables)};

static unsigned long passed, failed;
static uint64_t desk[CLAMP_DESK_WORDS], core[CORE_WORDS], mirror[CORE_WORDS];
static struct reader reader;

static void check(bool ok, const char *what, unsigned which) {
  if (ok) {
    passed++;
    return;
  }
  failed++;
  printf("not so: %s %u\n", what, which);
}

static void write_words(block_words *blocks, const struct file_word *words, size_t count) {
  for (size_t i = 0; i < count; i++)
    blocks[words[i].block][words[i].at] = words[i].value;
}

/* ---- both loaders */

/* A fresh desk and core for each, all of it room 0's, and the load opened at place 0. */
static void open_both(const struct given *given) {
  static const uint64_t map[MAP_LENGTH] = {0, CORE_WORDS};
  for (unsigned i = 0; i < CORE_WORDS; i++)
    core[i] = mirror[i] = OLD_WORD;
  check(clamp_make(desk, CLAMP_DESK_WORDS, CORE_WORDS, map, MAP_LENGTH) == told(MADE, 0), "made", 0);
  check(reader_make(&reader, CORE_WORDS, map, MAP_LENGTH) == told(MADE, 0), "made by the second loader", 0);
  check(clamp_open(desk, CLAMP_DESK_WORDS, core, CORE_WORDS, 0, given->area.start, given->area.length, given->io, given->io_length,
                   given->tables, given->tables_length) == told(OPENED, 0),
        "opened", 0);
  check(reader_open(&reader, mirror, CORE_WORDS, 0, given->area.start, given->area.length, given->io, given->io_length,
                    given->tables, given->tables_length) == told(OPENED, 0),
        "opened by the second loader", 0);
}

static void feed_both(const uint64_t *block, uint64_t answer, unsigned which) {
  check(clamp_feed(desk, CLAMP_DESK_WORDS, core, CORE_WORDS, 0, 0, block, WORDS_IN_BLOCK) == answer, "the answer to block", which);
  check(reader_feed(&reader, mirror, CORE_WORDS, 0, 0, block, WORDS_IN_BLOCK) == answer, "the second loader's to block", which);
}

/* The area of this core holds these words, and every other word is as it was. */
static void check_core(const uint64_t *words, struct run area, const uint64_t *image, const char *what) {
  unsigned i = 0;
  while (i < CORE_WORDS && words[i] == (i - area.start < area.length ? image[i - area.start] : OLD_WORD))
    i++;
  check(i == CORE_WORDS, what, i);
}

static void check_cores(struct run area, const uint64_t *image) {
  check_core(core, area, image, "core word");
  check_core(mirror, area, image, "the second loader's core word");
}

/* Five blocks to the end; the start is this word of the area. */
static void check_file(const struct given *given, const block_words *blocks, uint64_t start, const uint64_t *image) {
  open_both(given);
  for (unsigned i = 0; i + 1 < BLOCKS; i++)
    feed_both(blocks[i], told(MORE, 0), i);
  feed_both(blocks[BLOCKS - 1], told(DONE, given->area.start + start), BLOCKS - 1);
  check_cores(given->area, image);
}

/* Every block before this one is accepted, and it is refused: then the area is zeros and what comes after it is refused too; but with
   11 and 12 nothing has changed, and the file goes on with the block as it should be. */
static void check_refused(const struct given *given, const block_words *blocks, unsigned which, const uint64_t *block,
                          uint64_t answer) {
  static const uint64_t zeros[WORKED_SIZE];
  open_both(given);
  for (unsigned i = 0; i < which; i++)
    feed_both(blocks[i], told(MORE, 0), i);
  feed_both(block, answer, which);
  if (changes_nothing(CLAMP_CODE(answer))) {
    for (unsigned i = which; i + 1 < BLOCKS; i++)
      feed_both(blocks[i], told(MORE, 0), i);
    return;
  }
  check_cores(given->area, zeros);
  for (unsigned i = which + 1; i < BLOCKS; i++)
    feed_both(blocks[i], REFUSED(ENDED), i);
}

/* ---- the worked file and the faulty ones */

/* The two lists and the file of examples/worked_file.h are those of the definitions. */
static void check_example(void) {
  check(COUNT(spec_io) == COUNT(worked_io) && memcmp(spec_io, worked_io, sizeof spec_io) == 0, "the I/O numbers agree", 0);
  check(COUNT(spec_tables) == COUNT(worked_tables) && memcmp(spec_tables, worked_tables, sizeof spec_tables) == 0,
        "the tables agree", 0);
  check(COUNT(spec_file) == COUNT(worked_file), "the files have as many words", 0);
  for (unsigned i = 0; i < COUNT(spec_file) && i < COUNT(worked_file); i++)
    check(spec_file[i].block == worked_file[i].block && spec_file[i].at == worked_file[i].at &&
              spec_file[i].value == worked_file[i].value,
          "the files agree in named word", i);
}

static void check_worked_files(void) {
  static block_words blocks[BLOCKS];
  static uint64_t image[WORKED_SIZE];
  write_words(blocks, spec_file, COUNT(spec_file));
  for (unsigned i = 0; i < COUNT(spec_image); i++)
    image[spec_image[i].at] = spec_image[i].value;
  check_file(&worked, blocks, 021, image);
  check(COUNT(spec_faults) == FAULTS, "there are as many faulty files", FAULTS);
  for (unsigned i = 0; i < COUNT(spec_faults); i++) {
    const struct faulty *faulty = &spec_faults[i];
    block_words block;
    memcpy(block, blocks[faulty->block], sizeof block);
    for (unsigned k = 0; k < COUNT(faulty->words) && faulty->words[k].value != 0; k++)
      block[faulty->words[k].at] = faulty->words[k].value;
    check_refused(&worked, blocks, faulty->block, block, told(faulty->number, where(faulty->word, faulty->half)));
  }
}

/* ---- the file whose last entry is split across two modification blocks */

static uint64_t split_length(unsigned table) {
  return table == SPLIT_TABLES - 1 ? 2 : 1;
}

/* The first modification block is made here, without its tags, which are disregarded. */
static void check_split_file(void) {
  static block_words named[BLOCKS], blocks[BLOCKS], other;
  static const uint64_t image[SPLIT_SIZE] = {0002127000002, 0002124000102, [85] = 0701234567012, [87] = 0123456701234};
  uint64_t tables[2 * SPLIT_TABLES];
  struct given split = {{SPLIT_AREA, SPLIT_SIZE}, NULL, tables, 0, COUNT(tables)};
  write_words(named, split_words, COUNT(split_words));
  memcpy(blocks[0], named[SPLIT_LABEL], sizeof other);
  memcpy(blocks[2], named[SPLIT_LAST_ENTRIES], sizeof other);
  memcpy(blocks[3], named[SPLIT_PROGRAM], sizeof other);
  memcpy(blocks[4], named[SPLIT_TERMINATION], sizeof other);
  blocks[1][IDENTIFIER_WORD] = blocks[2][IDENTIFIER_WORD];
  for (unsigned t = 0; t < SPLIT_TABLES; t++) {
    tables[2 * t] = SPLIT_AREA + SPLIT_IBANK + t;
    tables[2 * t + 1] = split_length(t);
    if (t + 1 < SPLIT_TABLES)
      blocks[1][3 * t + 3] = split_length(t);
  }
  blocks[1][CHECKSUM_WORD] = reader_checksum(blocks[1], CHECKSUM_WORD);
  check_file(&split, blocks, 0, image);
  memcpy(other, blocks[2], sizeof other);
  other[1] = named[SPLIT_OTHER_ENTRIES][1];
  other[CHECKSUM_WORD] = named[SPLIT_OTHER_ENTRIES][CHECKSUM_WORD];
  check_refused(&split, blocks, 2, other, REFUSED_AT(ASSIGNMENTS, 1)); /* the third word of the last entry, in the second block */
}

int main(void) {
  check_example();
  check_worked_files();
  check_split_file();
  printf("%lu passed, %lu failed\n", passed, failed);
  return failed != 0;
}
