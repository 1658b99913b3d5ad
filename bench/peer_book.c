/* peer_book.c: needs and assign of peer.h. Tags are found one after the other, in lists that stand together. */

#include <stdbool.h>

#include "../tests/book_rules.h"
#include "peer.h"
#include "peer_blocks.h"

/* Refusals 11, 12, 14 and 15 of a label, or 0. */
static uint64_t whole_label_refusal(const uint64_t *label, uint64_t label_len, struct entries *entries) {
  uint64_t number = block_refusal(label, label_len, LABEL_CHECKSUM_WORD);
  return number != 0 ? told(number, 0) : label_refusal(label, entries);
}

uint64_t peer_needs(const uint64_t *label, uint64_t label_len) {
  struct entries entries;
  uint64_t refusal = whole_label_refusal(label, label_len, &entries), io;
  if (refusal != 0)
    return refusal;
  io = entries.channels + entries.units;
  return told_needs(io, entries.tables, entry_blocks(io, entries.tables));
}

/* Refusals 11 to 15 of the label and what stands after it, or 0. */
static uint64_t front_refusal(const uint64_t *blocks, uint64_t length, struct entries *entries) {
  uint64_t refusal, needed, at = WORDS_IN_BLOCK;
  if (length == 0)
    return REFUSED_AT(RECORD, 0);
  refusal = whole_label_refusal(blocks, length < WORDS_IN_BLOCK ? length : WORDS_IN_BLOCK, entries);
  if (refusal != 0)
    return refusal;
  needed = WORDS_IN_BLOCK * (1 + entry_blocks(entries->channels + entries->units, entries->tables));
  for (; at < needed || at < length; at += WORDS_IN_BLOCK) {
    if (at >= length)
      return REFUSED_AT(RECORD, at);
    refusal = block_refusal(blocks + at, length - at < WORDS_IN_BLOCK ? length - at : WORDS_IN_BLOCK, CHECKSUM_WORD);
    if (refusal != 0)
      return told(refusal, 0);
    if (at >= needed || blocks[at] != MODRC)
      return REFUSED_AT(RECORD, at);
  }
  return 0;
}

/* The tags of a kind, and the number that each was given. */
struct tags {
  uint64_t count, tag[ENTRIES_MOST];
  uint32_t number[ENTRIES_MOST];
};

static const uint32_t not_given = UINT32_MAX;

/* Every `step`th of the words of the entries from word `from` on. */
static void take_tags(struct tags *tags, const uint64_t *blocks, uint64_t from, uint64_t step, uint64_t count) {
  tags->count = count;
  for (uint64_t i = 0; i < count; i++, from += step) {
    tags->tag[i] = blocks[WORDS_IN_BLOCK * (1 + from / WORDS_BETWEEN) + FIRST_WORD + from % WORDS_BETWEEN];
    tags->number[i] = not_given;
  }
}

static bool record_stands(const uint8_t *record) {
  if (record[KIND_AT] != 'A' && record[KIND_AT] != 'L' && record[KIND_AT] != 'P')
    return false;
  for (unsigned i = CODES_AT; i < DIGITS_AT; i++)
    if (record[i] > CODE_MOST)
      return false;
  for (unsigned i = DIGITS_AT; i < NEWLINE_AT; i++)
    if ((unsigned)record[i] - '0' > 9)
      return false;
  return record[NEWLINE_AT] == '\n';
}

/* Gives a record's number to each entry that has its tag. Whether one has; `twice` where one was given a number before. */
static bool give(struct tags *tags, const uint8_t *record, bool *twice) {
  uint64_t tag = 0;
  uint32_t number = 0;
  bool any = false;
  for (unsigned i = CODES_AT; i < DIGITS_AT; i++)
    tag = tag << CODE_BITS | record[i];
  for (unsigned i = DIGITS_AT; i < NEWLINE_AT; i++)
    number = 10 * number + record[i] - '0';
  for (uint64_t i = 0; i < tags->count; i++)
    if (tags->tag[i] == tag) {
      any = true;
      *twice |= tags->number[i] != not_given;
      tags->number[i] = number;
    }
  return any;
}

static bool all_given(const struct tags *tags) {
  for (uint64_t i = 0; i < tags->count; i++)
    if (tags->number[i] == not_given)
      return false;
  return true;
}

static void write_given(const struct tags *tags, uint64_t *list, unsigned step) {
  for (uint64_t i = 0; i < tags->count; i++)
    list[step * i] = tags->number[i];
}

uint64_t peer_assign(const uint8_t *book, uint64_t book_len, const uint64_t *blocks, uint64_t blocks_len, uint64_t *io,
                     uint64_t io_len, uint64_t *tables, uint64_t tables_len) {
  struct entries entries;
  struct tags address, length, peripheral;
  uint64_t refusal = front_refusal(blocks, blocks_len, &entries), io_words;
  bool twice = false;
  if (refusal != 0)
    return refusal;
  if (book_len % RECORD_BYTES != 0 || io_len != entries.channels + entries.units || tables_len != 2 * entries.tables)
    return REFUSED(BOOK);
  for (uint64_t at = 0; at < book_len; at += RECORD_BYTES)
    if (!record_stands(book + at))
      return REFUSED(BOOK);
  io_words = IO_ENTRY_WORDS * io_len;
  take_tags(&peripheral, blocks, 0, IO_ENTRY_WORDS, io_len);
  take_tags(&address, blocks, io_words, CORE_ENTRY_WORDS, entries.tables);
  take_tags(&length, blocks, io_words + 1, CORE_ENTRY_WORDS, entries.tables);
  for (uint64_t at = 0; at < book_len; at += RECORD_BYTES)
    if (!give(book[at] == 'P' ? &peripheral : book[at] == 'A' ? &address : &length, book + at, &twice))
      return REFUSED(TAG_UNKNOWN);
  if (twice)
    return REFUSED(TAG_TWICE);
  if (!all_given(&peripheral) || !all_given(&address) || !all_given(&length))
    return REFUSED(TAG_MISSING);
  write_given(&peripheral, io, 1);
  if (tables_len != 0) {
    write_given(&address, tables, 2);
    write_given(&length, tables + 1, 2);
  }
  return told(ASSIGNED, 0);
}
