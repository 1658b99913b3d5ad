/* book_rules.h: request #101, the facility book, by name; and a second assign and a second needs in plain C, to compare the proved
   ones with. They are written from the request and from document 01 ("01"), and share nothing with the proved ones. */

#ifndef BOOK_RULES_H
#define BOOK_RULES_H

#include <stdint.h>

#include "rules.h"

/* ---- a record: "a kind letter (A address, L length, P peripheral), six bytes each a Fieldata code, six ASCII digits, a newline"
 */

enum {
  KIND_AT = 0,
  CODES_AT = 1,
  CODES_IN_TAG = 6,
  DIGITS_AT = CODES_AT + CODES_IN_TAG,
  DIGITS_IN_NUMBER = 6,
  NEWLINE_AT = DIGITS_AT + DIGITS_IN_NUMBER,
  RECORD_BYTES = NEWLINE_AT + 1,
  CODE_BITS = 6,
  CODE_MOST = 63,
  NUMBER_MOST = 999999
};

/* ---- answers, beside those of rules.h. Refusals 24 to 27 have the value 0, as 1 to 12 have. */

enum { ASSIGNED = 69, NEEDS = 70 };

enum {
  REFUSED_BOOK = 24,        /* bad record, part record, or lists not just as long as the file's counts need */
  REFUSED_TAG_UNKNOWN = 25, /* tag not in the file */
  REFUSED_TAG_TWICE = 26,   /* tag given twice in one kind */
  REFUSED_TAG_MISSING = 27  /* tag of the file not given */
};

/* The value of NEEDS: "I/O entries + 2^10 * core entries + 2^20 * modification blocks". */
static inline uint64_t told_needs(uint64_t io, uint64_t tables, uint64_t blocks) {
  return told(NEEDS, io + (tables << 10) + (blocks << 20));
}

/* ---- the second version: each takes what the call of that name in clamp.h takes, and gives the same answer */

uint64_t second_needs(const uint64_t *label, uint64_t label_length);

uint64_t second_assign(const uint8_t *book, uint64_t book_length, const uint64_t *blocks, uint64_t blocks_length, uint64_t *io,
                       uint64_t io_length, uint64_t *tables, uint64_t tables_length);

#endif
