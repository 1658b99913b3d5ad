/* both.h: the proved loader and the reader side by side. Each call is made on both, and compared. */

#ifndef BOTH_H
#define BOTH_H

#include "clamp.h"
#include "generate/generate.h"
#include "reader.h"

#ifndef CLAMP_HAS_FEED
uint64_t clamp_feed(uint64_t *desk, uint64_t desk_len, uint64_t *core, uint64_t core_len, uint64_t room, uint64_t place,
                    const uint64_t *block, uint64_t block_len);
#endif

enum { NUMBERS_MOST = 700, CODES = 128 };

/* The calls. */
enum { MAKE, OPEN, FEED, RELEASE, RESEAL };

/* A map, a list or a block as the calls take them, with room for too many numbers. */
struct numbers {
  uint64_t at[NUMBERS_MOST];
  uint64_t count;
};

/* Memory to be lent: it ends where a page begins that may not be touched, and before what is lent is a fence of known words. */
struct lent {
  uint64_t *end;
  uint64_t *start;
};

extern struct chance chance;                            /* where the round takes its numbers from */
extern uint64_t seed, calls_before;                     /* the round's seed, and the calls compared before the round */
extern uint64_t calls, seen[CODES];                     /* the calls compared, and how often each code was seen */
extern struct reader reader;                            /* the reader's desk */
extern uint64_t *mirror;                                /* and its core */
extern struct lent lent_desk, lent_core;                /* the proved loader's desk and core */
extern uint64_t *desk_before, desk_words, core_length;  /* its desk after the last call; the lengths of both */
extern struct lent lent_other, lent_first, lent_second; /* for a desk or core of another length, and for lists */

void set_up(void);

/* Both cores of this length, with the same words by chance. */
void begin_core(uint64_t length);

/* The four calls. `answer` is the one that is foretold, or 0. The length of a core may be another than the desk's. */
uint64_t both_make(uint64_t length, const struct numbers *map, uint64_t answer);
uint64_t both_open(uint64_t length, uint64_t room, struct run area, const struct numbers *io, const struct numbers *tables,
                   uint64_t answer);
uint64_t both_feed(uint64_t length, uint64_t room, uint64_t place, const struct numbers *block, uint64_t answer);
uint64_t both_release(uint64_t length, uint64_t room, uint64_t place, uint64_t answer);

/* Reseal: both get this block, which is then as they left it. `answer` is the one that is foretold. */
uint64_t both_reseal(struct numbers *block, uint64_t index, uint64_t answer);

/* Something else that has to hold, counted as a call. */
void check(bool holds, const char *what);

/* A difference: prints it with the round's seed and the call's number in the round, and ends the program. */
_Noreturn void fail(const char *call, const char *what, uint64_t proved, uint64_t plain, uint64_t answer);

/* The last so many numbers of the memory, and a copy of these numbers there; of no numbers, no memory at all. */
uint64_t *lend(struct lent *lent, uint64_t length);
const uint64_t *lend_copy(struct lent *lent, const uint64_t *numbers, uint64_t length);

bool fence_stands(const uint64_t *start);
bool desk_is_as_before(void);
bool cores_agree(void);

/* The map of these stretches. */
struct numbers map_of(const struct run *stretches);

#endif
