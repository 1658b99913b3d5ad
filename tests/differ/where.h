/* where.h: at which words and halves refusals 13 to 22 were seen (request #105). */

#ifndef WHERE_H
#define WHERE_H

#include "generate/generate.h"

/* Whether a refusal can be at this word and half at all. */
bool can_be(uint64_t answer);

/* One of these refusals was given to a block when this stage was due; `later` is whether that was a modification block after the
   first. Gives whether it can be there. */
bool note_where(enum stage due, bool later, uint64_t answer);

/* A fault that the generator put in was met, and got this answer. */
void note_fault(enum fault fault, uint64_t answer);

/* At how many words each was seen, and what was seen at too few. Gives whether all was seen at enough. */
bool print_where(void);

#endif
