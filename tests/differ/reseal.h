/* reseal.h: blocks and whole files that are resealed, by chance (request #104). */

#ifndef RESEAL_H
#define RESEAL_H

#include <stdbool.h>

/* Blocks of every kind: sealed by the rule before request #104, sealed by the rule in force, wrong ones and no blocks at all. */
void reseal_blocks(void);

/* A right file of the old rule is resealed and loaded, if there is a place for it. */
void reseal_file(void);

/* How often blocks were resealed and refused, and what was never seen. Gives whether all was. */
bool print_reseals(void);

#endif
