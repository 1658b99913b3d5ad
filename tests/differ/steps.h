/* steps.h: single steps of a round, by chance: a load goes on, or a call is made with wrong arguments or a wrong desk. */

#ifndef STEPS_H
#define STEPS_H

#include "both.h"

extern uint64_t faults_seen[FAULT_KINDS];             /* how often each kind of fault was fed */
extern uint64_t carries_seen[3];                      /* blocks fed in whose sum no carry, one and several arise */
extern uint64_t changed_desks, changed_desks_refused; /* desks with one number changed, and how many of those were refused */

/* Forgets all loads; for a desk that was just made. */
void forget_loads(void);

/* A map by chance for a core of this length: stretches in any order, with gaps and empty ones. */
struct numbers any_map(uint64_t length);

/* ---- steps.c: right arguments */
void step_open(void);
void step_feed(void);
void step_release(void);

/* ---- wrong.c: wrong arguments */
void step_wrong_make(void);
void step_wrong_open(void);
void step_wrong_feed(void);
void step_wrong_release(void);

/* ---- desks.c: wrong desks */
void step_desk_length(void);
void step_any_desk(void);
void step_changed_desk(void);

/* ---- what wrong.c, desks.c and reseal.c need of steps.c */

/* A room and an area for it, in free words. Now and then there is no free word, and the area is one that is to be refused. */
struct run any_area(uint64_t *room);

unsigned any_held(void);                                             /* any place that is held, or PLACES where none is */
struct numbers next_block_of(unsigned place);                        /* the next block of its file, or the last one again */
void keep_file(uint64_t place, struct file *file, bool is_foretold); /* the file is fed to this place from now on */
void drop_file(uint64_t place);
void foretell_no_more(uint64_t place);
struct numbers io_of(const struct file *file); /* open's lists */
struct numbers tables_of(const struct file *file);
void check_image(const struct file *file, uint64_t answer); /* the area of a load that is done must be as foretold */

#endif
