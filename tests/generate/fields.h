/* fields.h: what one half of a program word is to be, right or with a fault, and what becomes of it. */

#ifndef FIELDS_H
#define FIELDS_H

#include "generate.h"

struct change {
  uint64_t type;    /* three bits */
  uint64_t field;   /* 16 bits */
  uint64_t nine;    /* the nine indicator bits more of type 010's long form */
  uint64_t becomes; /* what the field is to be; after a fault it does not matter */
};

/* A right change for this half, of a type by chance. False: this time none was found. */
bool right_change(struct chance *chance, const struct file *file, bool left, struct change *change);

/* A change with the fault that the file wants, if that is one of fields. False: it is not, or this half cannot have it. */
bool faulty_change(struct chance *chance, const struct file *file, bool left, struct change *change);

/* Any type, field and nine bits. */
void wild_change(struct chance *chance, struct change *change);

/* How many bits the indicator of such a change has. */
unsigned change_length(const struct change *change);

#endif
