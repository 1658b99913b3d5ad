/* guarded.h: memory to be lent. It ends where a page begins that may not be touched, so that a read or write past its end stops the
   program. */

#ifndef GUARDED_H
#define GUARDED_H

#include <stdint.h>

/* Memory for so many numbers: gives its end. Where there is none the program ends. */
uint64_t *guarded_end(uint64_t most);

#endif
