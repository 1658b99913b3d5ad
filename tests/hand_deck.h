/* hand_deck.h: the hand deck's three blocks, read from standard input as the load printer reads them (crates/load_printer/stdin): 256
   lines of octal digits a block. */

#ifndef HAND_DECK_H
#define HAND_DECK_H

#include <stdint.h>
#include <stdio.h>
#include <stdlib.h>

enum { DECK_BLOCKS = 3 };

static uint64_t deck[DECK_BLOCKS][256];

static void read_deck(void) {
  char line[64];
  unsigned i;
  for (i = 0; i < DECK_BLOCKS * 256; i++) {
    if (fgets(line, sizeof line, stdin) == NULL) {
      printf("the hand deck is not on standard input\n");
      exit(2);
    }
    deck[i / 256][i % 256] = strtoul(line, NULL, 8);
  }
}

#endif
