/* deck.h: the hand deck of 01, through both loaders, with the answers that 01 prints. */

#ifndef DECK_H
#define DECK_H

void hand_deck(void);

#endif
