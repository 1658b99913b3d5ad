/* bits.h: bits of a word, or of a number of the desk, by the numbers that document 01 gives them: bit 0 is the rightmost. */

#ifndef BITS_H
#define BITS_H

#include <stdbool.h>
#include <stdint.h>

/* Bits high to low: part(word, 33, 18) is 01's "bits 33-18". They are fewer than 64. */
static inline uint64_t part(uint64_t word, unsigned high, unsigned low) {
  return word >> low & (((uint64_t)1 << (high - low + 1)) - 1);
}

/* The word with bits high to low replaced by the value's lowest. */
static inline uint64_t put(uint64_t word, unsigned high, unsigned low, uint64_t value) {
  uint64_t mask = (((uint64_t)1 << (high - low + 1)) - 1) << low;
  return (word & ~mask) | (value << low & mask);
}

/* A word with this bit set alone. */
static inline uint64_t bit_at(unsigned at) {
  return (uint64_t)1 << at;
}

#endif
