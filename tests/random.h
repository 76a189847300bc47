/* Random numbers that tests draw: the same ones for a seed on each machine. C99 and C++. */
#ifndef RANDOM_H
#define RANDOM_H

#include <stdint.h>

/* The next 64 bits (splitmix64). */
static inline uint64_t next_random(uint64_t *state) {
  uint64_t x = *state += 0x9E3779B97F4A7C15;
  x = (x ^ x >> 30) * 0xBF58476D1CE4E5B9;
  x = (x ^ x >> 27) * 0x94D049BB133111EB;
  return x ^ x >> 31;
}

/* The next 64 bits (xorshift), of a state that is not 0. */
static inline uint64_t next_shifted(uint64_t *state) {
  *state ^= *state << 13;
  *state ^= *state >> 7;
  return *state ^= *state << 17;
}

#endif
