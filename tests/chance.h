/* Chance that is the same everywhere for the same seed: xorshift64*. */
#ifndef CHANCE_H
#define CHANCE_H

#include <stdbool.h>
#include <stdint.h>

/* Begins anew: the same seed and number give the same chance. */
void begin(uint64_t seed, uint64_t number);

uint64_t chance(void);

/* From low to high, both included. */
uint32_t between(uint32_t low, uint32_t high);

bool one_in(uint32_t count);

#endif
