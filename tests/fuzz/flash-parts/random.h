/* Random numbers. The seed determines every event of a run. */
#ifndef FUZZ_RANDOM_H
#define FUZZ_RANDOM_H

#include <stdbool.h>
#include <stddef.h>
#include <stdint.h>

void random_begin(uint64_t seed);

/* Returns a number from 0 to `count` - 1. */
uint32_t below(uint32_t count);

/* Returns a number from `least` to `most`. */
uint32_t between(uint32_t least, uint32_t most);

/* Returns true once in `times` calls on average; never if `times` is 0. */
bool chance(uint32_t times);

void any_bytes(uint8_t *bytes, size_t length);

#endif
