#include "random.h"

static uint64_t state;

static uint64_t next(void)
{
    uint64_t mixed = state += 0x9e3779b97f4a7c15u;
    mixed = (mixed ^ mixed >> 30) * 0xbf58476d1ce4e5b9u;
    mixed = (mixed ^ mixed >> 27) * 0x94d049bb133111ebu;
    return mixed ^ mixed >> 31;
}

void random_begin(uint64_t seed)
{
    state = seed;
    state = next();
}

uint32_t below(uint32_t count)
{
    return (uint32_t)((next() >> 32) * count >> 32);
}

uint32_t between(uint32_t least, uint32_t most)
{
    return least + below(most - least + 1);
}

bool chance(uint32_t times)
{
    return times > 0 && below(times) == 0;
}

void any_bytes(uint8_t *bytes, size_t length)
{
    for (size_t at = 0; at < length; at++)
        bytes[at] = (uint8_t)below(256);
}
