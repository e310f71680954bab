/* See chance.h. */
#include "chance.h"

static uint64_t state = 1;

void begin(uint64_t seed, uint64_t number)
{
    state = seed ^ number;
    state = (state ^ state >> 30) * 0xbf58476d1ce4e5b9u;
    state = (state ^ state >> 27) * 0x94d049bb133111ebu;
    state = (state ^ state >> 31) | 1; /* never 0 */
}

uint64_t chance(void)
{
    state ^= state >> 12;
    state ^= state << 25;
    state ^= state >> 27;
    return state * 0x2545f4914f6cdd1du;
}

uint32_t between(uint32_t low, uint32_t high)
{
    return low + (uint32_t)((chance() >> 32) % ((uint64_t)high - low + 1));
}

bool one_in(uint32_t count)
{
    return between(1, count) == 1;
}
