#include "random.h"

static uint64_t state = RANDOM_SEED;

void random_begin(void)
{
    state = RANDOM_SEED;
}

uint64_t random_word(void)
{
    state ^= state << 13;
    state ^= state >> 7;
    state ^= state << 17;
    return state;
}

size_t random_below(size_t limit)
{
    return (size_t)((random_word() >> 11) % limit);
}

void random_fill(uint8_t *bytes, size_t len)
{
    for (size_t i = 0; i < len; i++)
        bytes[i] = (uint8_t)(random_word() >> 32);
}
