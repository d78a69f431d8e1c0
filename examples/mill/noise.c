#include "noise.h"

/* Marsaglia's xorshift, with shifts 13, 17 and 5. */
uint32_t next_noise(uint32_t x)
{
    x ^= x << 13;
    x ^= x >> 17;
    return x ^ (x << 5);
}

int32_t noise_within(uint32_t x, uint32_t most)
{
    return (int32_t)(x % (2 * most + 1)) - (int32_t)most;
}
