#include "single.h"

#include <string.h>

_Static_assert(sizeof(float) == sizeof(uint32_t), "a float is a single");

uint32_t bits_of(float single)
{
    uint32_t bits;
    memcpy(&bits, &single, sizeof bits);
    return bits;
}

float single_of(uint32_t bits)
{
    float single;
    memcpy(&single, &bits, sizeof single);
    return single;
}
