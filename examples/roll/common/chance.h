/* Chance in whole numbers, by a seed: the same on every machine. */
#ifndef CHANCE_H
#define CHANCE_H

#include <stdbool.h>
#include <stdint.h>

struct Chance {
    uint64_t state;
};

/* Each use of a seed has a number of its own, so that no two of them draw the same numbers. */
struct Chance chance_of(uint64_t seed, uint64_t use);

/* A number below a bound that is not 0. */
uint64_t chance_below(struct Chance *chance, uint64_t bound);

/* True in so many of a thousand draws. */
bool chance_permille(struct Chance *chance, uint64_t rate);

#endif
