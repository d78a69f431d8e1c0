/*
 * The load cell under the web and its transmitter: noise comes in with every sample, the transmitter has a low-pass, and it sends what
 * comes out as an IEEE 754 single. Up to there whole numbers alone, so that the noise is the same on every machine.
 */
#ifndef CELL_H
#define CELL_H

#include <stdbool.h>
#include <stdint.h>

struct Cell {
    uint32_t noise;   /* of the generator; never 0 */
    int64_t filtered; /* in 1/65536 of a hundredth of a newton */
};

struct Cell cell_at_start(void);

/* Takes one sample of a tension in newtons: one for each step of the plant, 2,000 in a second. */
void cell_sample(struct Cell *cell, double tension);

/* What the transmitter sends: the bits of a single in newtons, and those of a NaN where the cell does not read. */
uint32_t cell_sends(const struct Cell *cell, bool reads);

#endif
