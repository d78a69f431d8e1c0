/*
 * The transmitters. Each box has one of its own, with a load cell of its own under the web: all read one tension, each with its own noise.
 * Box 1's sends the tension as a single, the others' as a count.
 */
#ifndef TRANSMITTER_H
#define TRANSMITTER_H

#include <stdbool.h>
#include <stdint.h>

#include "cell.h"
#include "sample.h"

struct Transmitter {
    struct Cell cell;
    uint8_t kind; /* that it sends the tension as: enum winder_reading */
};

/* Of a box, from 1 on. */
struct Transmitter transmitter_at_start(uint64_t seed, int box);

/* What it sends for a period: the tension, if the cell reads, and the setpoint, which is given in newtons. */
struct Sample transmitter_sends(const struct Transmitter *transmitter, uint32_t period, bool reads, double setpoint);

#endif
