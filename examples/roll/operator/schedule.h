/* When the boxes are unplugged and plugged in again: by a seed. */
#ifndef SCHEDULE_H
#define SCHEDULE_H

#include <stdbool.h>
#include <stdint.h>

#include "clock.h"
#include "process.h"

/* Each box in turn, and then pairs of them: off and on again makes two moves for a box. */
enum { PAIRS = 2, MOVES = 2 * BOXES + 4 * PAIRS };

struct Move {
    int64_t instant;
    int box; /* 1 to BOXES */
    bool plugs_in;
};

/* In the order of their instants. */
void schedule_of(uint64_t seed, const struct Clock *clock, struct Move moves[MOVES]);

#endif
