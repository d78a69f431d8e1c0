/*
 * The clock that all processes of a roll share: the machine's own, or one that the machines of a mill keep alike. Period k, counted from 1,
 * is sampled at its instant; boxes tick a quarter of a period later, when the readings have arrived.
 */
#ifndef CLOCK_H
#define CLOCK_H

#include <stdint.h>

struct Clock {
    int64_t first;  /* the instant of period 1, in nanoseconds since 1970 */
    int64_t period; /* nanoseconds */
};

int64_t clock_now(void);

/* When period k is sampled, and when the boxes tick for it. */
int64_t sampled_at(const struct Clock *clock, uint32_t k);
int64_t ticked_at(const struct Clock *clock, uint32_t k);

/* How many of the boxes' ticks are due at a time: the period that a box should be in. */
uint32_t ticks_due(const struct Clock *clock, int64_t now);

void sleep_until(int64_t instant);

#endif
