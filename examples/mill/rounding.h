/*
 * The law written out once more, with a division of one's choice: what its divisions did before, toward minus infinity, and what they do,
 * to the nearest whole number. Only a web at rest is looked at by it; everything else here calls the law of winder.h.
 */
#ifndef ROUNDING_H
#define ROUNDING_H

#include <stdint.h>

#include "readings.h"
#include "winder.h"

/* A sum of the law divided by 65536. */
typedef int64_t (*Division)(int64_t sum);

int64_t toward_minus_infinity(int64_t sum);

/* Ties go to the even one. */
int64_t to_nearest(int64_t sum);

/* One period, in which no value comes near the ends of an int32_t: the state moves on, and the result is the first command. */
int32_t law_by(Division divide, const struct winder_settings *law, const struct Readings *readings, int32_t state[WINDER_STATES_MAX]);

#endif
