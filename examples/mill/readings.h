/*
 * The readings of a period: as their transmitters send them, and as the law takes them.
 *
 * The law takes counts. winder_convert_single makes a count of a single in newtons, in units of 1/65536 N, and everything that the law
 * compares with the tension counts in the same units.
 */
#ifndef READINGS_H
#define READINGS_H

#include <stdint.h>

#include "winder.h"

#define NEWTON 65536 /* units in one newton */

/* The readings' places. The setpoint comes in as a reading too: the law has no other way in. */
enum { TENSION_READ, SETPOINT_READ, READINGS };

struct Sent {
    uint32_t tension; /* the bits of a single in newtons; those of a NaN where the tension is not read */
    int32_t setpoint; /* a count */
};

struct Readings {
    uint8_t present[WINDER_READINGS_MAX];
    int32_t values[WINDER_READINGS_MAX];
};

struct Readings converted(struct Sent sent);

#endif
