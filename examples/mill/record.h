/* What a run leaves: one row for each period. */
#ifndef RECORD_H
#define RECORD_H

#include <stdbool.h>
#include <stddef.h>
#include <stdint.h>

#include "readings.h"
#include "winder.h"

#define MOST_ROWS 30000

/*
 * As things stand when the period's readings are taken; the tension is the web's, the reading is what the load cell tells of it, a NaN
 * where it does not read; the command is the one that the period brings. Metres, seconds, newtons.
 */
struct Row {
    double time, length, radius, speed, setpoint, tension, reading, command;
    bool splice;
    bool present;                     /* whether the law got a tension */
    struct Sent sent;                 /* reading and setpoint, as they are sent */
    int32_t state[WINDER_STATES_MAX]; /* of the controller before the period */
    int32_t command_count;            /* the command, as the law gives it .. */
    bool limited;                     /* .. and whether it is not what the gains alone would give */
};

struct Record {
    size_t count;
    struct Row rows[MOST_ROWS];
};

#endif
