/*
 * The log of the plant: how many periods the roll had, and how far the tension was off its setpoint.
 */
#ifndef CHECKER_PLANT_H
#define CHECKER_PLANT_H

#include <stdint.h>

/* The roll's first second, in which the web is drawn tight, is left out of the figures of the tension. */
enum { FIRST_PERIODS = 100 };

/* squares: the sum of the squares of tension minus setpoint; most: the largest magnitude of it, with its period and diameter. */
struct Plant {
    uint32_t periods;
    double squares;
    double most;
    uint32_t period_of_most;
    double diameter_of_most;
};

void read_plant(struct Plant *plant, const char *folder);

#endif
