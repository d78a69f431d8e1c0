/*
 * The figures of the roll, printed: how many periods had a command, gaps, take-overs, frames, boxes that were off, the tension.
 */
#ifndef CHECKER_FIGURES_H
#define CHECKER_FIGURES_H

#include "history.h"
#include "plant.h"

void print_figures(const struct History *history, const struct Plant *plant);

/* A line for each return from a record of a period below one that the box had committed. */
void print_early_records(const struct History *history);

#endif
