/*
 * What the drive takes. Every box that decides sends the command of its period, so the drive gets up to three of the same: it takes the
 * first, and none whose period is not above that of the last one taken.
 */
#ifndef TAKEN_H
#define TAKEN_H

#include <stdint.h>
#include <stdio.h>

/* The command in force, and its period. Before the first command both are 0. */
struct Taken {
    uint32_t period;
    double force; /* N */
};

/* Takes what has reached the drive's socket by now, in period k of the plant, with a line of the log for each datagram. */
void take_commands(struct Taken *taken, int socket, uint32_t k, FILE *log);

#endif
