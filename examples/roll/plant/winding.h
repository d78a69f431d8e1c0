/* The winder of the mill simulator, with a transmitter for each box. Metres, seconds, newtons. */
#ifndef WINDING_H
#define WINDING_H

#include <stdbool.h>
#include <stdint.h>

#include "drive.h"
#include "line.h"
#include "plant.h"
#include "process.h"
#include "transmitter.h"

struct Winding {
    struct Plant plant;
    struct Drive drive;
    struct Line line;
    struct Transmitter transmitters[BOXES];
};

struct Winding winding_at_start(uint64_t seed);

/* What the transmitter of a box, from 1 on, sends for a period. */
struct Sample winding_sends(const struct Winding *winding, int box, uint32_t period);

/* Moves the winder on by one period of the controller, with the force that the drive has. */
void winding_move_on(struct Winding *winding, double now, double force);

/* Whether the roll is wound and the line at rest again. */
bool winding_has_ended(const struct Winding *winding);

#endif
