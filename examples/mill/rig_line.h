/* The controller as the first line of program rig, which plays scripts on a group of boxes that run it. */
#ifndef RIG_LINE_H
#define RIG_LINE_H

#include <stdint.h>

#include "winder.h"

/* Writes `rig N n m p`, the numbers of A, L, C and K row by row, the lower limits, the upper limits and the starting state. */
void write_rig_line(int boxes, const struct winder_settings *law, const int32_t state[WINDER_STATES_MAX]);

#endif
