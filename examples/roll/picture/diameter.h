/* The diameter of the roll, in millimetres: what a technician reads off, and the picture's x axis. */
#ifndef DIAMETER_H
#define DIAMETER_H

#include "record.h"

#define OF_RADIUS 2000.0 /* millimetres of diameter in one metre of radius */

double diameter_of(const struct Row *row);

/* With a length of web on the roll, in metres. */
double diameter_at(double length);

#endif
