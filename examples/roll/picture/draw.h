/* The picture of a test roll. */
#ifndef DRAW_H
#define DRAW_H

#include "logs.h"

/* Writes an SVG to standard output: tension, command and boxes over the diameter, and the seconds around some outages. */
void draw_roll(const struct Logs *logs);

#endif
