/* What happens to the winder: the line's speed, the tension wanted, splices, and readings that are lost. Metres, seconds, newtons. */
#ifndef LINE_H
#define LINE_H

#include <stdbool.h>

#define LINE_SPEED 10.0
#define RAMP 0.5                                             /* m/s² */
#define RAMP_LENGTH (LINE_SPEED * LINE_SPEED / (2.0 * RAMP)) /* wound on the way to full speed, and on the way down */

/* Events, by the length of web wound. */
#define SETPOINT_CHANGE 500.0
#define SPLICE 900.0
#define SPLICE_UNSEEN 1300.0 /* from here on the tension is not read .. */
#define UNSEEN_LENGTH 5.0    /* .. for this length */

struct Line {
    double speed;
    double acceleration;
};

/* Moves the line on by a short time: at rest while the tension builds up, then up to speed, and down again to end with a full roll. */
void line_step(struct Line *line, double now, double radius, double time);

/* The tension wanted at a radius: it falls as the roll grows, and an operator raises it once. */
double line_setpoint(double radius);

bool line_in_splice(double length);

/* How much longer than it should be the web comes out of the nip, as a share. */
double line_slack(double length);

bool line_tension_is_read(double length);

#endif
