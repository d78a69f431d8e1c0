#include "line.h"

#include "plant.h"

#define STALL 3.0 /* s at rest under tension, before the line starts */

#define TENSION_AT_CORE 400.0
#define TENSION_RAISED 440.0
#define TAPER 0.3

#define SPLICE_LENGTH 3.0
#define SPLICE_SLACK 0.0006

/* The line slows down when what is left to wind is the distance that slowing down takes. */
static double wanted_speed(const struct Line *line, double now, double radius)
{
    double left = wound_length(FULL_RADIUS) - wound_length(radius);
    double slowing = line->speed * line->speed / (2.0 * RAMP);
    if (now < STALL || left <= slowing) {
        return 0.0;
    }
    return LINE_SPEED;
}

void line_step(struct Line *line, double now, double radius, double time)
{
    double missing = wanted_speed(line, now, radius) - line->speed;
    double most = RAMP * time;
    if (missing > most) {
        missing = most;
    }
    if (missing < -most) {
        missing = -most;
    }
    line->speed += missing;
    line->acceleration = missing / time;
}

double line_setpoint(double radius)
{
    double tension = wound_length(radius) < SETPOINT_CHANGE ? TENSION_AT_CORE : TENSION_RAISED;
    return tension * (1.0 - TAPER * (1.0 - CORE_RADIUS / radius));
}

static bool passes(double from, double size, double length)
{
    return from <= length && length < from + size;
}

bool line_in_splice(double length)
{
    return passes(SPLICE, SPLICE_LENGTH, length) || passes(SPLICE_UNSEEN, SPLICE_LENGTH, length);
}

double line_slack(double length)
{
    return line_in_splice(length) ? SPLICE_SLACK : 0.0;
}

bool line_tension_is_read(double length)
{
    return !passes(SPLICE_UNSEEN, UNSEEN_LENGTH, length);
}
