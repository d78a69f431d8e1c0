/*
 * A web at rest: the line stands, the web is under tension, and the law holds it. Forces count in tenths of a newton, and the load cell
 * sends a count that is off by one, either way or not at all.
 */
#ifndef REST_H
#define REST_H

#include <stdbool.h>

#include "record.h"
#include "rounding.h"

#define REST_SETPOINT 400.0 /* N */
#define REST_TIME 5.0       /* s */

/* Holds a web that starts at a tension, by the law with this division, and fills the record: time, tension, reading and command. */
void rest_by(Division divide, double tension, struct Record *record);

/* The same by the law of winder.h. The result is 0, or the number by which it refused. */
uint32_t rest(double tension, struct Record *record);

/* Whether two records have the same commands, period by period. */
bool same_commands(const struct Record *one, const struct Record *other);

#endif
