/* Outages: stretches of periods that a box is off, or that have no command. */
#ifndef OUTAGES_H
#define OUTAGES_H

#include <stdbool.h>
#include <stdint.h>

#include "logs.h"

/* Fewer periods in a row are no outage: a late tick, or a lost frame. */
enum { OUTAGE = 10 };

/* From the first period to the one after the last: as long as the first is below the other, there are any. */
struct Stretch {
    uint32_t from, to;
};

/* The next stretch of periods of the roll, from a period on, where a box's or the group's marks are as wanted. */
struct Stretch next_stretch(const struct Logs *logs, const bool *marks, bool wanted, uint32_t from);

/* A box, from 0 on, that is off while the others are up: they bear it. */
struct Outage {
    int box;
    bool of_coordinator; /* whether the last command before it was decided in a view of this box */
    struct Stretch off;
};

/* The first outage of a coordinator, else the first of any box; an empty stretch where the roll has none. */
struct Outage outage_to_show(const struct Logs *logs);

/* The longest stretch without a command. */
struct Stretch longest_gap(const struct Logs *logs);

#endif
