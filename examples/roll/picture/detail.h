/* Details: tension, command and boxes in the seconds around an outage. */
#ifndef DETAIL_H
#define DETAIL_H

#include "logs.h"

/*
 * Writes the details beside each other: a box that goes off, a coordinator if there is one, how it comes back, and the longest time without
 * a command. What the roll does not have is left out.
 */
void write_details(const struct Logs *logs, double top);

#endif
