#include "readings.h"

/* A count goes to the law as it is. A NaN comes back as absent, so nothing else has to look for one. */
struct Readings converted(struct Sent sent)
{
    struct Readings readings = {.present = {[SETPOINT_READ] = 1}, .values = {[SETPOINT_READ] = sent.setpoint}};
    readings.present[TENSION_READ] = winder_convert_single(sent.tension, &readings.values[TENSION_READ]);
    return readings;
}
