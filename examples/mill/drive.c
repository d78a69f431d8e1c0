#include "drive.h"

#include "plant.h"

#define TORQUE_LIMIT 200.0 /* N m */
#define TORQUE_LAG 0.005   /* s */

/* The drive takes the roll for lighter than it is, so that ramps of the line disturb the tension. */
#define INERTIA_KNOWN 0.9

static double limited(double torque)
{
    if (torque > TORQUE_LIMIT) {
        return TORQUE_LIMIT;
    }
    return torque < -TORQUE_LIMIT ? -TORQUE_LIMIT : torque;
}

double drive_step(struct Drive *drive, double force, double radius, double line_acceleration, double time)
{
    double accelerating = INERTIA_KNOWN * roll_inertia(radius) * line_acceleration / radius;
    double wanted = limited(force * radius + accelerating);
    drive->torque += (wanted - drive->torque) * time / TORQUE_LAG;
    return drive->torque;
}
