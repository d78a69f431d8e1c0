/* The drive of the roll: it makes torque of the law's command. Newtons and metres. */
#ifndef DRIVE_H
#define DRIVE_H

struct Drive {
    double torque;
};

/*
 * Moves the drive on by a short time and gives its torque. `force` is the force that the law commands at the roll's surface. The drive
 * knows the roll's radius and adds what the line's acceleration takes; torque is limited and follows with a lag.
 */
double drive_step(struct Drive *drive, double force, double radius, double line_acceleration, double time);

#endif
