/* The web between the nip and the roll, and the roll that it is wound on. Metres, seconds, kilograms, newtons. */
#ifndef PLANT_H
#define PLANT_H

#define PI 3.14159265358979

/* Paper of 175 grams per square metre. */
#define WEB_WIDTH 0.8
#define WEB_THICKNESS 0.00025
#define WEB_DENSITY 700.0
#define WEB_MODULUS 2.0e9
#define WEB_STIFFNESS (WEB_MODULUS * WEB_WIDTH * WEB_THICKNESS) /* E·A, in newtons */

#define SPAN 3.0
#define CORE_RADIUS 0.15
#define FULL_RADIUS 0.4
#define CORE_INERTIA 4.0 /* with shaft and gear */

#define STEPS 20 /* in a period: the plant moves on in steps much shorter than one */

struct Plant {
    double radius;
    double angular_speed;
    double strain;
};

/* An empty core at rest with the web threaded and slack. */
struct Plant plant_at_start(void);

/* Moves the plant on by a short time. The nip lets web in at line_speed, longer by the share `slack`; `torque` turns the roll. */
void plant_step(struct Plant *plant, double line_speed, double slack, double torque, double time);

double plant_tension(const struct Plant *plant);

/* The roll's moment of inertia at a radius, and the web wound on it. */
double roll_inertia(double radius);
double wound_length(double radius);

#endif
