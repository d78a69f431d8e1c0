#include "plant.h"

#define COULOMB_FRICTION 2.0  /* N m */
#define VISCOUS_FRICTION 0.05 /* N m s */
#define CREEP_SPEED 0.05      /* rad/s, below which dry friction fades, so that a roll at rest needs no torque */

struct Plant plant_at_start(void)
{
    return (struct Plant){.radius = CORE_RADIUS, .angular_speed = 0.0, .strain = 0.0};
}

/* A slack web pulls nothing. */
double plant_tension(const struct Plant *plant)
{
    return plant->strain > 0.0 ? WEB_STIFFNESS * plant->strain : 0.0;
}

static double fourth_power(double x)
{
    return x * x * x * x;
}

double roll_inertia(double radius)
{
    double web = PI / 2.0 * WEB_DENSITY * WEB_WIDTH * (fourth_power(radius) - fourth_power(CORE_RADIUS));
    return CORE_INERTIA + web;
}

double wound_length(double radius)
{
    return PI * (radius * radius - CORE_RADIUS * CORE_RADIUS) / WEB_THICKNESS;
}

static double friction(double angular_speed)
{
    double size = angular_speed < 0.0 ? -angular_speed : angular_speed;
    double dry = COULOMB_FRICTION * angular_speed / (size + CREEP_SPEED);
    return dry + VISCOUS_FRICTION * angular_speed;
}

/* The web joins the roll at the roll's own surface speed, so the growing inertia takes no torque of its own. */
void plant_step(struct Plant *plant, double line_speed, double slack, double torque, double time)
{
    double pull = plant_tension(plant) * plant->radius;
    double acceleration = (torque - pull - friction(plant->angular_speed)) / roll_inertia(plant->radius);
    plant->angular_speed += acceleration * time;

    double surface_speed = plant->angular_speed * plant->radius;
    double in = line_speed * (1.0 + slack);
    double out = surface_speed * (1.0 - plant->strain);
    plant->strain += (out - in) / SPAN * time;

    plant->radius += WEB_THICKNESS * plant->angular_speed / (2.0 * PI) * time;
}
