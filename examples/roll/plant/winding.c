#include "winding.h"

#include "controller.h"

struct Winding winding_at_start(uint64_t seed)
{
    struct Winding winding = {.plant = plant_at_start()};
    for (int i = 0; i < BOXES; i++) {
        winding.transmitters[i] = transmitter_at_start(seed, i + 1);
    }
    return winding;
}

struct Sample winding_sends(const struct Winding *winding, int box, uint32_t period)
{
    double radius = winding->plant.radius;
    bool reads = line_tension_is_read(wound_length(radius));
    return transmitter_sends(&winding->transmitters[box - 1], period, reads, line_setpoint(radius));
}

static void sample_cells(struct Winding *winding)
{
    for (int i = 0; i < BOXES; i++) {
        cell_sample(&winding->transmitters[i].cell, plant_tension(&winding->plant));
    }
}

void winding_move_on(struct Winding *winding, double now, double force)
{
    struct Plant *plant = &winding->plant;
    double time = PERIOD / STEPS;
    for (int step = 0; step < STEPS; step++) {
        line_step(&winding->line, now + step * time, plant->radius, time);
        double torque = drive_step(&winding->drive, force, plant->radius, winding->line.acceleration, time);
        plant_step(plant, winding->line.speed, line_slack(wound_length(plant->radius)), torque, time);
        sample_cells(winding);
    }
}

bool winding_has_ended(const struct Winding *winding)
{
    bool is_wound = winding->plant.radius > (CORE_RADIUS + FULL_RADIUS) / 2.0;
    return is_wound && winding->line.speed == 0.0;
}
