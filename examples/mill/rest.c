#include "rest.h"

#include <math.h>

#include "controller.h"
#include "drive.h"
#include "noise.h"
#include "plant.h"

#define TENTHS 10 /* units in one newton */

struct Resting {
    struct Plant plant;
    struct Drive drive;
    struct Controller controller;
    double command; /* in force now */
    uint32_t noise;
};

/* At a tension that the drive holds. */
static struct Resting resting_at(double tension)
{
    struct Resting resting = {.plant = plant_at_start(), .command = tension, .noise = NOISE_SEED};
    resting.plant.strain = tension / WEB_STIFFNESS;
    resting.drive.torque = tension * CORE_RADIUS;
    resting.controller = controller_at_tension(tension, REST_SETPOINT, TENTHS);
    return resting;
}

/* Both readings come as counts. */
static struct Readings read_web(struct Resting *resting)
{
    resting->noise = next_noise(resting->noise);
    int32_t count = (int32_t)lround(plant_tension(&resting->plant) * TENTHS) + noise_within(resting->noise, 1);
    return (struct Readings){
        .present = {[TENSION_READ] = 1, [SETPOINT_READ] = 1},
        .values = {[TENSION_READ] = count, [SETPOINT_READ] = (int32_t)lround(REST_SETPOINT * TENTHS)},
    };
}

static void move_on(struct Resting *resting)
{
    double time = PERIOD / STEPS;
    for (int step = 0; step < STEPS; step++) {
        double torque = drive_step(&resting->drive, resting->command, resting->plant.radius, 0.0, time);
        plant_step(&resting->plant, 0.0, 0.0, torque, time);
    }
}

/* One period: with a division the law written out, without one the law of winder.h. */
static uint32_t one_period(struct Resting *resting, Division divide, struct Row *row)
{
    struct Readings readings = read_web(resting);
    struct Controller *controller = &resting->controller;
    row->tension = plant_tension(&resting->plant);
    row->reading = (double)readings.values[TENSION_READ] / TENTHS;
    uint32_t refusal = 0;
    if (divide != NULL) {
        row->command_count = law_by(divide, &controller->law, &readings, controller->state);
    } else {
        refusal = controller_step(controller, &readings, &row->command_count, &row->limited);
    }
    row->command = (double)row->command_count / TENTHS;
    move_on(resting);
    resting->command = row->command;
    return refusal;
}

static uint32_t hold(Division divide, double tension, struct Record *record)
{
    struct Resting resting = resting_at(tension);
    uint32_t refusal = 0;
    record->count = 0;
    while ((double)record->count * PERIOD <= REST_TIME && refusal == 0) {
        struct Row *row = &record->rows[record->count];
        *row = (struct Row){.time = (double)record->count * PERIOD, .setpoint = REST_SETPOINT};
        refusal = one_period(&resting, divide, row);
        record->count++;
    }
    return refusal;
}

void rest_by(Division divide, double tension, struct Record *record)
{
    (void)hold(divide, tension, record);
}

uint32_t rest(double tension, struct Record *record)
{
    return hold(NULL, tension, record);
}

bool same_commands(const struct Record *one, const struct Record *other)
{
    bool same = one->count == other->count;
    for (size_t i = 0; same && i < one->count; i++) {
        same = one->rows[i].command_count == other->rows[i].command_count;
    }
    return same;
}
