#include "simulation.h"

#include <math.h>
#include <string.h>

#include "cell.h"
#include "controller.h"
#include "drive.h"
#include "line.h"
#include "plant.h"
#include "readings.h"
#include "single.h"

struct Winder {
    struct Plant plant;
    struct Cell cell;
    struct Drive drive;
    struct Line line;
    struct Controller controller;
    double command; /* in force now */
};

/* The load cell's transmitter sends singles; the desk that sets the tension sends counts. */
static struct Sent sent_by(const struct Winder *winder)
{
    double radius = winder->plant.radius;
    return (struct Sent){
        .tension = cell_sends(&winder->cell, line_tension_is_read(wound_length(radius))),
        .setpoint = (int32_t)lround(line_setpoint(radius) * NEWTON),
    };
}

static struct Row read_winder(const struct Winder *winder, double now)
{
    double radius = winder->plant.radius;
    double length = wound_length(radius);
    struct Sent sent = sent_by(winder);
    return (struct Row){
        .time = now,
        .length = length,
        .radius = radius,
        .speed = winder->line.speed,
        .setpoint = line_setpoint(radius),
        .tension = plant_tension(&winder->plant),
        .reading = single_of(sent.tension),
        .splice = line_in_splice(length),
        .sent = sent,
    };
}

static void move_on(struct Winder *winder, double now)
{
    double time = PERIOD / STEPS;
    for (int step = 0; step < STEPS; step++) {
        struct Plant *plant = &winder->plant;
        line_step(&winder->line, now + step * time, plant->radius, time);
        double torque = drive_step(&winder->drive, winder->command, plant->radius, winder->line.acceleration, time);
        plant_step(plant, winder->line.speed, line_slack(wound_length(plant->radius)), torque, time);
        cell_sample(&winder->cell, plant_tension(plant));
    }
}

/* While the law works on this period's readings, the drive still has the command of the period before. */
static uint32_t one_period(struct Winder *winder, struct Row *row, double now)
{
    *row = read_winder(winder, now);
    struct Readings readings = converted(row->sent);
    row->present = readings.present[TENSION_READ];
    memcpy(row->state, winder->controller.state, sizeof row->state);
    uint32_t refusal = controller_step(&winder->controller, &readings, &row->command_count, &row->limited);
    if (refusal != 0) {
        return refusal;
    }
    row->command = (double)row->command_count / NEWTON;
    move_on(winder, now);
    winder->command = row->command;
    return 0;
}

static bool has_ended(const struct Winder *winder, const struct Record *record)
{
    bool is_wound = winder->plant.radius > (CORE_RADIUS + FULL_RADIUS) / 2.0;
    return (is_wound && winder->line.speed == 0.0) || record->count == MOST_ROWS;
}

uint32_t simulate(struct Record *record)
{
    struct Winder winder = {.plant = plant_at_start(), .cell = cell_at_start(), .controller = controller_at_start()};
    record->count = 0;
    while (!has_ended(&winder, record)) {
        uint32_t refusal = one_period(&winder, &record->rows[record->count], (double)record->count * PERIOD);
        if (refusal != 0) {
            return refusal;
        }
        record->count++;
    }
    return 0;
}
