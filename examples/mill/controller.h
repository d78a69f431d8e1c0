/*
 * The tension controller: tables for the law of winder.h, and one period of it.
 *
 * The law knows whole numbers alone. Here a force counts in 1/65536 of a newton, as a converted single does, and the lead in 1/65536 of a
 * millimetre per second; then a gain is what it is in newtons and millimetres per second, and a rounding is far below what a load cell
 * tells.
 */
#ifndef CONTROLLER_H
#define CONTROLLER_H

#include <stdbool.h>
#include <stdint.h>

#include "readings.h"
#include "winder.h"

#define PERIOD 0.01 /* s */

struct Controller {
    struct winder_settings law;
    int32_t state[WINDER_STATES_MAX];
};

struct Controller controller_at_start(void);

/*
 * The same gains with forces counted in 1/newton of a newton and the lead in as much of a millimetre per second, as they stand where a web
 * is held at the tension and the drive knows of no drag.
 */
struct Controller controller_at_tension(double tension, double setpoint, int32_t newton);

/*
 * One period: the readings in, the command for the next period out, and whether it is limited: not what the gains alone would give, since
 * clamping or a limit changed a value in the update or in the command. The result is 0, or the number by which the law refused; then both
 * are as they were.
 */
uint32_t controller_step(struct Controller *controller, const struct Readings *readings, int32_t *command, bool *limited);

#endif
