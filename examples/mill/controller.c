#include "controller.h"

#include <math.h>
#include <stddef.h>

#include "line.h"
#include "plant.h"

#define MILLIMETRES 1000.0 /* in one metre */

enum { STATES = 4, COMMANDS = 1 };

/*
 * The state. Lead is how much faster the roll's surface runs than the line. Drag is the force at the surface that holds the roll back:
 * friction, and the inertia that the drive does not know of. It is nowhere measured; its estimate is what takes away lasting errors.
 */
enum { TENSION, LEAD, DRAG, SETPOINT };

/* The roll's inertia as a mass at its surface: from 178 kg it falls to 112 kg and rises to 163 kg, and one number must do for all. */
#define DESIGN_MASS 120.0

/* Newtons for each millimetre per second of lead too much: a damping of 0.6. */
#define DAMPING 4.8

/*
 * In newtons. The highest is what the drive can bring at every radius: of its 200 N m a ramp of the line takes 29 N m at the full radius of
 * 0.4 m, and what is left is 427 N there.
 */
#define LOWEST_COMMAND 0
#define HIGHEST_COMMAND 425

/* What one period adds: tension by lead, lead by force, and the share of the tension that the roll carries away. */
#define TENSION_BY_LEAD (WEB_STIFFNESS / SPAN * PERIOD / MILLIMETRES)
#define LEAD_BY_FORCE (PERIOD / DESIGN_MASS * MILLIMETRES)
#define CARRIED_AWAY (LINE_SPEED / SPAN * PERIOD)

/* Lead that a steady tension has, for each newton of it: the web on the roll is longer than it came out of the nip. */
#define LEAD_OF_TENSION (CARRIED_AWAY / TENSION_BY_LEAD)

/* Span and roll over one period with no command. The new lead comes first and makes the new tension. */
static const double model[STATES][STATES] = {
    [TENSION] = {1.0 - CARRIED_AWAY - TENSION_BY_LEAD * LEAD_BY_FORCE, TENSION_BY_LEAD, -TENSION_BY_LEAD * LEAD_BY_FORCE, 0.0},
    [LEAD] = {-LEAD_BY_FORCE, 1.0, -LEAD_BY_FORCE, 0.0},
    [DRAG] = {0.0, 0.0, 1.0, 0.0},
    [SETPOINT] = {0.0, 0.0, 0.0, 1.0},
};

/* What one newton of command adds. */
static const double effect[STATES] = {TENSION_BY_LEAD * LEAD_BY_FORCE, LEAD_BY_FORCE, 0.0, 0.0};

/* The command is the setpoint plus the drag, less the damping of the lead beyond what the setpoint's own lead is. */
static const double feedback[STATES] = {0.0, -DAMPING, 1.0, 1.0 + DAMPING * LEAD_OF_TENSION};

/* How far a reading moves the estimate, by state and reading. The estimate's error then shrinks by about 0.7, 0.7 and 0.9 a period. */
static const double correction[STATES][READINGS] = {
    [TENSION] = {0.55, 0.0},
    [LEAD] = {0.022, 0.0},
    [DRAG] = {-0.08, 0.0},
    [SETPOINT] = {0.0, 1.0},
};

/* A gain in units of 1/65536. */
static int32_t scaled(double gain)
{
    return (int32_t)lround(gain * 65536.0);
}

/* Row i of A carries the effect of the command: the model's row, and what the feedback of each state brings about. */
static void fill_row(struct winder_settings *law, size_t i)
{
    for (size_t j = 0; j < STATES; j++) {
        law->a[i * 6 + j] = scaled(model[i][j] + effect[i] * feedback[j]);
    }
}

/* With so many units in a newton; gains are the same in all units. */
static struct winder_settings settings(int32_t newton)
{
    struct winder_settings law = {.n = STATES, .m = READINGS, .p = COMMANDS};
    law.low[0] = LOWEST_COMMAND * newton;
    law.high[0] = HIGHEST_COMMAND * newton;
    for (size_t i = 0; i < STATES; i++) {
        fill_row(&law, i);
        law.l[i * 4 + TENSION_READ] = scaled(correction[i][TENSION_READ]);
        law.l[i * 4 + SETPOINT_READ] = scaled(correction[i][SETPOINT_READ]);
        law.k[i] = scaled(feedback[i]);
    }
    law.c[TENSION_READ * 6 + TENSION] = scaled(1.0);
    law.c[SETPOINT_READ * 6 + SETPOINT] = scaled(1.0);
    return law;
}

struct Controller controller_at_start(void)
{
    return (struct Controller){.law = settings(NEWTON)};
}

struct Controller controller_at_tension(double tension, double setpoint, int32_t newton)
{
    struct Controller controller = {.law = settings(newton)};
    controller.state[TENSION] = (int32_t)lround(tension * newton);
    controller.state[LEAD] = (int32_t)lround(LEAD_OF_TENSION * tension * newton);
    controller.state[SETPOINT] = (int32_t)lround(setpoint * newton);
    return controller;
}

/* The mark of a box's command is that of the update and the command together, and so is this one. */
uint32_t controller_step(struct Controller *controller, const struct Readings *readings, int32_t *command, bool *limited)
{
    int32_t commands[WINDER_COMMANDS_MAX];
    uint8_t in_update, in_command;

    uint32_t refusal = winder_update_with(&controller->law, readings->present, readings->values, controller->state, &in_update);
    if (refusal != 0) {
        return refusal;
    }
    refusal = winder_command_with(&controller->law, controller->state, commands, &in_command);
    if (refusal == 0) {
        *command = commands[0];
        *limited = in_update != 0 || in_command != 0;
    }
    return refusal;
}
