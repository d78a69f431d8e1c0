#include "transmitter.h"

#include <math.h>

#include "chance.h"
#include "readings.h"

#define HUNDREDTHS 100 /* in one newton: a cell filters hundredths, a count is of newtons, both in 1/65536 */

enum { CHANCE_USE = 64 }; /* and the box's number more */

/* The cell's generator stays at 0 once it is there. */
static uint32_t noise_of(uint64_t seed, int box)
{
    struct Chance chance = chance_of(seed, CHANCE_USE + (uint64_t)box);
    return (uint32_t)chance_below(&chance, UINT32_MAX) + 1;
}

struct Transmitter transmitter_at_start(uint64_t seed, int box)
{
    struct Transmitter transmitter = {.cell = cell_at_start(), .kind = box == 1 ? WINDER_SINGLE : WINDER_COUNT};
    transmitter.cell.noise = noise_of(seed, box);
    return transmitter;
}

/* Of a tension that is not read a single is a NaN, and a count is missing. */
static void put_tension(struct Sample *sample, const struct Transmitter *transmitter, bool reads)
{
    const struct Cell *cell = &transmitter->cell;
    if (transmitter->kind == WINDER_SINGLE) {
        sample->kinds[TENSION_READ] = WINDER_SINGLE;
        sample->bits[TENSION_READ] = cell_sends(cell, reads);
    } else if (reads) {
        sample->kinds[TENSION_READ] = WINDER_COUNT;
        sample->bits[TENSION_READ] = (uint32_t)(cell->filtered / HUNDREDTHS);
    }
}

struct Sample transmitter_sends(const struct Transmitter *transmitter, uint32_t period, bool reads, double setpoint)
{
    struct Sample sample = {.period = period, .kinds = {WINDER_MISSING}};
    put_tension(&sample, transmitter, reads);
    sample.kinds[SETPOINT_READ] = WINDER_COUNT;
    sample.bits[SETPOINT_READ] = (uint32_t)lround(setpoint * NEWTON);
    return sample;
}
