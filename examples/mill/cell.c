#include "cell.h"

#include <math.h>

#include "noise.h"
#include "single.h"

#define HUNDREDTHS 100 /* of a newton: what samples are counted in */
#define MOST_OFF 1000  /* most that one sample is off, either way: 10 N */
#define SHARE 16       /* one sample moves the low-pass by this part: a time constant of 8 ms, 20 Hz */
#define SCALE 65536

struct Cell cell_at_start(void)
{
    return (struct Cell){.noise = NOISE_SEED, .filtered = 0};
}

void cell_sample(struct Cell *cell, double tension)
{
    cell->noise = next_noise(cell->noise);
    int64_t sample = (int64_t)lround(tension * HUNDREDTHS) + noise_within(cell->noise, MOST_OFF);
    cell->filtered += (sample * SCALE - cell->filtered) / SHARE;
}

static float filtered_newtons(const struct Cell *cell)
{
    return (float)((double)cell->filtered / (SCALE * HUNDREDTHS));
}

uint32_t cell_sends(const struct Cell *cell, bool reads)
{
    return bits_of(reads ? filtered_newtons(cell) : NAN);
}
