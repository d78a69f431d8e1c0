#include "rounding.h"

#include <stddef.h>
#include <string.h>

#define UNIT 65536
#define HALF (UNIT / 2)

int64_t toward_minus_infinity(int64_t sum)
{
    return sum / UNIT - (sum % UNIT < 0);
}

/* Half a unit more and then down makes a tie go up: back from there where that is odd. */
int64_t to_nearest(int64_t sum)
{
    int64_t up = toward_minus_infinity(sum + HALF);
    return (sum - HALF) % UNIT == 0 && up % 2 != 0 ? up - 1 : up;
}

static int64_t sum_of(const int32_t *coefficients, const int32_t *values, size_t count)
{
    int64_t sum = 0;
    for (size_t i = 0; i < count; i++) {
        sum += (int64_t)coefficients[i] * values[i];
    }
    return sum;
}

static int32_t innovation(Division divide, const struct winder_settings *law, const struct Readings *readings, const int32_t *x, size_t j)
{
    int64_t predicted = divide(sum_of(&law->c[j * WINDER_STATES_MAX], x, law->n));
    return readings->present[j] ? (int32_t)(readings->values[j] - predicted) : 0;
}

static int32_t limited(int64_t value, int32_t low, int32_t high)
{
    if (value < low) {
        return low;
    }
    return value > high ? high : (int32_t)value;
}

int32_t law_by(Division divide, const struct winder_settings *law, const struct Readings *readings, int32_t state[WINDER_STATES_MAX])
{
    int32_t e[WINDER_READINGS_MAX] = {0};
    int32_t next[WINDER_STATES_MAX] = {0};
    for (size_t j = 0; j < law->m; j++) {
        e[j] = innovation(divide, law, readings, state, j);
    }
    for (size_t i = 0; i < law->n; i++) {
        int64_t of_state = sum_of(&law->a[i * WINDER_STATES_MAX], state, law->n);
        next[i] = (int32_t)divide(of_state + sum_of(&law->l[i * WINDER_READINGS_MAX], e, law->m));
    }
    memcpy(state, next, sizeof next);
    return limited(divide(sum_of(law->k, state, law->n)), law->low[0], law->high[0]);
}
