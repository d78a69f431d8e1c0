#include "law.h"

#include <string.h>

/* "The law says with each update and each command whether clamping or limits changed any value" (document 02, L7). */
static struct Limited limited(int64_t value, int32_t low, int32_t high)
{
    if (value < low) {
        return (struct Limited){low, true};
    }
    return value > high ? (struct Limited){high, true} : (struct Limited){(int32_t)value, false};
}

/* "Clamp means: into the i32 range." */
static struct Limited clamped(int64_t value)
{
    return limited(value, INT32_MIN, INT32_MAX);
}

/* "From now on all three go to the nearest whole number, ties to the even one" (document 02, L2). */
static int64_t divided(int64_t sum)
{
    int64_t quotient = sum / 65536;
    int64_t rest = sum % 65536;
    if (rest < 0) {
        quotient -= 1;
        rest += 65536;
    }
    const bool odd = quotient % 2 != 0;
    return rest > 32768 || (rest == 32768 && odd) ? quotient + 1 : quotient;
}

/*
 * A coefficient is at most 2^24 and a value at most 2^31 in magnitude, so that the ten products of the longest sum stay below 2^59.
 */
static int64_t sum_of_products(const int32_t *coefficients, const int32_t *values, int32_t count)
{
    int64_t sum = 0;
    for (int32_t i = 0; i < count; i++) {
        sum += (int64_t)coefficients[i] * values[i];
    }
    return sum;
}

/*
 * "For a present reading j: e(j) = clamp(y(j) − (sum over i of C(j,i) × x(i)) / 65536). For an absent one e(j) = 0."
 * Nothing is clamped for an absent one.
 */
static struct Limited e(const struct Settings *settings, const struct State *state, const struct Readings *readings, int32_t j)
{
    if (readings->present[j] == 0) {
        return (struct Limited){0, false};
    }
    return clamped(readings->y[j] - divided(sum_of_products(settings->C[j], state->x, settings->n)));
}

/*
 * "Update: x'(i) = clamp((sum of A(i,j) × x(j) + sum of L(i,j) × e(j)) / 65536), one division for both sums."
 */
struct Updated update(const struct Settings *settings, const struct State *state, const struct Readings *readings)
{
    struct Updated updated = {{{0}}, false};
    int32_t all_e[MOST_READINGS] = {0};
    for (int32_t j = 0; j < settings->m; j++) {
        const struct Limited e_j = e(settings, state, readings, j);
        all_e[j] = e_j.value;
        updated.clamped = updated.clamped || e_j.changed;
    }
    for (int32_t i = 0; i < settings->n; i++) {
        const int64_t of_state = sum_of_products(settings->A[i], state->x, settings->n);
        const int64_t of_readings = sum_of_products(settings->L[i], all_e, settings->m);
        const struct Limited x_i = clamped(divided(of_state + of_readings));
        updated.state.x[i] = x_i.value;
        updated.clamped = updated.clamped || x_i.changed;
    }
    return updated;
}

/* "Command j: (sum of K(j,i) × x(i)) / 65536, brought into its own limits." */
struct Limited command_value(const struct Settings *settings, const struct State *state, int32_t j)
{
    return limited(divided(sum_of_products(settings->K[j], state->x, settings->n)), settings->low[j], settings->high[j]);
}

struct State starting_state(const struct Settings *settings)
{
    struct State state = {{0}};
    memcpy(state.x, settings->start, sizeof state.x);
    return state;
}

/* Settings, states and readings hold numbers of 32 bits alone, so that there are no bytes between them which could differ. */
bool same_settings(const struct Settings *one, const struct Settings *other)
{
    return memcmp(one, other, sizeof *one) == 0;
}

bool same_state(const struct State *one, const struct State *other)
{
    return memcmp(one, other, sizeof *one) == 0;
}

bool same_readings(const struct Readings *one, const struct Readings *other)
{
    return memcmp(one, other, sizeof *one) == 0;
}
