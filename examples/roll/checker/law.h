/*
 * The law of document 01 with the rounding of document 02, L2, and with L7's word on whether clamping or limits changed a value:
 * settings, states, readings, Update and the command. Whole numbers alone. Places beyond n, m and p are 0 in all that is made here
 * or read from a log, so that equal states are equal bytes.
 */
#ifndef CHECKER_LAW_H
#define CHECKER_LAW_H

#include <stdbool.h>
#include <stdint.h>

enum { MOST_STATES = 6, MOST_READINGS = 4, MOST_COMMANDS = 4, LARGEST_COEFFICIENT = 16777216 };

/* Every table is as wide as the widest one, so that all four are read alike. */
enum { TABLE_COLUMNS = MOST_STATES };

struct Settings {
    int32_t boxes;
    int32_t n;
    int32_t m;
    int32_t p;
    int32_t A[MOST_STATES][TABLE_COLUMNS];
    int32_t L[MOST_STATES][TABLE_COLUMNS];
    int32_t C[MOST_READINGS][TABLE_COLUMNS];
    int32_t K[MOST_COMMANDS][TABLE_COLUMNS];
    int32_t low[MOST_COMMANDS];
    int32_t high[MOST_COMMANDS];
    int32_t start[MOST_STATES];
};

struct State {
    int32_t x[MOST_STATES];
};

/* present: 1 or 0 for each place; y is 0 where absent. */
struct Readings {
    int32_t present[MOST_READINGS];
    int32_t y[MOST_READINGS];
};

/* A value brought into its limits, and whether that changed it: one exactly at its limit stays what it was. */
struct Limited {
    int32_t value;
    bool changed;
};

/* What Update gives: the state, and whether clamping changed an e of a present reading or a value of this state. */
struct Updated {
    struct State state;
    bool clamped;
};

struct State starting_state(const struct Settings *settings);

struct Updated update(const struct Settings *settings, const struct State *state, const struct Readings *readings);

/* Command j of the state, j from 0, and whether its limits changed it. */
struct Limited command_value(const struct Settings *settings, const struct State *state, int32_t j);

bool same_settings(const struct Settings *one, const struct Settings *other);
bool same_state(const struct State *one, const struct State *other);
bool same_readings(const struct Readings *one, const struct Readings *other);

#endif
