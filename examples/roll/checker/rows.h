/*
 * One choice of rows for all decided periods: whether the single controller, fed one row for each period that some box was handed,
 * has every decided state, and its commands are the commands issued.
 */
#ifndef CHECKER_ROWS_H
#define CHECKER_ROWS_H

#include <stdbool.h>

#include "history.h"
#include "report.h"

bool one_choice_of_rows(const struct History *history, struct Report *report);

#endif
