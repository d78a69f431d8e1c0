/* The logs of a test roll, as far as a picture shows them. Periods count from 1. */
#ifndef LOGS_H
#define LOGS_H

#include <stdbool.h>
#include <stdint.h>

#include "process.h"
#include "record.h"

struct Logs {
    struct Record record;                   /* of the plant; row k - 1 is period k */
    bool up[BOXES][MOST_ROWS + 1];          /* whether a box, from 0 on, committed something in a period */
    bool coordinated[BOXES][MOST_ROWS + 1]; /* whether a command of the period was decided in a view of this box */
    bool commanded[MOST_ROWS + 1];          /* whether any command of the period was decided .. */
    bool limited[MOST_ROWS + 1];            /* .. and whether it is marked as limited */
};

/* Fills logs that are all 0. Ends the process where a log is missing, or the plant's is not in order. */
void read_logs(const char *folder, struct Logs *logs);

/* The row of a period, and the last one for a period after the roll. */
const struct Row *row_of(const struct Logs *logs, uint32_t period);

#endif
