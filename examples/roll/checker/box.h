/*
 * The log of one box, read line by line into the history. The ticks of the box are counted on the way: the k-th tick not refused
 * hands the box its row of period k.
 */
#ifndef CHECKER_BOX_H
#define CHECKER_BOX_H

#include <stdint.h>

#include "history.h"
#include "report.h"

/* Reads the log of the box of this number. Ticks that do not count up are violations. */
void read_box(struct History *history, struct Report *report, const char *folder, int32_t number);

#endif
