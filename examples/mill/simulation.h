/* The whole winder, period by period. */
#ifndef SIMULATION_H
#define SIMULATION_H

#include <stdint.h>

#include "record.h"

/* Winds one roll and fills the record. The result is 0, or the number by which the law refused the call of the row after the last. */
uint32_t simulate(struct Record *record);

#endif
