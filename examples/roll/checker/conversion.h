/*
 * Readings as the transmitters send them (document 02, L1), converted to what the law reads.
 */
#ifndef CHECKER_CONVERSION_H
#define CHECKER_CONVERSION_H

#include <stdint.h>

#include "law.h"

enum Kind { KIND_MISSING = 0, KIND_COUNT = 1, KIND_SINGLE = 2 };

/* Place j of the readings becomes this reading, converted. */
void convert_reading(struct Readings *readings, int32_t j, enum Kind kind, uint32_t bits);

#endif
