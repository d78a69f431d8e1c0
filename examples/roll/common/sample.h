/* What a transmitter sends for one period, and its bytes: the period, then kind and bits of each place, numbers little-endian. */
#ifndef SAMPLE_H
#define SAMPLE_H

#include <stdbool.h>
#include <stddef.h>
#include <stdint.h>

#include "winder.h"

#define SAMPLE_BYTES (4 + 5 * WINDER_READINGS_MAX)

struct Sample {
    uint32_t period;
    uint8_t kinds[WINDER_READINGS_MAX]; /* enum winder_reading */
    uint32_t bits[WINDER_READINGS_MAX];
};

void sample_write(const struct Sample *sample, uint8_t bytes[SAMPLE_BYTES]);

/* False where the bytes are none. */
bool sample_read(const uint8_t *bytes, size_t length, struct Sample *sample);

#endif
