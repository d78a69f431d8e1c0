/* Noise in whole numbers, so that it is the same on every machine. */
#ifndef NOISE_H
#define NOISE_H

#include <stdint.h>

#define NOISE_SEED 20261115u

/* The number after x, which is not 0; nor is the result. */
uint32_t next_noise(uint32_t x);

/* A number from -most to most, made of x: any as likely as another. */
int32_t noise_within(uint32_t x, uint32_t most);

#endif
