/* An IEEE 754 single and its bits, as a fieldbus hands them. */
#ifndef SINGLE_H
#define SINGLE_H

#include <stdint.h>

uint32_t bits_of(float single);
float single_of(uint32_t bits);

#endif
