/* Numbers of 32 bits in bytes, lowest first. */
#ifndef WORD_H
#define WORD_H

#include <stdint.h>

uint32_t word_at(const uint8_t *bytes);
void put_word(uint8_t *bytes, uint32_t word);

#endif
