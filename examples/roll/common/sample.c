#include "sample.h"

#include "word.h"

void sample_write(const struct Sample *sample, uint8_t bytes[SAMPLE_BYTES])
{
    put_word(bytes, sample->period);
    for (size_t j = 0; j < WINDER_READINGS_MAX; j++) {
        bytes[4 + 5 * j] = sample->kinds[j];
        put_word(bytes + 5 + 5 * j, sample->bits[j]);
    }
}

bool sample_read(const uint8_t *bytes, size_t length, struct Sample *sample)
{
    if (length != SAMPLE_BYTES) {
        return false;
    }
    sample->period = word_at(bytes);
    for (size_t j = 0; j < WINDER_READINGS_MAX; j++) {
        sample->kinds[j] = bytes[4 + 5 * j];
        sample->bits[j] = word_at(bytes + 5 + 5 * j);
    }
    return true;
}
