#include "early.h"

#include "word.h"

enum { FRAME_PERIOD_AT = 4, HEADER = 20 };

bool is_early(const struct Arrived *arrived, uint32_t period)
{
    return arrived->length >= HEADER && word_at(arrived->bytes + FRAME_PERIOD_AT) == period + 1;
}

void keep_early(struct Early *early, const struct Arrived *arrived)
{
    if (early->count < MOST_EARLY) {
        early->frames[early->count++] = *arrived;
    }
}
