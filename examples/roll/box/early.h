/* Frames of the next period that come before the box's own tick. Nobody sends them again, so they wait for it. */
#ifndef EARLY_H
#define EARLY_H

#include <stdbool.h>
#include <stddef.h>
#include <stdint.h>

#include "winder.h"

enum { MOST_EARLY = 16 };

struct Arrived {
    size_t length;
    uint8_t bytes[WINDER_FRAME_AREA + 1]; /* one more, so that a datagram which is too long is no frame */
};

struct Early {
    size_t count;
    struct Arrived frames[MOST_EARLY];
};

/* Whether a frame is of the period after this one. */
bool is_early(const struct Arrived *arrived, uint32_t period);

/* One that finds no room is a lost one. */
void keep_early(struct Early *early, const struct Arrived *arrived);

#endif
