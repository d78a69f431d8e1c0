#include "frames.h"

#include <stdbool.h>
#include <stdlib.h>
#include <string.h>

static int by_bytes(const void *one, const void *other)
{
    return strcmp(((const struct Frame *)one)->bytes, ((const struct Frame *)other)->bytes);
}

/* The first of the frames, in the order of their bytes, that does not come before these bytes. */
static size_t first_not_before(const struct Frames *sent, const char *bytes)
{
    size_t low = 0;
    size_t high = sent->count;
    while (low < high) {
        const size_t middle = low + (high - low) / 2;
        if (strcmp(sent->items[middle].bytes, bytes) < 0) {
            low = middle + 1;
        } else {
            high = middle;
        }
    }
    return low;
}

/*
 * "An arriving frame has the bytes of one that an earlier entry sent; a sent frame may arrive at any boxes, any number of times or
 * never." The logs have no common clock, so that what is earlier is not looked at.
 */
static bool was_sent_by_another(const struct Frames *sent, const struct Frame *arrived)
{
    size_t place = first_not_before(sent, arrived->bytes);
    while (place < sent->count && strcmp(sent->items[place].bytes, arrived->bytes) == 0) {
        if (sent->items[place].box != arrived->box) {
            return true;
        }
        place++;
    }
    return false;
}

void check_frames(struct History *history, struct Report *report)
{
    if (history->sent.count > 0) {
        qsort(history->sent.items, history->sent.count, sizeof *history->sent.items, by_bytes);
    }
    for (size_t i = 0; i < history->arrived.count; i++) {
        const struct Frame *arrived = &history->arrived.items[i];
        if (!was_sent_by_another(&history->sent, arrived)) {
            violation(report, "at box %d a frame arrived that no other box sent: %s (line %lu)", arrived->box, arrived->bytes,
                      arrived->line);
        }
    }
}
