#include "history.h"

#include <string.h>

#include "command.h"
#include "memory.h"

void history_begin(struct History *history)
{
    memset(history, 0, sizeof *history);
    /* A box may return from the largest period by the most missed ones and tick once more. */
    history->periods = memory_of(MOST_PERIOD + MOST_MISSED + 2, sizeof *history->periods);
}

/* Boxes are mostly handed alike rows and hold alike states: each is kept once, so that the search for a choice of rows stays short. */
void add_row(struct History *history, uint32_t period, const struct Readings *readings)
{
    struct Row **place = &history->periods[period].rows;
    while (*place != NULL && !same_readings(&(*place)->readings, readings)) {
        place = &(*place)->next;
    }
    if (*place == NULL) {
        *place = memory_of(1, sizeof **place);
        (*place)->readings = *readings;
    }
}

void add_held(struct History *history, uint32_t period, const struct State *state)
{
    struct Held **place = &history->periods[period].held;
    while (*place != NULL && !same_state(&(*place)->state, state)) {
        place = &(*place)->next;
    }
    if (*place == NULL) {
        *place = memory_of(1, sizeof **place);
        (*place)->state = *state;
    }
}

void add_decision(struct History *history, uint32_t period, const struct Decision *decision)
{
    struct Decision **place = &history->periods[period].decisions;
    history->decided_periods += *place == NULL;
    history->commands++;
    history->last_decided = period > history->last_decided ? period : history->last_decided;
    while (*place != NULL) {
        place = &(*place)->next;
    }
    *place = memory_of(1, sizeof **place);
    **place = *decision;
}

static void add_frame(struct Frames *frames, const struct Frame *frame)
{
    frames->items = memory_grown(frames->items, frames->count, &frames->room, sizeof *frames->items);
    frames->items[frames->count++] = *frame;
}

void add_sent(struct History *history, const struct Frame *frame)
{
    const uint8_t kind = byte_of(frame->bytes, 0);
    history->sent_of_kind[kind < FRAME_KINDS ? kind : 0]++;
    add_frame(&history->sent, frame);
}

void add_arrived(struct History *history, const struct Frame *frame)
{
    add_frame(&history->arrived, frame);
}

void add_returned(struct History *history, const struct Returned *returned)
{
    struct Returns *returns = &history->returns;
    returns->items = memory_grown(returns->items, returns->count, &returns->room, sizeof *returns->items);
    returns->items[returns->count++] = *returned;
}
