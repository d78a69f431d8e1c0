/*
 * What the boxes' logs say of the whole roll, put in order by periods: the rows that boxes were handed, the states that they held
 * as their estimate's, their decisions; and beside that the frames that were sent and that arrived, and the returns.
 */
#ifndef CHECKER_HISTORY_H
#define CHECKER_HISTORY_H

#include <stddef.h>
#include <stdint.h>

#include "law.h"

/* A record is returned by at most 10,000 missed periods (document 02, L4, refusal 16). */
enum { BOXES = 3, MOST_PERIOD = 1000000, MOST_MISSED = 10000, FRAME_KINDS = 5 };

/* A row of readings that some box was handed for the period. */
struct Row {
    struct Readings readings;
    struct Row *next;
};

/* A state that some box held as its estimate's in the period. */
struct Held {
    struct State state;
    struct Held *next;
};

/* A step that decided the period: its view, its command's bytes, and Update of its estimate, whose state is its decided state. */
struct Decision {
    int32_t box;
    unsigned long line;
    uint32_t view;
    const char *command;
    struct Updated decided;
    struct Decision *next;
};

struct Period {
    struct Row *rows;
    struct Held *held;
    struct Decision *decisions;
};

/* A frame's bytes in the log of a box: one that it sent, or one that arrived there. */
struct Frame {
    const char *bytes;
    int32_t box;
    unsigned long line;
};

struct Frames {
    struct Frame *items;
    size_t count;
    size_t room;
};

/* A box returned from a record of this period by missed periods, having committed up to the period committed. */
struct Returned {
    int32_t box;
    uint32_t committed;
    uint32_t period;
    uint32_t missed;
};

struct Returns {
    struct Returned *items;
    size_t count;
    size_t room;
};

struct History {
    int32_t own[BOXES];
    struct Settings settings[BOXES];
    struct Period *periods;
    uint32_t last_decided;
    size_t decided_periods;
    size_t commands;
    size_t sent_of_kind[FRAME_KINDS];
    struct Frames sent;
    struct Frames arrived;
    struct Returns returns;
};

/* A history in which nothing has occurred. */
void history_begin(struct History *history);

void add_row(struct History *history, uint32_t period, const struct Readings *readings);
void add_held(struct History *history, uint32_t period, const struct State *state);
void add_decision(struct History *history, uint32_t period, const struct Decision *decision);
void add_sent(struct History *history, const struct Frame *frame);
void add_arrived(struct History *history, const struct Frame *frame);
void add_returned(struct History *history, const struct Returned *returned);

#endif
