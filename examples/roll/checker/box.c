#include "box.h"

#include <stdbool.h>
#include <stdio.h>
#include <string.h>

#include "conversion.h"
#include "lines.h"

enum Event { EVENT_NONE, EVENT_TICK, EVENT_ARRIVAL, EVENT_GIVE_UP };

/* A box while its log is read: ticks is its count of ticks, asked the event that is neither committed nor known not to occur. */
struct Box {
    struct Log log;
    struct History *history;
    struct Report *report;
    int32_t number;
    bool made;
    const struct Settings *settings;
    uint32_t ticks;
    enum Event asked;
    struct Readings asked_row;
    uint32_t committed;
};

/* What `committed` and `returned` lines say of the replica: its period, its view and its estimate. */
struct Replica {
    uint32_t period;
    uint32_t view;
    struct State state;
    struct Readings readings;
};

static const struct Readings all_absent = {{0}, {0}};

static void read_numbers(struct Log *log, int32_t *numbers, int32_t count, int64_t low, int64_t high)
{
    for (int32_t i = 0; i < count; i++) {
        numbers[i] = (int32_t)log_number(log, low, high);
    }
}

static void read_table(struct Log *log, int32_t table[][TABLE_COLUMNS], int32_t rows, int32_t columns)
{
    for (int32_t row = 0; row < rows; row++) {
        read_numbers(log, table[row], columns, -LARGEST_COEFFICIENT, LARGEST_COEFFICIENT);
    }
}

static void read_settings(struct Log *log, struct Settings *settings)
{
    settings->boxes = (int32_t)log_number(log, 3, 9);
    settings->n = (int32_t)log_number(log, 1, MOST_STATES);
    settings->m = (int32_t)log_number(log, 1, MOST_READINGS);
    settings->p = (int32_t)log_number(log, 1, MOST_COMMANDS);
    read_table(log, settings->A, settings->n, settings->n);
    read_table(log, settings->L, settings->n, settings->m);
    read_table(log, settings->C, settings->m, settings->n);
    read_table(log, settings->K, settings->p, settings->n);
    read_numbers(log, settings->low, settings->p, INT32_MIN, INT32_MAX);
    read_numbers(log, settings->high, settings->p, INT32_MIN, INT32_MAX);
    read_numbers(log, settings->start, settings->n, INT32_MIN, INT32_MAX);
}

static void read_made(struct Box *box)
{
    if (box->made) {
        log_unreadable(&box->log, "made stands in the first line alone");
    }
    box->made = true;
    box->history->own[box->number - 1] = (int32_t)log_number(&box->log, 1, 9);
    read_settings(&box->log, &box->history->settings[box->number - 1]);
    log_no_more(&box->log);
}

/* A value that is not 0 under an absent mark is not of the logs' form. */
static struct Replica read_replica(struct Box *box)
{
    struct Replica replica = {0};
    replica.period = (uint32_t)log_number(&box->log, 0, MOST_PERIOD);
    replica.view = (uint32_t)log_number(&box->log, 0, UINT32_MAX);
    read_numbers(&box->log, replica.state.x, box->settings->n, INT32_MIN, INT32_MAX);
    for (int32_t j = 0; j < box->settings->m; j++) {
        const bool present = log_number(&box->log, 0, 1) == 1;
        replica.readings.present[j] = present ? 1 : 0;
        replica.readings.y[j] = (int32_t)log_number(&box->log, present ? INT32_MIN : 0, present ? INT32_MAX : 0);
    }
    return replica;
}

static void ask(struct Box *box, enum Event event)
{
    log_no_more(&box->log);
    if (box->asked != EVENT_NONE) {
        log_unreadable(&box->log, "the event asked before this one has no line that says what became of it");
    }
    box->asked = event;
}

static void read_tick(struct Box *box)
{
    for (int32_t j = 0; j < box->settings->m; j++) {
        const enum Kind kind = (enum Kind)log_number(&box->log, KIND_MISSING, KIND_SINGLE);
        convert_reading(&box->asked_row, j, kind, (uint32_t)log_number(&box->log, 0, UINT32_MAX));
    }
    ask(box, EVENT_TICK);
}

static void read_arrive(struct Box *box)
{
    const struct Frame frame = {log_bytes(&box->log), box->number, box->log.line};
    ask(box, EVENT_ARRIVAL);
    add_arrived(box->history, &frame);
}

static void read_give_up(struct Box *box)
{
    ask(box, EVENT_GIVE_UP);
}

/* "Row k is one that some box was handed for period k: by that box's k-th tick not refused." */
static void count_tick(struct Box *box)
{
    box->ticks++;
    add_row(box->history, box->ticks, &box->asked_row);
}

/* After a count that is wrong the box's own word is taken, so that one fault is one violation. */
static void hold_to_count(struct Box *box, uint32_t period)
{
    if (period != box->ticks) {
        violation(box->report, "ticks do not count up: box %d is in period %u after %u ticks (line %lu)", box->number, period, box->ticks,
                  box->log.line);
    }
    box->ticks = period;
}

/*
 * "Its decided state is Update of the estimate's state and readings in the replica that this step gives back."
 */
static void decide(struct Box *box, const struct Replica *replica, const char *command)
{
    struct Decision decision = {.box = box->number, .line = box->log.line, .view = replica->view, .command = command};
    decision.decided = update(box->settings, &replica->state, &replica->readings);
    add_decision(box->history, replica->period, &decision);
}

static void read_committed(struct Box *box)
{
    const struct Frame frame = {log_bytes_or_none(&box->log), box->number, box->log.line};
    const char *command = log_bytes_or_none(&box->log);
    const struct Replica replica = read_replica(box);
    log_no_more(&box->log);
    if (box->asked == EVENT_NONE) {
        log_unreadable(&box->log, "committed, and no event was asked");
    }
    if (box->asked == EVENT_TICK) {
        count_tick(box);
    }
    box->asked = EVENT_NONE;
    hold_to_count(box, replica.period);
    box->committed = replica.period;
    add_held(box->history, replica.period, &replica.state);
    if (frame.bytes != NULL) {
        add_sent(box->history, &frame);
    }
    if (command != NULL) {
        decide(box, &replica, command);
    }
}

static void read_refused(struct Box *box)
{
    log_number(&box->log, 1, UINT32_MAX);
    log_no_more(&box->log);
    box->asked = EVENT_NONE;
}

static void read_unstored(struct Box *box)
{
    log_no_more(&box->log);
    if (box->asked == EVENT_NONE) {
        log_unreadable(&box->log, "unstored, and no event was asked");
    }
    box->asked = EVENT_NONE;
}

/*
 * "Returning takes a record and a count of missed periods, and yields the replica that a box would be which stayed up, was handed
 * no reading in those periods and lost every frame" (document 02, L4). "The state becomes Update of the estimate's state and
 * readings, except on the first tick (period 0 to 1)."
 */
static void miss_periods(struct Box *box, const struct Replica *record, uint32_t missed)
{
    struct State state = record->period == 0 ? record->state : update(box->settings, &record->state, &record->readings).state;
    for (uint32_t period = record->period + 1; period <= record->period + missed; period++) {
        add_row(box->history, period, &all_absent);
        add_held(box->history, period, &state);
        state = update(box->settings, &state, &all_absent).state;
    }
}

static void read_returned(struct Box *box)
{
    const struct Replica record = read_replica(box);
    log_expect(&box->log, "missed");
    const uint32_t missed = (uint32_t)log_number(&box->log, 0, MOST_MISSED);
    log_no_more(&box->log);
    /* "an event never committed has not occurred, unless its record is returned" (document 02, L6) */
    if (box->asked == EVENT_TICK && record.period == box->ticks + 1) {
        count_tick(box);
    }
    box->asked = EVENT_NONE;
    /* A record below the count is one of before: rows handed since stay, and what counts is what the group did with them. */
    if (record.period > box->ticks) {
        hold_to_count(box, record.period);
    }
    add_held(box->history, record.period, &record.state);
    miss_periods(box, &record, missed);
    box->ticks = record.period + missed;
    const struct Returned returned = {box->number, box->committed, record.period, missed};
    add_returned(box->history, &returned);
}

static void read_line(struct Box *box)
{
    static const struct {
        const char *name;
        void (*read)(struct Box *box);
    } forms[] = {{"made", read_made},           {"tick", read_tick},       {"arrive", read_arrive},     {"give-up", read_give_up},
                 {"committed", read_committed}, {"refused", read_refused}, {"unstored", read_unstored}, {"returned", read_returned}};
    const char *name = log_word(&box->log);
    size_t form = 0;
    while (form < sizeof forms / sizeof forms[0] && strcmp(forms[form].name, name) != 0) {
        form++;
    }
    if (form == sizeof forms / sizeof forms[0]) {
        log_unreadable(&box->log, "a line of no known form");
    }
    if (!box->made && forms[form].read != read_made) {
        log_unreadable(&box->log, "the first line is not made");
    }
    forms[form].read(box);
}

void read_box(struct History *history, struct Report *report, const char *folder, int32_t number)
{
    struct Box box = {.history = history, .report = report, .number = number, .settings = &history->settings[number - 1]};
    char name[32];
    snprintf(name, sizeof name, "box-%d.log", number);
    log_open(&box.log, folder, name);
    enum Line line = log_next_line(&box.log);
    while (line != LINE_NONE) {
        if (line == LINE_WHOLE) {
            read_line(&box);
        }
        line = log_next_line(&box.log);
    }
    if (!box.made) {
        log_unreadable(&box.log, "there is no line that says how the replica was made");
    }
}
