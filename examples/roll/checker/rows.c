#include "rows.h"

#include <stdio.h>
#include <string.h>

#include "command.h"
#include "memory.h"

/* States that the single controller may be in after a step, each once. */
struct States {
    struct State *items;
    size_t count;
    size_t room;
};

static void include(struct States *states, const struct State *state)
{
    for (size_t i = 0; i < states->count; i++) {
        if (same_state(&states->items[i], state)) {
            return;
        }
    }
    states->items = memory_grown(states->items, states->count, &states->room, sizeof *states->items);
    states->items[states->count++] = *state;
}

static bool is_held(const struct Held *held, const struct State *state)
{
    while (held != NULL && !same_state(&held->state, state)) {
        held = held->next;
    }
    return held != NULL;
}

/* "each decided state of period k is the controller's after step k" */
static bool is_each_decided(const struct Decision *decision, const struct State *state)
{
    while (decision != NULL && same_state(&decision->decided.state, state)) {
        decision = decision->next;
    }
    return decision == NULL;
}

/* Whether the box issued what the law gives for its own estimate. */
static bool is_of_its_estimate(const struct History *history, uint32_t period, const struct Decision *decision)
{
    char command[COMMAND_HEX];
    command_of(&history->settings[0], period, &decision->decided, command);
    return strcmp(command, decision->command) == 0;
}

/*
 * "each command written for k holds its command k, byte for byte as under Frames". A step that gives the decided state may give
 * another byte 2 than the command issued, since two rows may lead to one state, one of them clamped: such a row does not serve. A
 * command that is not of its own box's estimate is a violation whatever the rows are (check_commands), and no row is held to it, so
 * that one fault is one violation.
 */
static bool is_each_command(const struct History *history, uint32_t period, const struct Updated *stepped)
{
    char command[COMMAND_HEX];
    command_of(&history->settings[0], period, stepped, command);
    const struct Decision *decision = history->periods[period].decisions;
    while (decision != NULL && (strcmp(command, decision->command) == 0 || !is_of_its_estimate(history, period, decision))) {
        decision = decision->next;
    }
    return decision == NULL;
}

/*
 * After a period without a decision the single controller might be in as many states as there are choices of rows so far, and
 * these double or triple with each period. Those that no box held as its estimate's state in the next period are left out: an
 * estimate's state is Update of the estimate before, so that the run to a decided state goes through states that boxes held.
 * Leaving out states can only make the checker find a violation that is none, never hide one.
 *
 * Whether a step was clamped is asked here alone, of each step by itself, in the period whose command shows it. What comes later
 * depends on the state alone, so that steps which give one state may go on as one.
 */
static bool may_be_after(const struct History *history, uint32_t period, const struct Updated *stepped)
{
    const struct Decision *decisions = history->periods[period].decisions;
    if (decisions != NULL) {
        return is_each_decided(decisions, &stepped->state) && is_each_command(history, period, stepped);
    }
    return is_held(history->periods[period + 1].held, &stepped->state);
}

/* "Step k makes the state Update(state, row k)", for every row k that some box was handed. */
static void step(const struct History *history, uint32_t period, const struct State *before, struct States *after)
{
    for (const struct Row *row = history->periods[period].rows; row != NULL; row = row->next) {
        const struct Updated stepped = update(&history->settings[0], before, &row->readings);
        if (may_be_after(history, period, &stepped)) {
            include(after, &stepped.state);
        }
    }
}

static void step_all(const struct History *history, uint32_t period, const struct States *before, struct States *after)
{
    after->count = 0;
    for (size_t i = 0; i < before->count; i++) {
        step(history, period, &before->items[i], after);
    }
}

static void write_state(const struct State *state, int32_t n, char *text, size_t room)
{
    size_t length = 0;
    for (int32_t i = 0; i < n; i++) {
        length += (size_t)snprintf(text + length, room - length, " %d", state->x[i]);
    }
}

static bool some_row_leads_to_decided(const struct History *history, uint32_t period, const struct State *before)
{
    for (const struct Row *row = history->periods[period].rows; row != NULL; row = row->next) {
        const struct Updated stepped = update(&history->settings[0], before, &row->readings);
        if (is_each_decided(history->periods[period].decisions, &stepped.state)) {
            return true;
        }
    }
    return false;
}

/* Whether the decided states can be reached: then it is the commands alone that no choice gives. */
static bool leads_to_decided(const struct History *history, uint32_t period, const struct States *before)
{
    size_t i = 0;
    while (i < before->count && !some_row_leads_to_decided(history, period, &before->items[i])) {
        i++;
    }
    return i < before->count;
}

static void report_none(const struct History *history, uint32_t reached, uint32_t period, const struct States *before,
                        struct Report *report)
{
    const struct Decision *decision = history->periods[period].decisions;
    const char *but = leads_to_decided(history, period, before) ? " with the commands issued, though one leads to its state" : "";
    char state[12 * MOST_STATES + 1];
    write_state(&decision->decided.state, history->settings[0].n, state, sizeof state);
    violation(report, "no choice of rows leads from period %u, the last decided one reached, to decided period %u%s (box %d, state%s)",
              reached, period, but, decision->box, state);
}

static void report_different(const struct History *history, uint32_t period, struct Report *report)
{
    const struct Decision *first = history->periods[period].decisions;
    for (const struct Decision *other = first; other != NULL; other = other->next) {
        if (!same_state(&first->decided.state, &other->decided.state)) {
            violation(report, "decided states of period %u differ: that of box %d (line %lu) and that of box %d (line %lu)", period,
                      first->box, first->line, other->box, other->line);
        }
    }
}

/* Where no choice leads to the decided states the search goes on from them, so that each break of the run is found by itself. */
static void go_on_from_decided(const struct History *history, uint32_t period, struct States *after)
{
    for (const struct Decision *decision = history->periods[period].decisions; decision != NULL; decision = decision->next) {
        include(after, &decision->decided.state);
    }
}

/* "each command written for k holds its command k, byte for byte as under Frames" */
static void check_commands(const struct History *history, uint32_t period, struct Report *report)
{
    for (const struct Decision *decision = history->periods[period].decisions; decision != NULL; decision = decision->next) {
        char command[COMMAND_HEX];
        command_of(&history->settings[0], period, &decision->decided, command);
        if (strcmp(command, decision->command) != 0) {
            violation(report, "in period %u box %d issued %s, but the law's command of its decided state is %s (line %lu)", period,
                      decision->box, decision->command, command, decision->line);
        }
    }
}

/* The states that meet every decision of the period, or, where there are none, the decided states themselves. */
static void hold_to_decisions(const struct History *history, uint32_t reached, uint32_t period, const struct States *before,
                              struct States *after, struct Report *report)
{
    if (after->count == 0) {
        report_none(history, reached, period, before, report);
        report_different(history, period, report);
        go_on_from_decided(history, period, after);
    }
    check_commands(history, period, report);
}

/*
 * "The single controller holds one state, at first the starting state. It is fed one row of readings for each period from 1 to the
 * last one decided." "One choice of rows serves all decided periods".
 */
bool one_choice_of_rows(const struct History *history, struct Report *report)
{
    const size_t violations = report->violations;
    const struct State start = starting_state(&history->settings[0]);
    struct States before = {0};
    struct States after = {0};
    uint32_t reached = 0;
    include(&before, &start);
    for (uint32_t period = 1; period <= history->last_decided; period++) {
        step_all(history, period, &before, &after);
        if (history->periods[period].decisions != NULL) {
            hold_to_decisions(history, reached, period, &before, &after, report);
            reached = period;
        }
        const struct States swapped = before;
        before = after;
        after = swapped;
    }
    return report->violations == violations;
}
