#include "figures.h"

#include <stdbool.h>
#include <stdio.h>

struct Gap {
    uint32_t periods;
    uint32_t first;
};

/* The roll may be longer than what the boxes decided, and a box may tick on when the plant has stopped. */
static bool has_command(const struct History *history, uint32_t period)
{
    return period <= history->last_decided && history->periods[period].decisions != NULL;
}

static void print_periods(const struct History *history, uint32_t periods)
{
    uint32_t with_command = 0;
    for (uint32_t period = 1; period <= periods; period++) {
        with_command += has_command(history, period);
    }
    const double share = periods == 0 ? 0 : 100.0 * with_command / periods;
    printf("roll: %u periods, %u with a command: %.2f %%\n", periods, with_command, share);
}

static void print_longest_gap(const struct History *history, uint32_t periods)
{
    struct Gap longest = {0, 0};
    struct Gap gap = {0, 1};
    for (uint32_t period = 1; period <= periods; period++) {
        if (has_command(history, period)) {
            gap = (struct Gap){0, period + 1};
        } else {
            gap.periods++;
        }
        longest = gap.periods > longest.periods ? gap : longest;
    }
    if (longest.periods == 0) {
        printf("roll: no gap\n");
    } else {
        printf("roll: longest gap: %u periods, %u to %u\n", longest.periods, longest.first, longest.first + longest.periods - 1);
    }
}

static uint32_t lowest_view(const struct Decision *decision)
{
    uint32_t lowest = UINT32_MAX;
    for (; decision != NULL; decision = decision->next) {
        lowest = decision->view < lowest ? decision->view : lowest;
    }
    return lowest;
}

/* "The coordinator of view v is box (v mod N) + 1." */
static uint32_t coordinator(uint32_t view)
{
    return view % BOXES + 1;
}

static void print_take_overs(const struct History *history)
{
    uint32_t before = 0;
    uint32_t take_overs = 0;
    for (uint32_t period = 1; period <= history->last_decided; period++) {
        if (has_command(history, period)) {
            const uint32_t box = coordinator(lowest_view(history->periods[period].decisions));
            take_overs += before != 0 && box != before;
            before = box;
        }
    }
    printf("roll: %u take-overs\n", take_overs);
}

static void print_frames(const struct History *history)
{
    const size_t *sent = history->sent_of_kind;
    if (history->decided_periods == 0) {
        printf("roll: no decided period, but %zu frames\n", history->sent.count);
        return;
    }
    const double periods = (double)history->decided_periods;
    printf("roll: frames for each decided period: %.2f Propose, %.2f Ack, %.2f Decide, %.2f Estimate\n", (double)sent[1] / periods,
           (double)sent[2] / periods, (double)sent[3] / periods, (double)sent[4] / periods);
}

static void print_returns(const struct History *history)
{
    for (size_t i = 0; i < history->returns.count; i++) {
        const struct Returned *returned = &history->returns.items[i];
        printf("roll: box %d off after period %u, back in period %u: %u missed\n", returned->box, returned->committed,
               returned->period + returned->missed + 1, returned->missed);
    }
}

/* By Newton's rule, from above: it falls until the root is reached as closely as a double can. */
static double root(double square)
{
    double guess = square > 1 ? square : 1;
    double closer = (guess + square / guess) / 2;
    while (closer < guess) {
        guess = closer;
        closer = (guess + square / guess) / 2;
    }
    return guess;
}

static void print_tension(const struct Plant *plant)
{
    if (plant->periods <= FIRST_PERIODS) {
        printf("roll: no tension, as the roll is not longer than its first %d periods\n", FIRST_PERIODS);
        return;
    }
    printf("roll: tension off its setpoint by %.1f N (root mean square), %.1f N at most, in period %u at %.0f mm\n",
           root(plant->squares / (plant->periods - FIRST_PERIODS)), plant->most, plant->period_of_most, plant->diameter_of_most);
}

void print_figures(const struct History *history, const struct Plant *plant)
{
    print_periods(history, plant->periods);
    print_longest_gap(history, plant->periods);
    print_take_overs(history);
    print_frames(history);
    print_returns(history);
    print_tension(plant);
}

/*
 * "provided .. the last one stored is returned" (document 02, L4): such a return breaks what is asked of the host. It is said and
 * is no violation by itself, since what the group did may be right all the same.
 */
void print_early_records(const struct History *history)
{
    for (size_t i = 0; i < history->returns.count; i++) {
        const struct Returned *returned = &history->returns.items[i];
        if (returned->period < returned->committed) {
            printf("checker: box %d returned from period %u, though it had committed period %u\n", returned->box, returned->period,
                   returned->committed);
        }
    }
}
