#include "alike.h"

#include <stdlib.h>
#include <string.h>

#include "command.h"
#include "memory.h"

/* "Boxes 1 to N start as fresh replicas whose settings differ in the own number alone." */
void check_settings(const struct History *history, struct Report *report)
{
    for (int32_t box = 1; box <= BOXES; box++) {
        const struct Settings *settings = &history->settings[box - 1];
        if (history->own[box - 1] != box) {
            violation(report, "box-%d.log is of a box with the own number %d", box, history->own[box - 1]);
        }
        if (settings->boxes != BOXES) {
            violation(report, "box %d was made for a group of %d boxes, not of %d", box, settings->boxes, BOXES);
        }
        if (!same_settings(settings, &history->settings[0])) {
            violation(report, "boxes 1 and %d were made with settings that differ in more than the own number", box);
        }
    }
}

static void check_layout_in(const struct History *history, uint32_t period, struct Report *report)
{
    for (const struct Decision *decision = history->periods[period].decisions; decision != NULL; decision = decision->next) {
        if (!is_command(decision->command, history->settings[decision->box - 1].p)) {
            violation(report, "in period %u box %d issued what is not laid out as a command: %s (line %lu)", period, decision->box,
                      decision->command, decision->line);
        } else if (period_of_command(decision->command) != period) {
            violation(report, "in period %u box %d issued a command of period %u: %s (line %lu)", period, decision->box,
                      period_of_command(decision->command), decision->command, decision->line);
        }
    }
}

/* "Ignored: frames and give-ups in period 0", so that no box can decide it. */
void check_layout(const struct History *history, struct Report *report)
{
    for (uint32_t period = 0; period <= history->last_decided; period++) {
        check_layout_in(history, period, report);
    }
    if (history->periods[0].decisions != NULL) {
        violation(report, "box %d issued a command in period 0: %s", history->periods[0].decisions->box,
                  history->periods[0].decisions->command);
    }
}

static void check_alike_in(uint32_t period, const struct Decision *first, struct Report *report)
{
    for (const struct Decision *other = first; other != NULL; other = other->next) {
        if (strcmp(first->command, other->command) != 0) {
            violation(report, "commands of period %u differ: box %d issued %s (line %lu), box %d issued %s (line %lu)", period, first->box,
                      first->command, first->line, other->box, other->command, other->line);
        }
    }
}

static int by_bytes(const void *one, const void *other)
{
    return strcmp(*(const char *const *)one, *(const char *const *)other);
}

/* All commands that boxes issued, in the order of their bytes. */
static const char **commands_issued(const struct History *history)
{
    const char **commands = memory_of(history->commands + 1, sizeof *commands);
    size_t count = 0;
    for (uint32_t period = 0; period <= history->last_decided; period++) {
        for (const struct Decision *decision = history->periods[period].decisions; decision != NULL; decision = decision->next) {
            commands[count++] = decision->command;
        }
    }
    qsort(commands, count, sizeof *commands, by_bytes);
    return commands;
}

static void check_datagrams(const struct History *history, const struct Drive *drive, struct Report *report)
{
    const char **commands = commands_issued(history);
    for (size_t i = 0; i < drive->count; i++) {
        const struct Datagram *datagram = &drive->items[i];
        if (bsearch(&datagram->bytes, commands, history->commands, sizeof *commands, by_bytes) == NULL) {
            violation(report, "at the drive there was a datagram that no box issued: %s (drive.log, line %lu)", datagram->bytes,
                      datagram->line);
        }
    }
}

bool commands_are_alike(const struct History *history, const struct Drive *drive, struct Report *report)
{
    const size_t before = report->violations;
    for (uint32_t period = 0; period <= history->last_decided; period++) {
        check_alike_in(period, history->periods[period].decisions, report);
    }
    check_datagrams(history, drive, report);
    return report->violations == before;
}
