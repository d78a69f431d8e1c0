/*
 * Whether the boxes and their commands agree: settings that differ in the own number alone, commands that are laid out as
 * documents 01 and 02 say, and all commands of one period alike, at the boxes and at the drive.
 */
#ifndef CHECKER_ALIKE_H
#define CHECKER_ALIKE_H

#include <stdbool.h>

#include "drive.h"
#include "history.h"
#include "report.h"

void check_settings(const struct History *history, struct Report *report);

void check_layout(const struct History *history, struct Report *report);

/* Whether all commands of each period are alike, and every datagram at the drive is one that a box issued. */
bool commands_are_alike(const struct History *history, const struct Drive *drive, struct Report *report);

#endif
