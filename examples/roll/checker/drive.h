/*
 * The log of the drive: the datagrams that reached it, and which of them it took.
 */
#ifndef CHECKER_DRIVE_H
#define CHECKER_DRIVE_H

#include <stdbool.h>
#include <stddef.h>
#include <stdint.h>

#include "report.h"

struct Datagram {
    const char *bytes;
    bool taken;
    unsigned long line;
};

struct Drive {
    struct Datagram *items;
    size_t count;
    size_t room;
};

void read_drive(struct Drive *drive, const char *folder);

/* Whether the drive took the first command of a period, and no other. p is the number of values of a command. */
void check_taken(const struct Drive *drive, int32_t p, struct Report *report);

#endif
