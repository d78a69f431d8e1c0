/* Frames that wait in the network for their time. */
#ifndef WAITING_H
#define WAITING_H

#include <stdbool.h>
#include <stddef.h>
#include <stdint.h>

enum { LONGEST_DATAGRAM = 128, MOST_WAITING = 256 };

struct Datagram {
    int box; /* that it is for, counted from 0 */
    size_t length;
    uint8_t bytes[LONGEST_DATAGRAM];
};

struct Waiting {
    size_t count;
    struct {
        int64_t due;
        struct Datagram datagram;
    } places[MOST_WAITING];
};

/* One that finds no room is a lost one. */
void wait_until(struct Waiting *waiting, int64_t due, const struct Datagram *datagram);

/* Takes one that is due out; false where none is. */
bool next_due(struct Waiting *waiting, int64_t now, struct Datagram *datagram);

/* When the first is due; 0 where none waits. */
int64_t first_due(const struct Waiting *waiting);

#endif
