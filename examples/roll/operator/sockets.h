/* The sockets of a roll, all on the loopback, at ports that the system picks. */
#ifndef SOCKETS_H
#define SOCKETS_H

#include "process.h"

struct Socket {
    int descriptor;
    char address[32]; /* HOST:PORT */
};

/* Box i's at place i - 1. */
struct Sockets {
    struct Socket drive;
    struct Socket frames[BOXES];  /* where a box gets frames */
    struct Socket samples[BOXES]; /* where it gets what its transmitter sends */
    struct Socket network[BOXES]; /* where the network gets what is for the box */
};

void bind_all(struct Sockets *sockets);

#endif
