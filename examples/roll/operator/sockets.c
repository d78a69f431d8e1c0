#include "sockets.h"

#include <stdio.h>

#include "handover.h"

static struct Socket bound(void)
{
    struct Socket made;
    struct sockaddr_in loopback = address_in("127.0.0.1:0");
    made.descriptor = socket_at(&loopback);
    snprintf(made.address, sizeof made.address, "127.0.0.1:%d", port_of(made.descriptor));
    return made;
}

void bind_all(struct Sockets *sockets)
{
    sockets->drive = bound();
    for (int box = 0; box < BOXES; box++) {
        sockets->frames[box] = bound();
        sockets->samples[box] = bound();
        sockets->network[box] = bound();
    }
}
