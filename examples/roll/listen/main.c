/*
 * listen: starts a program of the roll on a machine of its own, with sockets at addresses of that machine.
 *
 *   listen ADDRESS .. -- PROGRAM WORDS ..
 */
#include <string.h>

#include "handover.h"
#include "process.h"

enum { MOST_SOCKETS = 8 };

int main(int count, char **words)
{
    int sockets[MOST_SOCKETS], bound = 0;
    while (bound < MOST_SOCKETS && 1 + bound < count && strcmp(words[1 + bound], "--") != 0) {
        struct sockaddr_in address = address_in(words[1 + bound]);
        sockets[bound++] = socket_at(&address);
    }
    need(2 + bound < count && strcmp(words[1 + bound], "--") == 0, "usage: listen ADDRESS .. -- PROGRAM WORDS ..");
    become(words[2 + bound], words + 2 + bound, sockets, bound);
    return 0;
}
