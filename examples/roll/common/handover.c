#define _POSIX_C_SOURCE 200809L
#include "handover.h"

#include <arpa/inet.h>
#include <fcntl.h>
#include <sys/socket.h>
#include <unistd.h>

#include "process.h"

enum { HIGH_DESCRIPTOR = 20 };

/* It closes by itself in a program that is started, so that no other one keeps it. */
int socket_at(const struct sockaddr_in *address)
{
    int low = socket(AF_INET, SOCK_DGRAM, 0);
    int high = fcntl(low, F_DUPFD_CLOEXEC, HIGH_DESCRIPTOR);
    need(high >= HIGH_DESCRIPTOR && close(low) == 0, "there is no socket");
    need(bind(high, (const struct sockaddr *)address, sizeof *address) == 0, "a socket was not bound");
    return high;
}

int port_of(int socket)
{
    struct sockaddr_in address;
    socklen_t length = sizeof address;
    need(getsockname(socket, (struct sockaddr *)&address, &length) == 0, "a socket has no port");
    return ntohs(address.sin_port);
}

void become(const char *path, char **words, const int *sockets, int count)
{
    for (int i = 0; i < count; i++) {
        need(dup2(sockets[i], FIRST_SOCKET + i) >= 0, "a socket was not handed over");
    }
    execv(path, words);
    need(0, "a program was not started");
}
