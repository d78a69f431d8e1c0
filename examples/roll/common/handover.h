/* Sockets that one program binds and another one is handed, as descriptors from FIRST_SOCKET on. */
#ifndef HANDOVER_H
#define HANDOVER_H

#include <netinet/in.h>

/* A socket at an address, out of the way of the descriptors that are handed over. At port 0 the system picks one. */
int socket_at(const struct sockaddr_in *address);

/* The port that a socket is at. */
int port_of(int socket);

/* Becomes another program, which gets these sockets. */
void become(const char *path, char **words, const int *sockets, int count);

#endif
