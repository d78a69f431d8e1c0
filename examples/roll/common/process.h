/* What every process of a roll does in the same way: words of its command line, datagrams, and an end in any case. */
#ifndef PROCESS_H
#define PROCESS_H

#include <netinet/in.h>
#include <stddef.h>
#include <stdint.h>

enum { BOXES = 3 };

/* Sockets are handed over, bound, as descriptors from this one on: so a box that is started again listens where it did before. */
enum { FIRST_SOCKET = 3 };

/* Ends the process where it should not go on, with what is the matter. */
void need(int holds, const char *what);

/* A process ends by itself, whatever becomes of the others: after the time of the longest roll, by the clock's period. */
void end_in_time(int64_t period);

/* Words of the command line: a number from 0 on, one up to 255, and HOST:PORT with the host in numbers. */
int64_t number_in(const char *word);
uint8_t byte_in(const char *word);
struct sockaddr_in address_in(const char *word);

/* A datagram that cannot be sent is a lost one. */
void send_datagram(int socket, const struct sockaddr_in *to, const uint8_t *bytes, size_t length);

/* The length of a datagram, cut to the area's; 0 where none is there. */
size_t next_datagram(int socket, uint8_t *area, size_t length);

#endif
