#define _POSIX_C_SOURCE 200809L
#include "process.h"

#include <arpa/inet.h>
#include <errno.h>
#include <stdio.h>
#include <stdlib.h>
#include <string.h>
#include <sys/socket.h>
#include <unistd.h>

#define SECOND 1000000000
#define LONGEST_ROLL 30000 /* periods */
#define MORE_TIME 10       /* s, for starting and ending */

void need(int holds, const char *what)
{
    if (!holds) {
        fprintf(stderr, "roll: %s\n", what);
        exit(2);
    }
}

void end_in_time(int64_t period)
{
    alarm((unsigned)(period * LONGEST_ROLL / SECOND) + MORE_TIME);
}

int64_t number_in(const char *word)
{
    char *end;
    errno = 0;
    long long number = strtoll(word, &end, 10);
    need(end != word && *end == '\0' && errno == 0 && number >= 0, "a number is not one");
    return number;
}

uint8_t byte_in(const char *word)
{
    int64_t number = number_in(word);
    need(number <= UINT8_MAX, "a number is above 255");
    return (uint8_t)number;
}

struct sockaddr_in address_in(const char *word)
{
    struct sockaddr_in address = {.sin_family = AF_INET};
    char host[INET_ADDRSTRLEN] = {0};
    const char *colon = strchr(word, ':');
    need(colon != NULL && (size_t)(colon - word) < sizeof host, "an address is not HOST:PORT");
    memcpy(host, word, (size_t)(colon - word));
    need(inet_pton(AF_INET, host, &address.sin_addr) == 1, "a host is not one in numbers");
    int64_t port = number_in(colon + 1);
    need(port <= UINT16_MAX, "a port is not one");
    address.sin_port = htons((uint16_t)port);
    return address;
}

void send_datagram(int socket, const struct sockaddr_in *to, const uint8_t *bytes, size_t length)
{
    ssize_t sent = sendto(socket, bytes, length, MSG_DONTWAIT, (const struct sockaddr *)to, sizeof *to);
    (void)sent;
}

size_t next_datagram(int socket, uint8_t *area, size_t length)
{
    ssize_t received = recv(socket, area, length, MSG_DONTWAIT);
    return received < 0 ? 0 : (size_t)received;
}
