/*
 * network: what lies between the boxes. It loses, doubles, delays and reorders their frames by a seed, each so often in a thousand.
 *
 *   network SEED PERIOD LOST DOUBLED DELAYED REORDERED BOX1 BOX2 BOX3
 *
 * What comes in at the first socket handed over is for box 1, at the second for box 2, at the third for box 3; BOX1 to BOX3 are their
 * addresses. A delayed frame waits for up to three periods of the clock; a reordered one goes behind the next to the same box. Ended by
 * SIGTERM it prints what it has done.
 */
#define _POSIX_C_SOURCE 200809L
#include <inttypes.h>
#include <poll.h>
#include <signal.h>
#include <stdio.h>

#include "chance.h"
#include "clock.h"
#include "process.h"
#include "timer.h"
#include "waiting.h"

enum { SEED = 1, CLOCK_PERIOD, LOST, DOUBLED, DELAYED, REORDERED, BOX_1, WORDS = BOX_1 + BOXES };
enum { CHANCE_USE = 1, MOST_PERIODS_LATE = 3 };

/* Milliseconds between two looks at whether the network is ended: a signal that comes right before the wait does not end the wait. */
enum { LOOK = 100 };

struct Network {
    struct Chance chance;
    uint64_t rates[WORDS]; /* LOST to REORDERED */
    uint64_t counts[WORDS];
    uint64_t passed;
    int64_t period;
    struct sockaddr_in boxes[BOXES];
    struct Waiting waiting;
    struct Datagram behind[BOXES]; /* waits for the next one to its box; none where its length is 0 */
    int timer;
};

static volatile sig_atomic_t is_ended;

static void end(int signal)
{
    (void)signal;
    is_ended = 1;
}

static bool happens(struct Network *network, int what)
{
    bool happened = chance_permille(&network->chance, network->rates[what]);
    network->counts[what] += happened;
    return happened;
}

static void deliver(struct Network *network, const struct Datagram *datagram)
{
    send_datagram(FIRST_SOCKET, &network->boxes[datagram->box], datagram->bytes, datagram->length);
}

/* The frame itself, and then one that was to go behind it. */
static void deliver_next(struct Network *network, const struct Datagram *datagram)
{
    struct Datagram *behind = &network->behind[datagram->box];
    deliver(network, datagram);
    if (behind->length > 0) {
        deliver(network, behind);
        behind->length = 0;
    }
}

static void pass_on(struct Network *network, const struct Datagram *datagram)
{
    if (happens(network, DELAYED)) {
        uint64_t late = chance_below(&network->chance, MOST_PERIODS_LATE * (uint64_t)network->period);
        wait_until(&network->waiting, clock_now() + (int64_t)late, datagram);
    } else if (network->behind[datagram->box].length == 0 && happens(network, REORDERED)) {
        network->behind[datagram->box] = *datagram;
    } else {
        deliver_next(network, datagram);
    }
}

static void take(struct Network *network, const struct Datagram *datagram)
{
    network->passed++;
    if (happens(network, LOST)) {
        return;
    }
    pass_on(network, datagram);
    if (happens(network, DOUBLED)) {
        pass_on(network, datagram);
    }
}

static void deliver_due(struct Network *network)
{
    struct Datagram datagram;
    while (next_due(&network->waiting, clock_now(), &datagram)) {
        deliver_next(network, &datagram);
    }
}

/* The sockets of the boxes, and the timer of what waits. */
static void take_all(struct Network *network)
{
    struct pollfd waited[BOXES + 1] = {[BOXES] = {network->timer, POLLIN, 0}};
    for (int box = 0; box < BOXES; box++) {
        waited[box] = (struct pollfd){FIRST_SOCKET + box, POLLIN, 0};
    }
    timer_set(network->timer, first_due(&network->waiting));
    poll(waited, BOXES + 1, LOOK);
    for (int box = 0; box < BOXES; box++) {
        struct Datagram datagram = {.box = box};
        datagram.length = next_datagram(FIRST_SOCKET + box, datagram.bytes, sizeof datagram.bytes);
        if (datagram.length > 0) {
            take(network, &datagram);
        }
    }
    deliver_due(network);
}

static struct Network network_of(char **words)
{
    struct Network network = {
        .chance = chance_of((uint64_t)number_in(words[SEED]), CHANCE_USE),
        .period = number_in(words[CLOCK_PERIOD]),
        .timer = timer_made(),
    };
    for (int what = LOST; what <= REORDERED; what++) {
        network.rates[what] = (uint64_t)number_in(words[what]);
    }
    for (int box = 0; box < BOXES; box++) {
        network.boxes[box] = address_in(words[BOX_1 + box]);
    }
    return network;
}

int main(int count, char **words)
{
    need(count == WORDS, "usage: network SEED PERIOD LOST DOUBLED DELAYED REORDERED BOX1 BOX2 BOX3");
    const struct sigaction on_end = {.sa_handler = end};
    need(sigaction(SIGTERM, &on_end, NULL) == 0, "SIGTERM cannot be handled");
    static struct Network network;
    network = network_of(words);
    end_in_time(network.period);
    while (!is_ended) {
        take_all(&network);
    }
    printf("roll: the network had %" PRIu64 " frames: %" PRIu64 " lost, %" PRIu64 " doubled, %" PRIu64 " delayed, %" PRIu64 " reordered\n",
           network.passed, network.counts[LOST], network.counts[DOUBLED], network.counts[DELAYED], network.counts[REORDERED]);
    return 0;
}
