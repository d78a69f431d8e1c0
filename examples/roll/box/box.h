/* A box: its replica with tickets, what its calls are lent, and what connects it with the world. */
#ifndef BOX_H
#define BOX_H

#include <netinet/in.h>
#include <stdbool.h>
#include <stddef.h>
#include <stdint.h>

#include "clock.h"
#include "early.h"
#include "process.h"
#include "sample.h"
#include "winder.h"

struct Box {
    uint8_t own;
    struct Clock clock;
    bool sends_first; /* breaks a condition of docs/FIRMWARE.md: what a step gives leaves before its record is stored */

    uint8_t replica[WINDER_TICKETED];

    /* What an ask gave. */
    uint8_t record[WINDER_RECORD];
    uint8_t frame[WINDER_FRAME_AREA];
    uint8_t command[WINDER_COMMAND_AREA];
    size_t lengths[2];
    uint64_t ticket[1];

    struct Sample sample; /* the latest of the transmitter */
    struct Early early;

    int folder, log;     /* of its record; and its log */
    int frames, samples; /* sockets, where they come in */
    int tick_timer, give_up_timer;
    struct sockaddr_in drive, boxes[BOXES + 1]; /* boxes 1 to BOXES */
};

#define ASKED_OF(box) (box)->replica, sizeof (box)->replica
#define LENT_BY(box)                                                                                                                        \
    (box)->record, sizeof (box)->record, (box)->frame, sizeof (box)->frame, (box)->command, sizeof (box)->command, (box)->lengths, (box)->ticket

/* The period of the replica. */
uint32_t box_period(const struct Box *box);

#endif
