/*
 * box: one controller box. It is made fresh, or returns from its record after a power cycle; then it takes events until it is killed.
 *
 *   box make|return READY OWN FIRST PERIOD RECORDS LOG in-order|sends-first DECIDE PROPOSE DRIVE BOX1 BOX2 BOX3
 *
 * READY is the instant at which it has booted, 0 for at once; FIRST and PERIOD are those of the clock. RECORDS is the folder of its record,
 * LOG its log; DECIDE and PROPOSE are the boxes needed to decide, and heard before a new coordinator proposes: a box that returns has those
 * of its record. DRIVE and BOX1 to BOX3 are addresses. The box gets frames at the first socket handed over, and what its transmitter sends
 * at the second.
 */
#define _POSIX_C_SOURCE 200809L
#include <fcntl.h>
#include <poll.h>
#include <string.h>

#include "box.h"
#include "controller.h"
#include "events.h"
#include "journal.h"
#include "layout.h"
#include "store.h"
#include "timer.h"
#include "word.h"

enum { VERB = 1, READY, OWN, FIRST, CLOCK_PERIOD, RECORDS, LOG, ORDER, TO_DECIDE, TO_PROPOSE, DRIVE, BOX_1, WORDS = BOX_1 + BOXES };

static struct Box box_of(char **words)
{
    struct Box box = {
        .own = byte_in(words[OWN]),
        .clock = {.first = number_in(words[FIRST]), .period = number_in(words[CLOCK_PERIOD])},
        .sends_first = strcmp(words[ORDER], "sends-first") == 0,
        .folder = open(words[RECORDS], O_RDONLY),
        .log = journal_opened(words[LOG]),
        .frames = FIRST_SOCKET,
        .samples = FIRST_SOCKET + 1,
        .tick_timer = timer_made(),
        .give_up_timer = timer_made(),
        .drive = address_in(words[DRIVE]),
    };
    for (int other = 1; other <= BOXES; other++) {
        box.boxes[other] = address_in(words[BOX_1 + other - 1]);
    }
    return box;
}

/* The record is stored before the first event, so that a box which is killed at once has one. */
static void make(struct Box *box, uint8_t to_decide, uint8_t to_propose)
{
    uint8_t record[WINDER_RECORD];
    struct Controller controller = controller_at_start();
    need(winder_make_with(&controller.law, controller.state, BOXES, box->own, to_decide, to_propose, record, sizeof record) == 0,
         "making was refused");
    need(store(box->folder, box->own, record), "the record of a fresh box was not stored");
    need(winder_tickets(record, sizeof record, ASKED_OF(box)) == 0, "tickets were refused");
    journal_made(box, &controller.law, controller.state);
}

/* What came while the box was off is lost. */
static void empty(int socket)
{
    uint8_t bytes[WINDER_FRAME_AREA];
    while (next_datagram(socket, bytes, sizeof bytes) > 0) {
    }
}

/* Missed are the ticks that are due by the clock, less those that the record has. */
static void come_back(struct Box *box)
{
    uint8_t stored[WINDER_RECORD], record[WINDER_RECORD];
    empty(box->frames);
    empty(box->samples);
    need(load(box->folder, box->own, stored), "there is no record: the box must not rejoin the group");
    uint32_t missed = ticks_due(&box->clock, clock_now()) - word_at(stored + PERIOD_AT);
    need(winder_return(stored, sizeof stored, missed, record, sizeof record) == 0, "returning was refused");
    need(winder_tickets(record, sizeof record, ASKED_OF(box)) == 0, "tickets were refused");
    journal_returned(box, stored, missed);
}

/* Of several the last one counts: the ticks before it are made up for without readings. */
static void take_samples(struct Box *box)
{
    uint8_t bytes[SAMPLE_BYTES + 1];
    struct Sample sample;
    for (size_t length; (length = next_datagram(box->samples, bytes, sizeof bytes)) > 0;) {
        if (sample_read(bytes, length, &sample)) {
            box->sample = sample;
        }
    }
}

static void take_frame(struct Box *box)
{
    struct Arrived arrived;
    arrived.length = next_datagram(box->frames, arrived.bytes, sizeof arrived.bytes);
    if (arrived.length > 0) {
        arrives(box, &arrived);
    }
}

/* One of each kind of event at a time, so that no tick waits for many frames; the sample first, which the tick hands in. */
static void take_events(struct Box *box)
{
    enum { SAMPLE, TICK, GIVE_UP, FRAME, KINDS };
    struct pollfd waited[KINDS] = {
        [SAMPLE] = {box->samples, POLLIN, 0},
        [TICK] = {box->tick_timer, POLLIN, 0},
        [GIVE_UP] = {box->give_up_timer, POLLIN, 0},
        [FRAME] = {box->frames, POLLIN, 0},
    };
    need(poll(waited, KINDS, -1) > 0, "waiting for events failed");
    if (waited[SAMPLE].revents != 0) {
        take_samples(box);
    }
    if (timer_rang(box->tick_timer)) {
        ticks(box);
    }
    if (timer_rang(box->give_up_timer)) {
        gives_up(box);
    }
    if (waited[FRAME].revents != 0) {
        take_frame(box);
    }
}

int main(int count, char **words)
{
    need(count == WORDS, "usage: box make|return READY OWN FIRST PERIOD RECORDS LOG in-order|sends-first DECIDE PROPOSE DRIVE BOX1 BOX2 BOX3");
    struct Box box = box_of(words);
    end_in_time(box.clock.period);
    sleep_until(number_in(words[READY]));
    if (strcmp(words[VERB], "make") == 0) {
        make(&box, byte_in(words[TO_DECIDE]), byte_in(words[TO_PROPOSE]));
    } else {
        come_back(&box);
    }
    timer_set(box.tick_timer, ticked_at(&box.clock, box_period(&box) + 1));
    for (;;) {
        take_events(&box);
    }
}
