/*
 * operator: winds one roll. It starts the plant, the network and the boxes, unplugs boxes and plugs them in again by a seed, and ends when
 * the roll is wound.
 *
 *   operator SEED PERIOD PROGRAMS RECORDS LOGS in-order|sends-first DECIDE PROPOSE LOST DOUBLED DELAYED REORDERED
 *
 * PERIOD is the clock's, in nanoseconds; PROGRAMS, RECORDS and LOGS are folders; DECIDE and PROPOSE are the quorums of all boxes; the rates
 * of the network are in so many of a thousand.
 */
#define _POSIX_C_SOURCE 200809L
#include <inttypes.h>
#include <signal.h>
#include <stdio.h>
#include <sys/wait.h>
#include <unistd.h>

#include "clock.h"
#include "handover.h"
#include "process.h"
#include "schedule.h"
#include "sockets.h"

enum { SEED = 1, CLOCK_PERIOD, PROGRAMS, RECORDS, LOGS, ORDER, TO_DECIDE, TO_PROPOSE, LOST, DOUBLED, DELAYED, REORDERED, WORDS };

#define HEAD_START 300000000 /* ns, until all processes wait for the first period */
#define BOOT 10              /* periods that a box takes from its power to its return */

struct Roll {
    char **words;
    struct Clock clock;
    char first[24]; /* its first instant, as a word */
    struct Sockets sockets;
    pid_t network, plant, boxes[BOXES + 1];
};

static pid_t start(const struct Roll *roll, char **words, const int *sockets, int count)
{
    char path[4096];
    snprintf(path, sizeof path, "%s/%s", roll->words[PROGRAMS], words[0]);
    fflush(stdout); /* else the new process would print what waits here once more */
    pid_t process = fork();
    need(process >= 0, "a process was not started");
    if (process == 0) {
        become(path, words, sockets, count);
    }
    return process;
}

static void start_network(struct Roll *roll)
{
    struct Socket *in = roll->sockets.network, *out = roll->sockets.frames;
    char **given = roll->words;
    char *words[] = {"network", given[SEED], given[CLOCK_PERIOD], given[LOST], given[DOUBLED], given[DELAYED], given[REORDERED],
                     out[0].address, out[1].address, out[2].address, NULL};
    roll->network = start(roll, words, (int[]){in[0].descriptor, in[1].descriptor, in[2].descriptor}, BOXES);
}

static void start_plant(struct Roll *roll)
{
    struct Socket *out = roll->sockets.samples;
    char *words[] = {"plant", roll->words[SEED], roll->first, roll->words[CLOCK_PERIOD], roll->words[LOGS],
                     out[0].address, out[1].address, out[2].address, NULL};
    roll->plant = start(roll, words, &roll->sockets.drive.descriptor, 1);
}

/* Fresh, or from its record. The other boxes are where the network takes what is for them. */
static void start_box(struct Roll *roll, int box, char *verb, int64_t ready)
{
    struct Sockets *sockets = &roll->sockets;
    struct Socket *out = sockets->network;
    char own[4], booted[24], records[4096], log[4096];
    snprintf(own, sizeof own, "%d", box);
    snprintf(booted, sizeof booted, "%" PRId64, ready);
    snprintf(records, sizeof records, "%s/%d", roll->words[RECORDS], box);
    snprintf(log, sizeof log, "%s/box-%d.log", roll->words[LOGS], box);
    char **given = roll->words;
    char *words[] = {"box", verb, booted, own, roll->first, given[CLOCK_PERIOD], records, log, given[ORDER], given[TO_DECIDE], given[TO_PROPOSE],
                     sockets->drive.address, out[0].address, out[1].address, out[2].address, NULL};
    roll->boxes[box] = start(roll, words, (int[]){sockets->frames[box - 1].descriptor, sockets->samples[box - 1].descriptor}, 2);
}

/* A process must still be there when it is ended. The plant alone ends by itself. */
static void end(pid_t process, int signal)
{
    int status;
    need(waitpid(process, &status, WNOHANG) == 0, "a process ended by itself");
    need(kill(process, signal) == 0 && waitpid(process, &status, 0) == process, "a process was not ended");
}

static void make_move(struct Roll *roll, const struct Move *move)
{
    sleep_until(move->instant);
    if (move->plugs_in) {
        start_box(roll, move->box, "return", move->instant + BOOT * roll->clock.period);
    } else {
        end(roll->boxes[move->box], SIGKILL);
    }
    printf("roll: box %d %s in period %" PRIu32 "\n", move->box, move->plugs_in ? "plugged in again" : "unplugged",
           ticks_due(&roll->clock, clock_now()));
}

static void end_all(struct Roll *roll)
{
    int status;
    need(waitpid(roll->plant, &status, 0) == roll->plant && status == 0, "the roll was not wound");
    for (int box = 1; box <= BOXES; box++) {
        end(roll->boxes[box], SIGTERM);
    }
    end(roll->network, SIGTERM);
}

static struct Roll roll_of(char **words)
{
    struct Roll roll = {.words = words, .clock = {.first = clock_now() + HEAD_START, .period = number_in(words[CLOCK_PERIOD])}};
    snprintf(roll.first, sizeof roll.first, "%" PRId64, roll.clock.first);
    bind_all(&roll.sockets);
    return roll;
}

int main(int count, char **words)
{
    need(count == WORDS, "usage: operator SEED PERIOD PROGRAMS RECORDS LOGS in-order|sends-first DECIDE PROPOSE LOST DOUBLED DELAYED REORDERED");
    setvbuf(stdout, NULL, _IOLBF, 0); /* a line at a time, for whoever looks on */
    struct Move moves[MOVES];
    struct Roll roll = roll_of(words);
    end_in_time(roll.clock.period);
    schedule_of((uint64_t)number_in(words[SEED]), &roll.clock, moves);
    start_network(&roll);
    start_plant(&roll);
    for (int box = 1; box <= BOXES; box++) {
        start_box(&roll, box, "make", 0);
    }
    for (int i = 0; i < MOVES; i++) {
        make_move(&roll, &moves[i]);
    }
    end_all(&roll);
    return 0;
}
