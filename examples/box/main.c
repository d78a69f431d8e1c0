/*
 * Three boxes and a network in one program. Box 1 loses its power in period 3, its proposal sent, and is back in period 6. Prints the commands of
 * each period; ends with 0 only if all commands of a period are alike.
 */
#include <fcntl.h>
#include <stdio.h>
#include <stdlib.h>
#include <string.h>

#include "store.h"

enum { BOXES = 3, TO_DECIDE = 2, TO_PROPOSE = 2, PERIODS = 8, STOP = 3, BACK = 6 };

static const struct winder_settings bench = {
    .n = 1, .m = 1, .p = 1, .a = {65536}, .l = {32768}, .c = {65536}, .k = {65536}, .low = {INT32_MIN}, .high = {INT32_MAX}};

static uint8_t replicas[BOXES + 1][WINDER_RECORD]; /* of boxes 1 to 3 */
static int up[BOXES + 1], folder;                  /* the folder of stored records; -1 is in memory */
#define EACH_UP(own) for (int own = 1; own <= BOXES; own++) if (up[own])

/* The network, which brings every frame to every box; and what a step is lent. */
static struct { size_t length; uint8_t bytes[WINDER_FRAME_AREA]; } sent[64];
static size_t sent_count;
static uint8_t frame[WINDER_FRAME_AREA], command[WINDER_COMMAND_AREA];
static size_t lengths[2];
#define LENT frame, sizeof frame, command, sizeof command, lengths

static void need(int holds, const char *what)
{
    if (!holds) {
        fprintf(stderr, "box: %s\n", what);
        exit(1);
    }
}

/* A command goes to the drive. All of a period must be alike, the mark of a limited one too; with these limits and readings none is. */
static void issue(int own)
{
    static uint32_t last, period;
    static int32_t taken, values[4];
    static uint8_t mark, limited;
    need(winder_read_command(bench.p, command, lengths[1], &period, values, &limited) == 0, "this is no command");
    need(period != last || (values[0] == taken && limited == mark), "two commands of one period differ");
    last = period;
    taken = values[0];
    mark = limited;
    printf(" %d (box %d)", (int)taken, own);
}

/* What follows a step. Ignored or refused, nothing has changed; 9 and 10 are frames that were for other boxes. */
static void finish(int own, uint32_t answer)
{
    need(answer == 0 || answer == WINDER_IGNORED || answer == WINDER_REFUSED_SENDER || answer == WINDER_REFUSED_PLACE, "a step was refused");
    if (answer != 0) {
        return;
    }
    /* The record comes first. Where it cannot be stored nothing may leave, and the box must stop. */
    need(store(folder, own, replicas[own]), "a record was not stored");
    if (lengths[0] > 0) {
        memcpy(sent[sent_count].bytes, frame, lengths[0]);
        sent[sent_count++].length = lengths[0];
    }
    if (lengths[1] > 0) {
        issue(own);
    }
}

/* Every frame that was sent, and those sent on it. */
static void deliver(void)
{
    for (size_t i = 0; i < sent_count; i++) {
        EACH_UP(own) finish(own, winder_arrive(replicas[own], WINDER_RECORD, sent[i].bytes, sent[i].length, LENT));
    }
    sent_count = 0;
}

/* Missed are the periods after the record's own (its bytes 496 to 499) that are over by the clock which all boxes share. */
static void come_back(int own, uint32_t over)
{
    uint8_t stored[WINDER_RECORD];
    need(load(folder, own, stored), "no record is stored");
    uint32_t period = stored[496] | (uint32_t)stored[497] << 8 | (uint32_t)stored[498] << 16 | (uint32_t)stored[499] << 24;
    up[own] = winder_return(stored, WINDER_RECORD, over - period, replicas[own], WINDER_RECORD) == 0;
}

int main(int count, char **words)
{
    int in_memory = count == 2 && strcmp(words[1], "--memory") == 0;
    folder = count == 2 && !in_memory ? open(words[1], O_RDONLY) : -1;
    need(in_memory || folder >= 0, "usage: box FOLDER, or box --memory");
    for (int own = 1; own <= BOXES; own++) {
        up[own] = winder_make_with(&bench, (const int32_t[6]){0}, BOXES, (uint8_t)own, TO_DECIDE, TO_PROPOSE, replicas[own], WINDER_RECORD) == 0;
        need(up[own] && store(folder, own, replicas[own]), "making was refused, or its record not stored");
    }
    for (int period = 1; period <= PERIODS; period++) {
        if (period == BACK) {
            come_back(1, BACK - 1);
        }
        printf("period %d:", period);
        EACH_UP(own) {
            const uint8_t kinds[4] = {WINDER_COUNT};
            const uint32_t bits[4] = {(uint32_t)(100 * period + 10 * own)};
            finish(own, winder_tick(replicas[own], WINDER_RECORD, kinds, bits, LENT));
        }
        if (period == STOP) {
            up[1] = 0;
            memset(replicas[1], 0, WINDER_RECORD);
        }
        deliver();
        /* The coordinator's time has run out. Where the period is decided this is ignored. */
        EACH_UP(own) finish(own, winder_give_up(replicas[own], WINDER_RECORD, LENT));
        deliver();
        printf("\n");
    }
    return 0;
}
