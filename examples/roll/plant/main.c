/*
 * plant SEED FIRST PERIOD FOLDER ADDRESS1 ADDRESS2 ADDRESS3: winds one roll with the commands that reach the drive, and sends each box the
 * readings of its own transmitter. FIRST and PERIOD are the clock's, in nanoseconds; an address is that of a box's input. The first socket
 * is the drive's, and readings leave from it too. Writes plant.log and drive.log to the folder.
 *
 * The clock's period is what a period takes here; in the roll it is that of the controller, whatever the clock's is.
 */
#include <stdint.h>
#include <stdio.h>

#include "clock.h"
#include "controller.h"
#include "process.h"
#include "record.h"
#include "taken.h"
#include "winder.h"
#include "winding.h"

#define MILLIMETRES 1000.0 /* in one metre */

struct Roll {
    struct Clock clock;
    struct sockaddr_in inputs[BOXES];
    struct Winding winding;
    struct Taken taken;
    FILE *plant_log, *drive_log;
};

static FILE *log_in(const char *folder, const char *name)
{
    char path[4096];
    int length = snprintf(path, sizeof path, "%s/%s", folder, name);
    need(0 < length && (size_t)length < sizeof path, "the folder's name is too long");
    FILE *log = fopen(path, "w");
    need(log != NULL, "a log of the plant cannot be opened");
    return log;
}

static void complete(FILE *log)
{
    int is_cut = ferror(log);
    need(fclose(log) == 0 && !is_cut, "a log of the plant is not complete");
}

static double time_in(uint32_t k)
{
    return (k - 1) * PERIOD;
}

static void write_row(const struct Roll *roll, uint32_t k)
{
    const struct Plant *plant = &roll->winding.plant;
    double diameter = 2.0 * plant->radius * MILLIMETRES;
    fprintf(roll->plant_log, "%lu %.2f %.4f %.4f", (unsigned long)k, time_in(k), diameter, roll->winding.line.speed);
    fprintf(roll->plant_log, " %.3f %.3f", line_setpoint(plant->radius), plant_tension(plant));
    fprintf(roll->plant_log, " %.6f %lu .\n", roll->taken.force, (unsigned long)roll->taken.period);
}

static void send_samples(const struct Roll *roll, uint32_t k)
{
    for (int i = 0; i < BOXES; i++) {
        uint8_t bytes[SAMPLE_BYTES];
        struct Sample sample = winding_sends(&roll->winding, i + 1, k);
        sample_write(&sample, bytes);
        send_datagram(FIRST_SOCKET, &roll->inputs[i], bytes, sizeof bytes);
    }
}

/* A command is in force from the sampling instant after its arrival on, as in the mill simulator. */
static void one_period(struct Roll *roll, uint32_t k)
{
    sleep_until(sampled_at(&roll->clock, k));
    take_commands(&roll->taken, FIRST_SOCKET, k, roll->drive_log);
    send_samples(roll, k);
    write_row(roll, k);
    winding_move_on(&roll->winding, time_in(k), roll->taken.force);
}

static struct Roll roll_of(char **words)
{
    struct Roll roll = {.winding = winding_at_start((uint64_t)number_in(words[0]))};
    roll.clock = (struct Clock){.first = number_in(words[1]), .period = number_in(words[2])};
    roll.plant_log = log_in(words[3], "plant.log");
    roll.drive_log = log_in(words[3], "drive.log");
    for (int i = 0; i < BOXES; i++) {
        roll.inputs[i] = address_in(words[4 + i]);
    }
    return roll;
}

int main(int argc, char **argv)
{
    need(argc == 5 + BOXES, "usage: plant SEED FIRST PERIOD FOLDER ADDRESS1 ADDRESS2 ADDRESS3");
    need(winder_version() == WINDER_VERSION, "the plant is linked with another version of the law than it was compiled for");
    struct Roll roll = roll_of(argv + 1);
    end_in_time(roll.clock.period);
    fprintf(roll.plant_log, "period time diameter speed setpoint tension command from .\n");
    for (uint32_t k = 1; k <= MOST_ROWS && !winding_has_ended(&roll.winding); k++) {
        one_period(&roll, k);
    }
    complete(roll.plant_log);
    complete(roll.drive_log);
    return 0;
}
