#include "taken.h"

#include <stdbool.h>

#include "process.h"
#include "readings.h"
#include "winder.h"

#define COMMANDS 1

/* A limited command is in force like any other; that it is limited stays in its bytes, which the log has. */
static bool take(struct Taken *taken, const uint8_t *datagram, size_t length)
{
    uint32_t period;
    int32_t commands[WINDER_COMMANDS_MAX];
    uint8_t limited;
    if (winder_read_command(COMMANDS, datagram, length, &period, commands, &limited) != 0 || period <= taken->period) {
        return false;
    }
    *taken = (struct Taken){.period = period, .force = (double)commands[0] / NEWTON};
    return true;
}

static void write_line(FILE *log, uint32_t k, const uint8_t *datagram, size_t length, bool is_taken)
{
    fprintf(log, "%lu ", (unsigned long)k);
    for (size_t i = 0; i < length; i++) {
        fprintf(log, "%02x", datagram[i]);
    }
    fprintf(log, " %s .\n", is_taken ? "taken" : "dropped");
}

void take_commands(struct Taken *taken, int socket, uint32_t k, FILE *log)
{
    uint8_t datagram[WINDER_FRAME_AREA]; /* longer than a command, so that nothing is one because it was cut */
    size_t length;
    while ((length = next_datagram(socket, datagram, sizeof datagram)) != 0) {
        write_line(log, k, datagram, length, take(taken, datagram, length));
    }
}
