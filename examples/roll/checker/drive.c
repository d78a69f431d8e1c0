#include "drive.h"

#include <string.h>

#include "command.h"
#include "lines.h"
#include "memory.h"

static struct Datagram read_datagram(struct Log *log)
{
    log_number(log, 0, UINT32_MAX);
    struct Datagram datagram = {.bytes = log_bytes(log), .line = log->line};
    const char *word = log_word(log);
    datagram.taken = strcmp(word, "taken") == 0;
    if (!datagram.taken && strcmp(word, "dropped") != 0) {
        log_unreadable(log, "a datagram is neither taken nor dropped");
    }
    log_no_more(log);
    return datagram;
}

void read_drive(struct Drive *drive, const char *folder)
{
    struct Log log;
    log_open(&log, folder, "drive.log");
    enum Line line = log_next_line(&log);
    while (line == LINE_WHOLE) {
        drive->items = memory_grown(drive->items, drive->count, &drive->room, sizeof *drive->items);
        drive->items[drive->count++] = read_datagram(&log);
        line = log_next_line(&log);
    }
    if (line == LINE_CUT) {
        log_unreadable(&log, "a line of the drive's log does not end as it should");
    }
}

/*
 * The drive takes the first command of a period and drops one whose period is not above that of the last one taken. Bytes that are
 * no command have no period: that they reached the drive is a violation of its own, and whether it took them is not looked at.
 */
void check_taken(const struct Drive *drive, int32_t p, struct Report *report)
{
    uint32_t last_taken = 0;
    for (size_t i = 0; i < drive->count; i++) {
        const struct Datagram *datagram = &drive->items[i];
        const uint32_t period = is_command(datagram->bytes, p) ? period_of_command(datagram->bytes) : 0;
        const bool above = period > last_taken;
        if (period > 0 && datagram->taken != above) {
            violation(report, "the drive %s a command of period %u after it had taken one of period %u: %s (drive.log, line %lu)",
                      datagram->taken ? "took" : "dropped", period, last_taken, datagram->bytes, datagram->line);
        }
        last_taken = period > 0 && datagram->taken ? period : last_taken;
    }
}
