#include "logs.h"

#include <inttypes.h>
#include <math.h>
#include <stdio.h>
#include <string.h>

#include "diameter.h"

#define LONGEST_LINE 8192
#define MARK_AT 5 /* the last hexadecimal digit of a command's byte 2 */

typedef void (*Take)(struct Logs *logs, int box, const char *line);

static void take_row(struct Logs *logs, int box, const char *line)
{
    (void)box;
    struct Row row = {.reading = NAN};
    size_t period;
    double diameter;
    int found = sscanf(line, "%zu %lf %lf %lf %lf %lf %lf", &period, &row.time, &diameter, &row.speed, &row.setpoint, &row.tension,
                       &row.command);
    if (found == 0) {
        return; /* the names of the columns */
    }
    need(found == 7 && period == logs->record.count + 1 && period <= MOST_ROWS, "plant.log is not in order");
    row.radius = diameter / OF_RADIUS;
    logs->record.rows[logs->record.count++] = row;
}

static void take_event(struct Logs *logs, int box, const char *line)
{
    char command[64];
    uint32_t period, view;
    if (sscanf(line, "committed %*s %63s %" SCNu32 " %" SCNu32, command, &period, &view) != 3 || period > MOST_ROWS) {
        return;
    }
    logs->up[box][period] = true;
    if (strcmp(command, "-") != 0) {
        logs->commanded[period] = true;
        logs->limited[period] = strlen(command) > MARK_AT && command[MARK_AT] == '1';
        logs->coordinated[view % BOXES][period] = true;
    }
}

/* A line that a box was killed in says nothing. */
static bool is_whole(const char *line)
{
    size_t length = strlen(line);
    return length >= 3 && strcmp(line + length - 3, " .\n") == 0;
}

static void read_log(const char *path, struct Logs *logs, int box, Take take)
{
    char line[LONGEST_LINE];
    FILE *log = fopen(path, "r");
    need(log != NULL, "a log is missing");
    while (fgets(line, sizeof line, log) != NULL) {
        if (is_whole(line)) {
            take(logs, box, line);
        }
    }
    need(!ferror(log), "a log cannot be read");
    fclose(log);
}

static void path_of(char *path, size_t length, const char *folder, const char *name)
{
    int written = snprintf(path, length, "%s/%s", folder, name);
    need(0 < written && (size_t)written < length, "the folder's name is too long");
}

void read_logs(const char *folder, struct Logs *logs)
{
    static const char *const names[BOXES] = {"box-1.log", "box-2.log", "box-3.log"};
    char path[4096];
    path_of(path, sizeof path, folder, "plant.log");
    read_log(path, logs, 0, take_row);
    need(logs->record.count > 0, "plant.log has no period");
    for (int i = 0; i < BOXES; i++) {
        path_of(path, sizeof path, folder, names[i]);
        read_log(path, logs, i, take_event);
    }
}

const struct Row *row_of(const struct Logs *logs, uint32_t period)
{
    return &logs->record.rows[period <= logs->record.count ? period - 1 : logs->record.count - 1];
}
