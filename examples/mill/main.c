/*
 * mill: winds one roll under the law of winder.h and writes a table of it, or with --svg a picture, to standard output. With --rig N it
 * writes the first line of program rig for N boxes that run the same law, and with --rig N PERIOD for boxes that start at that period of
 * the roll, counted from 0. With --rest it holds webs at rest, and writes a table of them; with --rest-svg a picture of one.
 */
#include <ctype.h>
#include <stdbool.h>
#include <stdio.h>
#include <stdlib.h>
#include <string.h>

#include "controller.h"
#include "picture.h"
#include "rest_output.h"
#include "rig_line.h"
#include "simulation.h"
#include "table.h"
#include "winder.h"

enum Output { TABLE, PICTURE, RIG_LINE, REST_TABLE, REST_PICTURE, NOTHING };

struct Wanted {
    enum Output output;
    int boxes;     /* of rig */
    size_t period; /* that they start at */
};

/* A period in decimal digits; MOST_ROWS, which no roll has, for anything else. */
static size_t period_of(const char *text)
{
    char *end;
    unsigned long period = strtoul(text, &end, 10);
    return isdigit((unsigned char)text[0]) && *end == '\0' && period < MOST_ROWS ? period : MOST_ROWS;
}

/* What the arguments ask for. N is one digit: a group has 3 to 9 boxes. */
static struct Wanted wanted(int argc, char **argv)
{
    if (argc == 1) {
        return (struct Wanted){.output = TABLE};
    }
    if (argc == 2 && strcmp(argv[1], "--svg") == 0) {
        return (struct Wanted){.output = PICTURE};
    }
    if (argc == 2 && strcmp(argv[1], "--rest") == 0) {
        return (struct Wanted){.output = REST_TABLE};
    }
    if (argc == 2 && strcmp(argv[1], "--rest-svg") == 0) {
        return (struct Wanted){.output = REST_PICTURE};
    }
    bool is_rig = (argc == 3 || argc == 4) && strcmp(argv[1], "--rig") == 0;
    if (is_rig && '3' <= argv[2][0] && argv[2][0] <= '9' && argv[2][1] == '\0') {
        return (struct Wanted){.output = RIG_LINE, .boxes = argv[2][0] - '0', .period = argc == 4 ? period_of(argv[3]) : 0};
    }
    return (struct Wanted){.output = NOTHING};
}

/* The line of rig for boxes that start at a period of the roll; false where the roll does not have it. */
static bool write_rig(const struct Wanted *what, const struct Record *record)
{
    if (record->count <= what->period) {
        fprintf(stderr, "mill: the roll has the periods 0 to %zu\n", record->count - 1);
        return false;
    }
    struct winder_settings law = controller_at_start().law;
    write_rig_line(what->boxes, &law, record->rows[what->period].state);
    return true;
}

static bool write_output(const struct Wanted *what, const struct Record *record)
{
    switch (what->output) {
    case PICTURE:
        write_picture(record);
        return true;
    case RIG_LINE:
        return write_rig(what, record);
    default:
        write_table(record);
        return true;
    }
}

static bool wind(const struct Wanted *what)
{
    static struct Record record;
    uint32_t refusal = simulate(&record);
    if (refusal != 0) {
        fprintf(stderr, "mill: the law refused the call of period %zu by %u\n", record.count, (unsigned)refusal);
        return false;
    }
    return write_output(what, &record);
}

static bool write_wanted(const struct Wanted *what)
{
    switch (what->output) {
    case REST_TABLE:
        return write_rest_table();
    case REST_PICTURE:
        return write_rest_picture();
    default:
        return wind(what);
    }
}

int main(int argc, char **argv)
{
    struct Wanted what = wanted(argc, argv);
    if (what.output == NOTHING) {
        fprintf(stderr, "usage: mill [--svg | --rig N [PERIOD] | --rest | --rest-svg], N from 3 to 9\n");
        return 2;
    }
    if (winder_version() != WINDER_VERSION) {
        fprintf(stderr, "mill: compiled for version %d of the law, linked with %u\n", WINDER_VERSION, (unsigned)winder_version());
        return 1;
    }
    return !write_wanted(&what) || ferror(stdout) || fflush(stdout) != 0;
}
