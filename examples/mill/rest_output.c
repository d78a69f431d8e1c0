#include "rest_output.h"

#include <stdio.h>

#include "columns.h"
#include "panel.h"
#include "rest.h"

#define SHOWN 2.0 /* s of the picture */
#define STARTS 21 /* of the table, the setpoint in their middle .. */
#define APART 0.4 /* .. and so far from each other: N */

static struct Record before, now;

/* Fills both records. The law of winder.h must do what the law written out does with its divisions to the nearest. */
static bool hold_both(double tension)
{
    rest_by(to_nearest, tension, &before);
    if (rest(tension, &now) != 0 || !same_commands(&before, &now)) {
        fprintf(stderr, "mill: at rest from %.1f N: the law refused, or is not the law written out\n", tension);
        return false;
    }
    rest_by(toward_minus_infinity, tension, &before);
    return true;
}

static double last_tension(const struct Record *record)
{
    return record->rows[record->count - 1].tension;
}

bool write_rest_table(void)
{
    printf("start_n,before_n,now_n\n");
    for (int i = 0; i < STARTS; i++) {
        double start = REST_SETPOINT + APART * (i - STARTS / 2);
        if (!hold_both(start)) {
            return false;
        }
        printf("%.1f,%.2f,%.2f\n", start, last_tension(&before), last_tension(&now));
    }
    return true;
}

static void write_panel(int number, const char *title, const struct Record *record)
{
    struct Panel panel = {.number = number, .left = 60.0 + (number - 1) * 450.0, .top = 72.0, .width = 410.0, .height = 200.0};
    panel.x_high = SHOWN;
    panel.y_low = 397.0;
    panel.y_high = 401.0;
    panel_y_ticks(&panel, 1.0);
    panel_x_ticks(&panel, 0.5, 1);
    panel_curve(&panel, record, time_of, reading_of, "reading");
    panel_curve(&panel, record, time_of, command_of, "command");
    panel_curve(&panel, record, time_of, tension_of, "tension");
    panel_frame(&panel, title, "time, s", "N");
}

bool write_rest_picture(void)
{
    if (!hold_both(REST_SETPOINT)) {
        return false;
    }
    picture_head(960, 330, "A web at rest, counted in tenths of a newton");
    write_panel(1, "Divisions toward minus infinity, as before", &before);
    write_panel(2, "Divisions to the nearest, as now", &now);
    panel_key(560.0, 30.0, "reading", "load cell's reading");
    panel_key(716.0, 30.0, "command", "command");
    panel_key(816.0, 30.0, "tension", "tension");
    picture_end();
    return true;
}
