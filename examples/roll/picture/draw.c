#include "draw.h"

#include <stdio.h>

#include "bars.h"
#include "columns.h"
#include "detail.h"
#include "diameter.h"
#include "line.h"
#include "outages.h"
#include "panel.h"
#include "plant.h"

#define DIAMETER_STEP 50 /* mm, from tick to tick .. */
#define FORCE_STEP 40.0  /* .. and N */

/* A panel over the whole roll. */
static struct Panel whole_roll(int number, double top, double height)
{
    return (struct Panel){
        .number = number,
        .left = 60.0,
        .top = top,
        .width = 880.0,
        .height = height,
        .x_low = CORE_RADIUS * OF_RADIUS,
        .x_high = FULL_RADIUS * OF_RADIUS,
        .y_low = 300.0,
        .y_high = 460.0,
    };
}

static void diameter_ticks(const struct Panel *panel)
{
    double bottom = panel->top + panel->height;
    for (int diameter = (int)panel->x_low; diameter <= (int)panel->x_high; diameter += DIAMETER_STEP) {
        double x = panel->left + (diameter - panel->x_low) / (panel->x_high - panel->x_low) * panel->width;
        printf("<path class=\"tick\" d=\"M%.1f %.1fv5\"/>", x, bottom);
        printf("<text class=\"middle\" x=\"%.1f\" y=\"%.1f\">%d</text>\n", x, bottom + 18.0, diameter);
    }
}

static void mark_events(const struct Panel *panel)
{
    panel_mark(panel, diameter_at(RAMP_LENGTH), "line at full speed");
    panel_mark(panel, diameter_at(SETPOINT_CHANGE), "setpoint raised");
    panel_mark(panel, diameter_at(SPLICE), "splice");
    panel_mark(panel, diameter_at(SPLICE_UNSEEN), "splice, not read");
    panel_mark(panel, diameter_at(wound_length(FULL_RADIUS) - RAMP_LENGTH), "slows");
}

static void write_gap_key(double x, double y)
{
    printf("<rect class=\"shade\" x=\"%.1f\" y=\"%.1f\" width=\"24\" height=\"11\"/>", x, y - 10.0);
    printf("<text x=\"%.1f\" y=\"%.1f\">no command for %d periods or more</text>\n", x + 30.0, y, OUTAGE);
}

static void write_tension(const struct Logs *logs)
{
    struct Panel panel = whole_roll(1, 72.0, 190.0);
    shade_gaps(&(struct Shown){&panel, logs, diameter_of}, OUTAGE);
    panel_y_ticks(&panel, FORCE_STEP);
    diameter_ticks(&panel);
    mark_events(&panel);
    panel_curve(&panel, &logs->record, diameter_of, setpoint_of, "setpoint");
    panel_curve(&panel, &logs->record, diameter_of, tension_of, "tension");
    panel_frame(&panel, "Web tension", "", "N");
    write_gap_key(510.0, 63.0);
    panel_key(768.0, 63.0, "tension", "tension");
    panel_key(856.0, 63.0, "setpoint", "setpoint");
}

static void write_command(const struct Logs *logs)
{
    struct Panel panel = whole_roll(2, 318.0, 140.0);
    shade_gaps(&(struct Shown){&panel, logs, diameter_of}, OUTAGE);
    panel_y_ticks(&panel, FORCE_STEP);
    diameter_ticks(&panel);
    panel_curve(&panel, &logs->record, diameter_of, command_of, "command");
    panel_frame(&panel, "Command in force: force at the roll's surface", "", "N");
    panel_key(852.0, 309.0, "command", "command");
}

static void write_boxes(const struct Logs *logs)
{
    struct Panel panel = whole_roll(3, 514.0, 96.0);
    write_bars(&(struct Shown){&panel, logs, diameter_of});
    diameter_ticks(&panel);
    panel_frame(&panel, "Boxes, empty where they are off", "diameter, mm", "");
    write_bar_keys(354.0, 505.0);
}

void draw_roll(const struct Logs *logs)
{
    picture_head(960, 930, "One roll wound by three boxes, unplugged in turn");
    write_bar_style();
    write_tension(logs);
    write_command(logs);
    write_boxes(logs);
    write_details(logs, 682.0);
    picture_end();
}
