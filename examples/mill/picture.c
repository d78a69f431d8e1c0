#include "picture.h"

#include <stdio.h>

#include "columns.h"
#include "controller.h"
#include "line.h"
#include "panel.h"
#include "plant.h"

#define DETAIL_TIME 2.0   /* s */
#define DETAIL_BEFORE 0.2 /* s shown before the event */

/* When a length of web was wound. */
static double time_at(const struct Record *record, double length)
{
    size_t i = 0;
    while (i + 1 < record->count && record->rows[i].length < length) {
        i++;
    }
    return record->rows[i].time;
}

/* A panel over the whole roll. */
static struct Panel whole_roll(int number, double top, double height)
{
    return (struct Panel){
        .number = number, .left = 60.0, .top = top, .width = 880.0, .height = height, .x_high = 1750.0, .y_low = 320.0, .y_high = 480.0};
}

static void mark_events(const struct Panel *panel)
{
    panel_mark(panel, RAMP_LENGTH, "line at full speed");
    panel_mark(panel, SETPOINT_CHANGE, "setpoint raised");
    panel_mark(panel, SPLICE, "splice");
    panel_mark(panel, SPLICE_UNSEEN, "splice, tension not read");
    panel_mark(panel, wound_length(FULL_RADIUS) - RAMP_LENGTH, "slowing");
}

/* The stop is the highest command; none of this roll comes near the lowest. */
static void mark_stop(const struct Panel *panel)
{
    panel_level(panel, (double)controller_at_start().law.high[0] / NEWTON, "stop");
}

static void write_tension(const struct Record *record)
{
    struct Panel panel = whole_roll(1, 72.0, 200.0);
    panel_y_ticks(&panel, 40.0);
    panel_x_ticks(&panel, 250.0, 0);
    mark_events(&panel);
    panel_curve(&panel, record, length_of, reading_of, "reading");
    panel_curve(&panel, record, length_of, setpoint_of, "setpoint");
    panel_curve(&panel, record, length_of, tension_of, "tension");
    panel_frame(&panel, "Web tension", "web wound, m", "N");
    panel_key(612.0, 63.0, "reading", "load cell's reading");
    panel_key(768.0, 63.0, "tension", "tension");
    panel_key(856.0, 63.0, "setpoint", "setpoint");
}

static void write_command(const struct Record *record)
{
    struct Panel panel = whole_roll(2, 340.0, 160.0);
    panel_y_ticks(&panel, 40.0);
    panel_x_ticks(&panel, 250.0, 0);
    mark_events(&panel);
    mark_stop(&panel);
    panel_curve(&panel, record, length_of, command_of, "command");
    panel_strokes(&panel, record, length_of, limited_of, "stop");
    panel_frame(&panel, "Command: force at the roll's surface", "web wound, m", "N");
    panel_key(738.0, 331.0, "command", "command");
    panel_key(844.0, 331.0, "stop", "at its stop");
}

/* Shades the time in which the tension is not read. */
static void shade_unread(const struct Panel *panel, const struct Record *record)
{
    double from = time_at(record, SPLICE_UNSEEN);
    if (panel->x_low <= from && from <= panel->x_high) {
        panel_shade(panel, from, from + UNSEEN_LENGTH / LINE_SPEED);
    }
}

/* Tension and command in the two seconds around an event: place 0 to 3 in the lowest row of panels. */
static void write_detail(const struct Record *record, int place, const char *title, double from, double y_low, double y_step)
{
    struct Panel panel = {
        .number = 3 + place, .left = 60.0 + place * 229.0, .top = 570.0, .width = 193.0, .height = 140.0, .y_low = y_low};
    panel.x_low = from;
    panel.x_high = from + DETAIL_TIME;
    panel.y_high = y_low + 5.0 * y_step;
    panel_y_ticks(&panel, y_step);
    panel_x_ticks(&panel, 0.5, 1);
    shade_unread(&panel, record);
    panel_curve(&panel, record, time_of, reading_of, "reading");
    panel_curve(&panel, record, time_of, setpoint_of, "setpoint");
    panel_curve(&panel, record, time_of, tension_of, "tension");
    panel_curve(&panel, record, time_of, command_of, "command");
    panel_strokes(&panel, record, time_of, limited_of, "stop");
    panel_frame(&panel, title, "time, s", "N");
}

void write_picture(const struct Record *record)
{
    picture_head(960, 760, "One roll wound under the law");
    write_tension(record);
    write_command(record);
    write_detail(record, 0, "Start-up", 0.0, 0.0, 100.0);
    write_detail(record, 1, "Setpoint raised", time_at(record, SETPOINT_CHANGE) - DETAIL_BEFORE, 320.0, 20.0);
    write_detail(record, 2, "Splice", time_at(record, SPLICE) - DETAIL_BEFORE, 320.0, 20.0);
    write_detail(record, 3, "Splice, tension not read", time_at(record, SPLICE_UNSEEN) - DETAIL_BEFORE, 320.0, 20.0);
    picture_end();
}
