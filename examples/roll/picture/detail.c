#include "detail.h"

#include <math.h>
#include <stdio.h>

#include "bars.h"
#include "columns.h"
#include "diameter.h"
#include "outages.h"
#include "panel.h"

#define BEFORE 0.3    /* s, at least, that are shown before it .. */
#define AFTER 0.7     /* .. and after it */
#define TIMES 2.0     /* s: details are one or more of these long */
#define FORCE_STEP 10 /* N: least from tick to tick */
#define MOST_STEPS 5
#define TENSION_HEIGHT 130.0
#define BARS_HEIGHT 64.0

/* What is to be seen; nothing where its stretch is empty. */
struct Detail {
    struct Stretch seen;
    char title[64];
};

static struct Detail going_off(const struct Logs *logs, const struct Outage *outage)
{
    uint32_t from = outage->off.from;
    struct Detail detail = {.seen = {.from = from, .to = from < outage->off.to ? from + 1 : from}};
    const char *goes = outage->of_coordinator ? ", coordinator," : " goes";
    snprintf(detail.title, sizeof detail.title, "Box %d%s off at %.0f mm", outage->box + 1, goes, diameter_of(row_of(logs, from)));
    return detail;
}

static struct Detail coming_back(const struct Logs *logs, const struct Outage *outage)
{
    uint32_t back = outage->off.to;
    struct Detail detail = {.seen = {.from = back, .to = back <= logs->record.count ? back + 1 : back}};
    snprintf(detail.title, sizeof detail.title, "Box %d comes back at %.0f mm", outage->box + 1, diameter_of(row_of(logs, back)));
    return detail;
}

static struct Detail without_command(const struct Logs *logs)
{
    struct Stretch gap = longest_gap(logs);
    struct Detail detail = {.seen = gap};
    double time = row_of(logs, gap.to)->time - row_of(logs, gap.from)->time;
    snprintf(detail.title, sizeof detail.title, "No command for %.2f s at %.0f mm", time, diameter_of(row_of(logs, gap.from)));
    return detail;
}

/* Widens the y axis to whole steps around what a column has in the panel's time. */
static void widen(struct Panel *panel, const struct Logs *logs, Column y)
{
    for (size_t i = 0; i < logs->record.count; i++) {
        const struct Row *row = &logs->record.rows[i];
        if (panel->x_low <= row->time && row->time <= panel->x_high) {
            panel->y_low = fmin(panel->y_low, floor(y(row) / FORCE_STEP) * FORCE_STEP);
            panel->y_high = fmax(panel->y_high, ceil(y(row) / FORCE_STEP) * FORCE_STEP);
        }
    }
}

static double tick_step(const struct Panel *panel)
{
    double step = FORCE_STEP;
    while (panel->y_high - panel->y_low > MOST_STEPS * step) {
        step *= 2.0;
    }
    return step;
}

static void write_tension(const struct Panel *panel, const struct Logs *logs, const char *title)
{
    shade_gaps(&(struct Shown){panel, logs, time_of}, 1);
    panel_y_ticks(panel, tick_step(panel));
    panel_curve(panel, &logs->record, time_of, command_of, "command");
    panel_curve(panel, &logs->record, time_of, setpoint_of, "setpoint");
    panel_curve(panel, &logs->record, time_of, tension_of, "tension");
    panel_frame(panel, title, "", "N");
}

/* The bars share the time with the panel above them. */
static void write_boxes(struct Panel panel, const struct Logs *logs)
{
    panel.number++;
    panel.top += panel.height + 8.0;
    panel.height = BARS_HEIGHT;
    write_bars(&(struct Shown){&panel, logs, time_of});
    panel_x_ticks(&panel, (panel.x_high - panel.x_low) / 4.0, 1);
    panel_frame(&panel, "", "time, s", "");
}

/* Places count from 0, at the left. */
static void write_detail(const struct Logs *logs, double top, int place, const struct Detail *detail)
{
    struct Panel panel = {.number = 4 + 2 * place, .left = 60.0 + place * 315.0, .top = top, .width = 250.0, .height = TENSION_HEIGHT};
    const struct Row *first = row_of(logs, detail->seen.from);
    double least = BEFORE + row_of(logs, detail->seen.to)->time - first->time + AFTER;
    panel.x_low = first->time - BEFORE;
    panel.x_high = panel.x_low + ceil(least / TIMES) * TIMES;
    panel.y_low = floor(first->setpoint / FORCE_STEP) * FORCE_STEP;
    panel.y_high = panel.y_low + FORCE_STEP;
    widen(&panel, logs, tension_of);
    widen(&panel, logs, command_of);
    write_tension(&panel, logs, detail->title);
    write_boxes(panel, logs);
}

void write_details(const struct Logs *logs, double top)
{
    const struct Outage outage = outage_to_show(logs);
    const struct Detail details[] = {going_off(logs, &outage), coming_back(logs, &outage), without_command(logs)};
    int place = 0;
    for (size_t i = 0; i < sizeof details / sizeof details[0]; i++) {
        if (details[i].seen.from < details[i].seen.to) {
            write_detail(logs, top, place++, &details[i]);
        }
    }
}
