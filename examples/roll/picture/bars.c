#include "bars.h"

#include <stdio.h>

#include "outages.h"

#define ROWS (BOXES + 1)
#define BAR 0.6       /* of a row's height */
#define NARROWEST 1.2 /* pixels: in less nobody sees that a command is missing */

/* A part of the x axis, in its own values. */
struct Part {
    double from, to;
};

/* The strokes of a row: for each stretch of periods whose marks are as wanted. */
struct Strokes {
    int row;
    const char *class;
    const bool *marks;
    bool wanted;
    double narrowest; /* pixels */
};

void write_bar_style(void)
{
    printf("<style>\n"
           ".row { font-size: 10px; text-anchor: end } .bar { fill: #fff; stroke: #bbb } .key { stroke-width: 9 }\n"
           ".up { stroke: #c3dcc6 } .coordinator { stroke: #3c8750 } .without { stroke: #c0281c } .limited { stroke: #e0a23c }\n"
           "</style>\n");
}

void write_bar_keys(double x, double y)
{
    panel_key(x, y, "key up", "box up");
    panel_key(x + 92.0, y, "key coordinator", "up, coordinator");
    panel_key(x + 230.0, y, "key limited", "command at its stop");
    panel_key(x + 396.0, y, "key without", "period without a command");
}

static double within(double value, double low, double high)
{
    if (value < low) {
        return low;
    }
    return value > high ? high : value;
}

/* Where a period begins. What lies beside the panel is at its edge. */
static double start_of(const struct Shown *shown, uint32_t period)
{
    return within(shown->x(row_of(shown->logs, period)), shown->panel->x_low, shown->panel->x_high);
}

/* A stretch of periods in the panel, not narrower than so many pixels if it is there at all. */
static struct Part part_of(const struct Shown *shown, struct Stretch stretch, double narrowest)
{
    const struct Panel *panel = shown->panel;
    struct Part part = {.from = start_of(shown, stretch.from), .to = start_of(shown, stretch.to)};
    double width = narrowest * (panel->x_high - panel->x_low) / panel->width;
    if (panel->x_low < part.to && part.from < panel->x_high && part.to < part.from + width) {
        part.to = part.from + width;
    }
    return part;
}

static void write_stroke(const struct Panel *panel, struct Part part, double y)
{
    double scale = panel->width / (panel->x_high - panel->x_low);
    printf("M%.1f %.1fh%.1f\n", panel->left + (part.from - panel->x_low) * scale, y, (part.to - part.from) * scale);
}

static double middle_of(const struct Panel *panel, int row)
{
    return panel->top + (row + 0.5) * panel->height / ROWS;
}

/* A stroke that would hide behind the one before it is left out. */
static void write_strokes(const struct Shown *shown, const struct Strokes *strokes)
{
    const struct Panel *panel = shown->panel;
    double drawn = panel->x_low;
    printf("<path class=\"%s\" stroke-width=\"%.1f\" d=\"", strokes->class, BAR * panel->height / ROWS);
    struct Stretch stretch = next_stretch(shown->logs, strokes->marks, strokes->wanted, 1);
    while (stretch.from < stretch.to) {
        struct Part part = part_of(shown, stretch, strokes->narrowest);
        if (part.from < part.to && drawn < part.to) {
            write_stroke(panel, part, middle_of(panel, strokes->row));
            drawn = part.to;
        }
        stretch = next_stretch(shown->logs, strokes->marks, strokes->wanted, stretch.to);
    }
    printf("\"/>\n");
}

/* The name of a row, and for a box an empty bar: it is seen where the box is off. */
static void write_row(const struct Panel *panel, int row)
{
    static const char *const names[ROWS] = {"box 1", "box 2", "box 3", "command"};
    double height = BAR * panel->height / ROWS;
    printf("<text class=\"row\" x=\"%.1f\" y=\"%.1f\">%s</text>\n", panel->left - 6.0, middle_of(panel, row) + 4.0, names[row]);
    if (row < BOXES) {
        printf("<rect class=\"bar\" x=\"%.1f\" y=\"%.1f\" width=\"%.1f\" height=\"%.1f\"/>\n", panel->left,
               middle_of(panel, row) - height / 2.0, panel->width, height);
    }
}

void write_bars(const struct Shown *shown)
{
    const struct Logs *logs = shown->logs;
    for (int row = 0; row < ROWS; row++) {
        write_row(shown->panel, row);
    }
    for (int box = 0; box < BOXES; box++) {
        write_strokes(shown, &(struct Strokes){.row = box, .class = "up", .marks = logs->up[box], .wanted = true});
        write_strokes(shown, &(struct Strokes){.row = box, .class = "coordinator", .marks = logs->coordinated[box], .wanted = true});
    }
    struct Strokes limited = {.row = BOXES, .class = "limited", .marks = logs->limited, .wanted = true, .narrowest = NARROWEST};
    write_strokes(shown, &limited);
    write_strokes(shown, &(struct Strokes){.row = BOXES, .class = "without", .marks = logs->commanded, .narrowest = NARROWEST});
}

void shade_gaps(const struct Shown *shown, uint32_t least)
{
    const struct Logs *logs = shown->logs;
    struct Stretch gap = next_stretch(logs, logs->commanded, false, 1);
    while (gap.from < gap.to) {
        struct Part part = part_of(shown, gap, NARROWEST);
        if (gap.to - gap.from >= least && part.from < part.to) {
            panel_shade(shown->panel, part.from, part.to);
        }
        gap = next_stretch(logs, logs->commanded, false, gap.to);
    }
}
