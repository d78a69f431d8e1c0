#include "panel.h"

#include <math.h>
#include <stdio.h>

#define SMALLEST_STEP 0.5 /* pixels that are worth a point of their own */
#define STROKE 5.0        /* pixels: how high a stroke is, as the style says .. */
#define NARROWEST 2.0     /* .. and how wide at least */

static const char style[] =
    "<style>\n"
    "text { fill: #333 } .title { font-size: 17px; font-weight: bold } .heading { font-weight: bold }\n"
    ".end { text-anchor: end } .middle { text-anchor: middle } .label { fill: #666; font-size: 11px }\n"
    "path { fill: none; stroke-linejoin: round } .frame { fill: none; stroke: #333 } .tick { stroke: #333 }\n"
    ".grid { stroke: #e4e4e4 } .mark { stroke: #999; stroke-dasharray: 3 3 } .shade { fill: #f3dfb5 }\n"
    ".setpoint { stroke: #888; stroke-width: 1.2 } .tension { stroke: #1f5fa8; stroke-width: 1.4 }\n"
    ".command { stroke: #b4501e; stroke-width: 1.4 } .reading { stroke: #b5cde8; stroke-width: 1 }\n"
    ".stop { stroke: #b4501e; stroke-width: 5 }\n"
    "</style>\n";

void picture_head(int width, int height, const char *title)
{
    printf("<svg xmlns=\"http://www.w3.org/2000/svg\" width=\"%d\" height=\"%d\" viewBox=\"0 0 %d %d\" font-family=\"sans-serif\" "
           "font-size=\"12\">\n",
           width, height, width, height);
    printf("%s<rect width=\"%d\" height=\"%d\" fill=\"#fff\"/>\n", style, width, height);
    printf("<text class=\"title\" x=\"60\" y=\"30\">%s</text>\n", title);
}

void picture_end(void)
{
    printf("</svg>\n");
}

void panel_key(double x, double y, const char *class, const char *name)
{
    printf("<path class=\"%s\" d=\"M%.1f %.1fh24\"/><text x=\"%.1f\" y=\"%.1f\">%s</text>\n", class, x, y - 4.0, x + 30.0, y, name);
}

static double at_x(const struct Panel *panel, double x)
{
    return panel->left + (x - panel->x_low) / (panel->x_high - panel->x_low) * panel->width;
}

static double at_y(const struct Panel *panel, double y)
{
    return panel->top + (panel->y_high - y) / (panel->y_high - panel->y_low) * panel->height;
}

static void write_rectangle(const struct Panel *panel, const char *class)
{
    printf("<rect class=\"%s\" x=\"%.1f\" y=\"%.1f\" width=\"%.1f\" height=\"%.1f\"/>\n", class, panel->left, panel->top, panel->width,
           panel->height);
}

void panel_frame(const struct Panel *panel, const char *title, const char *x_name, const char *y_name)
{
    double bottom = panel->top + panel->height;
    printf("<clipPath id=\"panel%d\">", panel->number);
    write_rectangle(panel, "clip");
    printf("</clipPath>\n");
    write_rectangle(panel, "frame");
    printf("<text class=\"heading\" x=\"%.1f\" y=\"%.1f\">%s</text>\n", panel->left, panel->top - 9.0, title);
    printf("<text class=\"end\" x=\"%.1f\" y=\"%.1f\">%s</text>\n", panel->left + panel->width, bottom + 33.0, x_name);
    printf("<text class=\"end\" x=\"%.1f\" y=\"%.1f\">%s</text>\n", panel->left - 8.0, panel->top - 9.0, y_name);
}

void panel_x_ticks(const struct Panel *panel, double step, int decimals)
{
    double bottom = panel->top + panel->height;
    int count = (int)((panel->x_high - panel->x_low) / step + 0.001);
    for (int i = 0; i <= count; i++) {
        double x = at_x(panel, panel->x_low + i * step);
        printf("<path class=\"tick\" d=\"M%.1f %.1fv5\"/>", x, bottom);
        printf("<text class=\"middle\" x=\"%.1f\" y=\"%.1f\">%.*f</text>\n", x, bottom + 18.0, decimals, i * step);
    }
}

void panel_y_ticks(const struct Panel *panel, double step)
{
    int count = (int)((panel->y_high - panel->y_low) / step + 0.001);
    for (int i = 0; i <= count; i++) {
        double value = panel->y_low + i * step;
        double y = at_y(panel, value);
        printf("<path class=\"grid\" d=\"M%.1f %.1fh%.1f\"/>", panel->left, y, panel->width);
        printf("<text class=\"end\" x=\"%.1f\" y=\"%.1f\">%.0f</text>\n", panel->left - 8.0, y + 4.0, value);
    }
}

void panel_mark(const struct Panel *panel, double x, const char *label)
{
    printf("<path class=\"mark\" d=\"M%.1f %.1fv%.1f\"/>", at_x(panel, x), panel->top, panel->height);
    printf("<text class=\"label\" x=\"%.1f\" y=\"%.1f\">%s</text>\n", at_x(panel, x) + 4.0, panel->top + 14.0, label);
}

void panel_level(const struct Panel *panel, double y, const char *label)
{
    double right = panel->left + panel->width;
    printf("<path class=\"mark\" d=\"M%.1f %.1fh%.1f\"/>", panel->left, at_y(panel, y), panel->width);
    printf("<text class=\"label end\" x=\"%.1f\" y=\"%.1f\">%s</text>\n", right - 4.0, at_y(panel, y) - 4.0, label);
}

void panel_shade(const struct Panel *panel, double from, double to)
{
    struct Panel stretch = *panel;
    stretch.left = at_x(panel, from);
    stretch.width = at_x(panel, to) - stretch.left;
    write_rectangle(&stretch, "shade");
}

/* The rows of one pixel: those with the lowest and the highest y. */
struct Pixel {
    const struct Row *low, *high;
};

static void write_point(const struct Panel *panel, const struct Row *row, Column x, Column y)
{
    printf("%.1f %.1f\n", at_x(panel, x(row)), at_y(panel, y(row)));
}

/* Rows lie in one array, so the one at the lower address came first. */
static void write_pixel(const struct Panel *panel, const struct Pixel *pixel, Column x, Column y)
{
    const struct Row *first = pixel->low < pixel->high ? pixel->low : pixel->high;
    const struct Row *last = pixel->low < pixel->high ? pixel->high : pixel->low;
    write_point(panel, first, x, y);
    if (fabs(at_y(panel, y(first)) - at_y(panel, y(last))) >= SMALLEST_STEP) {
        write_point(panel, last, x, y);
    }
}

/* Takes one more row. A row of the next pixel closes the one before it. */
static void take_row(const struct Panel *panel, struct Pixel *pixel, const struct Row *row, Column x, Column y)
{
    if (pixel->low != NULL && floor(at_x(panel, x(row))) > floor(at_x(panel, x(pixel->low)))) {
        write_pixel(panel, pixel, x, y);
        *pixel = (struct Pixel){NULL, NULL};
    }
    if (pixel->low == NULL || y(row) < y(pixel->low)) {
        pixel->low = row;
    }
    if (pixel->high == NULL || y(row) > y(pixel->high)) {
        pixel->high = row;
    }
}

static bool is_drawn(const struct Panel *panel, const struct Row *row, Column x, Column y)
{
    return panel->x_low <= x(row) && x(row) <= panel->x_high && !isnan(y(row));
}

/* A part of the curve without a gap: from row i, which is drawn, to the last drawn one. The result is the row after it. */
static size_t write_part(const struct Panel *panel, const struct Record *record, size_t i, Column x, Column y)
{
    struct Pixel pixel = {NULL, NULL};
    printf("M");
    for (; i < record->count && is_drawn(panel, &record->rows[i], x, y); i++) {
        take_row(panel, &pixel, &record->rows[i], x, y);
    }
    write_pixel(panel, &pixel, x, y);
    return i;
}

void panel_curve(const struct Panel *panel, const struct Record *record, Column x, Column y, const char *class)
{
    size_t i = 0;
    printf("<path class=\"%s\" clip-path=\"url(#panel%d)\" d=\"", class, panel->number);
    while (i < record->count) {
        i = is_drawn(panel, &record->rows[i], x, y) ? write_part(panel, record, i, x, y) : i + 1;
    }
    printf("\"/>\n");
}

/* The row after a stretch of marked rows that begins at row i; row i itself where it has no mark. */
static size_t end_of_stretch(const struct Record *record, size_t i, Column mark)
{
    while (i < record->count && mark(&record->rows[i]) != 0.0) {
        i++;
    }
    return i;
}

static void write_stroke(const struct Panel *panel, double from, double to)
{
    if (panel->x_low <= to && from <= panel->x_high) {
        double y = panel->top + panel->height - STROKE / 2.0;
        printf("M%.1f %.1fh%.1f\n", at_x(panel, from), y, fmax(at_x(panel, to) - at_x(panel, from), NARROWEST));
    }
}

/* A row's mark holds until the next row: a stroke ends where the row after its stretch stands. */
void panel_strokes(const struct Panel *panel, const struct Record *record, Column x, Column mark, const char *class)
{
    printf("<path class=\"%s\" clip-path=\"url(#panel%d)\" d=\"", class, panel->number);
    for (size_t i = 0; i < record->count; i++) {
        size_t end = end_of_stretch(record, i, mark);
        if (i < end) {
            size_t next = end < record->count ? end : end - 1;
            write_stroke(panel, x(&record->rows[i]), x(&record->rows[next]));
            i = end;
        }
    }
    printf("\"/>\n");
}
