/* Pictures of panels: a frame with ticks, and curves in it. Everything is written to standard output as SVG. */
#ifndef PANEL_H
#define PANEL_H

#include "columns.h"
#include "record.h"

/* Place and size in the picture, and the values at the frame's edges. */
struct Panel {
    int number; /* its own in the picture */
    double left, top, width, height;
    double x_low, x_high, y_low, y_high;
};

/* What stands before the panels, and after them. */
void picture_head(int width, int height, const char *title);
void picture_end(void);

/* The frame with a title above it, and the names of the axes. */
void panel_frame(const struct Panel *panel, const char *title, const char *x_name, const char *y_name);

/* Ticks with numbers. The x axis counts from its left edge. */
void panel_x_ticks(const struct Panel *panel, double step, int decimals);
void panel_y_ticks(const struct Panel *panel, double step);

/* A line at x with a label beside its upper end, and one at y with a label above its right end. */
void panel_mark(const struct Panel *panel, double x, const char *label);
void panel_level(const struct Panel *panel, double y, const char *label);

/* A stretch of the x axis, shaded. */
void panel_shade(const struct Panel *panel, double from, double to);

/*
 * A curve through the rows, with a gap where y is a NaN. Where many rows share a pixel, their lowest and highest are kept, so that no peak
 * is lost.
 */
void panel_curve(const struct Panel *panel, const struct Record *record, Column x, Column y, const char *class);

/* A stroke at the lower edge for each stretch of rows whose mark is not 0, wide enough for a single row to be seen. */
void panel_strokes(const struct Panel *panel, const struct Record *record, Column x, Column mark, const char *class);

/* A sample of a curve or a stroke and its name, at a place of the picture. */
void panel_key(double x, double y, const char *class, const char *name);

#endif
