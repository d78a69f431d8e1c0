/*
 * Panels that show period by period who was up and who decided: a bar for each box, and below them the periods whose command is at its stop
 * and those without one.
 */
#ifndef BARS_H
#define BARS_H

#include <stdint.h>

#include "logs.h"
#include "panel.h"

/* A panel, what it is of, and the column of its x axis. */
struct Shown {
    const struct Panel *panel;
    const struct Logs *logs;
    Column x;
};

/* Colours of the bars: written once, after the picture's head. */
void write_bar_style(void);

/* The bars with their names at the panel's left. */
void write_bars(const struct Shown *shown);

/* What the colours mean, in one line of the picture from x on. */
void write_bar_keys(double x, double y);

/* Shades the stretches of so many periods or more without a command. */
void shade_gaps(const struct Shown *shown, uint32_t least);

#endif
