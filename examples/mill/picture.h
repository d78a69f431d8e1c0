/* The record as a picture. */
#ifndef PICTURE_H
#define PICTURE_H

#include "record.h"

/*
 * Writes an SVG: tension and command over the web wound and in the seconds around four events, with strokes where the command is at its
 * stop.
 */
void write_picture(const struct Record *record);

#endif
