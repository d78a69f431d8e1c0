/*
 * Whether every frame that arrived was sent by another box.
 */
#ifndef CHECKER_FRAMES_H
#define CHECKER_FRAMES_H

#include "history.h"
#include "report.h"

/* Puts the frames sent in the order of their bytes. */
void check_frames(struct History *history, struct Report *report);

#endif
