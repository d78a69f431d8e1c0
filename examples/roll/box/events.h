/* The events of a box, each by the loop of docs/FIRMWARE.md: ask, store, commit, send. */
#ifndef EVENTS_H
#define EVENTS_H

#include "box.h"

/* Ticks for every period that is due, and the frames that came early for the last of them. */
void ticks(struct Box *box);

/* A frame arrived. */
void arrives(struct Box *box, const struct Arrived *arrived);

/* The coordinator's time has run out. */
void gives_up(struct Box *box);

#endif
