/*
 * The box's log, as docs/ROLL.md lays it down. A line is written at once and whole, and before what it tells of leaves the box: so whatever
 * left stands in the log, whenever the box is killed.
 */
#ifndef JOURNAL_H
#define JOURNAL_H

#include "box.h"

/* Opens the log and ends a line that a kill has cut. */
int journal_opened(const char *path);

void journal_made(const struct Box *box, const struct winder_settings *law, const int32_t start[WINDER_STATES_MAX]);
void journal_returned(const struct Box *box, const uint8_t record[WINDER_RECORD], uint32_t missed);

/* Events that were asked. */
void journal_tick(const struct Box *box, const struct Sample *sample);
void journal_arrive(const struct Box *box, const struct Arrived *arrived);
void journal_give_up(const struct Box *box);

/* What became of them. */
void journal_committed(const struct Box *box);
void journal_refused(const struct Box *box, uint32_t number);
void journal_unstored(const struct Box *box);

#endif
