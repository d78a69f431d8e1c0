/* A timer that rings once, at an instant of the clock, and is waited for as a descriptor. */
#ifndef TIMER_H
#define TIMER_H

#include <stdbool.h>
#include <stdint.h>

int timer_made(void);

/* Sets the timer anew; one that has not rung yet does not ring for what it was set to before. */
void timer_set(int timer, int64_t instant);
void timer_stop(int timer);

/* Whether it has rung since this was asked last. */
bool timer_rang(int timer);

#endif
