#define _POSIX_C_SOURCE 200809L
#include "timer.h"

#include <sys/timerfd.h>
#include <unistd.h>

#include "process.h"

#define SECOND 1000000000

int timer_made(void)
{
    int timer = timerfd_create(CLOCK_REALTIME, TFD_NONBLOCK);
    need(timer >= 0, "there is no timer");
    return timer;
}

/* An instant of 0 stops a timer; none of a roll is. */
void timer_set(int timer, int64_t instant)
{
    const struct itimerspec once = {.it_value = {.tv_sec = instant / SECOND, .tv_nsec = instant % SECOND}};
    need(timerfd_settime(timer, TFD_TIMER_ABSTIME, &once, NULL) == 0, "a timer was not set");
}

void timer_stop(int timer)
{
    timer_set(timer, 0);
}

bool timer_rang(int timer)
{
    uint64_t times;
    return read(timer, &times, sizeof times) == sizeof times;
}
