#define _POSIX_C_SOURCE 200809L
#include "clock.h"

#include <errno.h>
#include <time.h>

#define SECOND 1000000000

int64_t clock_now(void)
{
    struct timespec now;
    clock_gettime(CLOCK_REALTIME, &now);
    return (int64_t)now.tv_sec * SECOND + now.tv_nsec;
}

int64_t sampled_at(const struct Clock *clock, uint32_t k)
{
    return clock->first + ((int64_t)k - 1) * clock->period;
}

int64_t ticked_at(const struct Clock *clock, uint32_t k)
{
    return sampled_at(clock, k) + clock->period / 4;
}

uint32_t ticks_due(const struct Clock *clock, int64_t now)
{
    int64_t since = now - ticked_at(clock, 1);
    return since < 0 ? 0 : (uint32_t)(since / clock->period + 1);
}

void sleep_until(int64_t instant)
{
    const struct timespec until = {.tv_sec = instant / SECOND, .tv_nsec = instant % SECOND};
    while (clock_nanosleep(CLOCK_REALTIME, TIMER_ABSTIME, &until, NULL) == EINTR) {
    }
}
