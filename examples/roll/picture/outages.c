#include "outages.h"

static uint32_t first_with(const bool *marks, bool wanted, uint32_t from, uint32_t end)
{
    while (from < end && marks[from] != wanted) {
        from++;
    }
    return from;
}

struct Stretch next_stretch(const struct Logs *logs, const bool *marks, bool wanted, uint32_t from)
{
    uint32_t end = (uint32_t)logs->record.count + 1;
    struct Stretch stretch = {.from = first_with(marks, wanted, from, end)};
    stretch.to = first_with(marks, !wanted, stretch.from, end);
    return stretch;
}

/* Whether the last command before a period was decided in a view of this box. */
static bool is_coordinator_before(const struct Logs *logs, int box, uint32_t period)
{
    uint32_t last = period - 1;
    while (last > 0 && !logs->commanded[last]) {
        last--;
    }
    return logs->coordinated[box][last];
}

static int boxes_up(const struct Logs *logs, uint32_t period)
{
    int up = 0;
    for (int box = 0; box < BOXES; box++) {
        up += logs->up[box][period];
    }
    return up;
}

static bool is_outage(const struct Logs *logs, const struct Outage *outage)
{
    struct Stretch off = outage->off;
    return off.to - off.from >= OUTAGE && off.from > 1 && boxes_up(logs, off.from) == BOXES - 1 &&
           is_coordinator_before(logs, outage->box, off.from) == outage->of_coordinator;
}

static struct Outage first_outage_of(const struct Logs *logs, int box, bool of_coordinator)
{
    struct Outage outage = {.box = box, .of_coordinator = of_coordinator, .off = next_stretch(logs, logs->up[box], false, 1)};
    while (outage.off.from < outage.off.to && !is_outage(logs, &outage)) {
        outage.off = next_stretch(logs, logs->up[box], false, outage.off.to);
    }
    return outage;
}

/* A box without such an outage has an empty one at the end of the roll. */
static struct Outage first_outage(const struct Logs *logs, bool of_coordinator)
{
    struct Outage first = first_outage_of(logs, 0, of_coordinator);
    for (int box = 1; box < BOXES; box++) {
        struct Outage outage = first_outage_of(logs, box, of_coordinator);
        first = outage.off.from < first.off.from ? outage : first;
    }
    return first;
}

struct Outage outage_to_show(const struct Logs *logs)
{
    struct Outage outage = first_outage(logs, true);
    return outage.off.from < outage.off.to ? outage : first_outage(logs, false);
}

struct Stretch longest_gap(const struct Logs *logs)
{
    struct Stretch longest = {.from = 1, .to = 1};
    struct Stretch gap = next_stretch(logs, logs->commanded, false, 1);
    while (gap.from < gap.to) {
        longest = gap.to - gap.from > longest.to - longest.from ? gap : longest;
        gap = next_stretch(logs, logs->commanded, false, gap.to);
    }
    return longest;
}
