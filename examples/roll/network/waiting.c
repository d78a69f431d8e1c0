#include "waiting.h"

void wait_until(struct Waiting *waiting, int64_t due, const struct Datagram *datagram)
{
    if (waiting->count < MOST_WAITING) {
        waiting->places[waiting->count].due = due;
        waiting->places[waiting->count].datagram = *datagram;
        waiting->count++;
    }
}

/* The place of the first that is due; 0 where none waits. */
static size_t first_place(const struct Waiting *waiting)
{
    size_t first = 0;
    for (size_t place = 1; place < waiting->count; place++) {
        if (waiting->places[place].due < waiting->places[first].due) {
            first = place;
        }
    }
    return first;
}

int64_t first_due(const struct Waiting *waiting)
{
    return waiting->count == 0 ? 0 : waiting->places[first_place(waiting)].due;
}

bool next_due(struct Waiting *waiting, int64_t now, struct Datagram *datagram)
{
    if (waiting->count == 0 || now < first_due(waiting)) {
        return false;
    }
    size_t place = first_place(waiting);
    *datagram = waiting->places[place].datagram;
    waiting->places[place] = waiting->places[--waiting->count];
    return true;
}
