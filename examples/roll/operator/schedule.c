#include "schedule.h"

#include <stdlib.h>

#include "chance.h"

enum { CHANCE_USE = 2 };

/* In periods. The roll has some 19,560, of which the line slows down in the last 2,000. */
enum {
    FIRST_TURN = 1500, /* the first box goes off here or later .. */
    TURN = 3500,       /* .. the next ones so many later .. */
    TURN_SPREAD = 1800,
    OFF_LEAST = 20, /* .. for so long */
    OFF_SPREAD = 1500,

    FIRST_PAIR = 12500, /* the first of two goes off here or later .. */
    PAIR = 2500,        /* .. in the next pair so many later .. */
    PAIR_SPREAD = 800,
    ALONE_LEAST = 50, /* .. the second so long after it .. */
    ALONE_SPREAD = 400,
    OVERLAP_LEAST = 50, /* .. both are off for so long .. */
    OVERLAP_SPREAD = 250,
    BACK_SPREAD = 100 /* .. and come back within so long, or at once */
};

/*
 * A moment of a period. Every other one lies in the half of it in which frames go round: between an ask and what it sends is where a kill
 * tells most.
 */
static int64_t moment(struct Chance *chance, const struct Clock *clock, uint32_t k)
{
    uint64_t period = (uint64_t)clock->period;
    bool goes_round = chance_below(chance, 2) == 0;
    uint64_t within = goes_round ? period / 4 + chance_below(chance, period / 2) : chance_below(chance, period);
    return sampled_at(clock, k) + (int64_t)within;
}

static uint32_t spread(struct Chance *chance, uint32_t least, uint32_t width)
{
    return least + (uint32_t)chance_below(chance, width);
}

/* Each box in turn, from one that the seed chooses. */
static void take_turns(struct Chance *chance, const struct Clock *clock, struct Move *moves)
{
    uint32_t first = (uint32_t)chance_below(chance, BOXES);
    for (uint32_t turn = 0; turn < BOXES; turn++) {
        int box = (int)((first + turn) % BOXES) + 1;
        uint32_t off = spread(chance, FIRST_TURN + turn * TURN, TURN_SPREAD);
        uint32_t back = off + spread(chance, OFF_LEAST, OFF_SPREAD);
        *moves++ = (struct Move){moment(chance, clock, off), box, false};
        *moves++ = (struct Move){moment(chance, clock, back), box, true};
    }
}

/*
 * Two boxes go off, so that the third is alone for a while. They come back one after the other, or both at one moment: right behind a tick,
 * so that both have booted for the same one.
 */
static void take_pair(struct Chance *chance, const struct Clock *clock, uint32_t from, struct Move *moves)
{
    int one = (int)chance_below(chance, BOXES) + 1;
    int other = (one + (int)chance_below(chance, BOXES - 1)) % BOXES + 1;
    uint32_t one_off = spread(chance, from, PAIR_SPREAD);
    uint32_t other_off = one_off + spread(chance, ALONE_LEAST, ALONE_SPREAD);
    uint32_t one_back = other_off + spread(chance, OVERLAP_LEAST, OVERLAP_SPREAD);
    uint32_t other_back = one_back + spread(chance, 1, BACK_SPREAD);
    bool at_once = chance_below(chance, 2) == 0;
    *moves++ = (struct Move){moment(chance, clock, one_off), one, false};
    *moves++ = (struct Move){moment(chance, clock, other_off), other, false};
    *moves++ = (struct Move){at_once ? ticked_at(clock, one_back) : moment(chance, clock, one_back), one, true};
    *moves++ = (struct Move){at_once ? ticked_at(clock, one_back) : moment(chance, clock, other_back), other, true};
}

static int by_instant(const void *one, const void *other)
{
    int64_t first = ((const struct Move *)one)->instant, second = ((const struct Move *)other)->instant;
    return (first > second) - (first < second);
}

void schedule_of(uint64_t seed, const struct Clock *clock, struct Move moves[MOVES])
{
    struct Chance chance = chance_of(seed, CHANCE_USE);
    take_turns(&chance, clock, moves);
    for (uint32_t pair = 0; pair < PAIRS; pair++) {
        take_pair(&chance, clock, FIRST_PAIR + pair * PAIR, moves + 2 * BOXES + 4 * pair);
    }
    qsort(moves, MOVES, sizeof moves[0], by_instant);
}
