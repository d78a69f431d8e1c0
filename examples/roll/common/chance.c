#include "chance.h"

struct Chance chance_of(uint64_t seed, uint64_t use)
{
    struct Chance chance = {.state = seed << 8 | use};
    chance_below(&chance, 2);
    return chance;
}

/* Steele, Lea and Flood's SplitMix: a counter, and its bits mixed. Bounds are far below 2 to the 64, so none is noticeably likelier. */
uint64_t chance_below(struct Chance *chance, uint64_t bound)
{
    chance->state += 0x9e3779b97f4a7c15u;
    uint64_t mixed = chance->state;
    mixed = (mixed ^ mixed >> 30) * 0xbf58476d1ce4e5b9u;
    mixed = (mixed ^ mixed >> 27) * 0x94d049bb133111ebu;
    return (mixed ^ mixed >> 31) % bound;
}

bool chance_permille(struct Chance *chance, uint64_t rate)
{
    return chance_below(chance, 1000) < rate;
}
