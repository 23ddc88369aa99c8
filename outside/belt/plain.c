/*
 * What four codes mean, plainly in C99: it is what a call is measured against.
 * With -DSTRETCHES the twelfths of a rank are worked out, else they are a table.
 * With -DNOTHING it answers 0, for what calling alone takes.
 *
 * tables.h comes from the output of `outside tables` (bench.py writes it):
 * ranks, the rank of each byte, and twelfths, those of each rank.
 */
#include "calls.h"
#include "tables.h"

#if defined NOTHING

uint64_t belt_meaning(uint16_t first, uint16_t second, uint16_t third, uint16_t fourth)
{
    (void)first, (void)second, (void)third, (void)fourth;
    return 0;
}

#else

/* The delay of a rank. */
static uint64_t delay(unsigned rank)
{
#if defined STRETCHES
    /* 20 to 25.67 in thirds, 26 to 33.75 in quarters, 34 to 79.67 in thirds, 80 to 147 in whole samples */
    return rank < 18 ? 240 + 4 * rank
        : rank < 50 ? 312 + 3 * (rank - 18)
        : rank < 188 ? 408 + 4 * (rank - 50)
        : 960 + 12 * (rank - 188);
#else
    return twelfths[rank];
#endif
}

/* The lowest rank of the window after a rank. */
static unsigned base(unsigned rank)
{
    return rank < 31 ? 0 : rank > 223 ? 192 : rank - 31;
}

static uint64_t refused(unsigned subframe)
{
    return UINT64_C(9000000000000200000) + subframe;
}

uint64_t belt_meaning(uint16_t first, uint16_t second, uint16_t third, uint16_t fourth)
{
    if (first > 255)
        return refused(1);
    if (second > 63)
        return refused(2);
    if (third > 255)
        return refused(3);
    if (fourth > 63)
        return refused(4);
    return delay(ranks[first])
        | delay(base(ranks[first]) + second) << 16
        | delay(ranks[third]) << 32
        | delay(base(ranks[third]) + fourth) << 48;
}

#endif
