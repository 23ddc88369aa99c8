/*
 * The excitation of a subframe as a plain loop in C99: reads the cases of
 * `subframes` on standard input and prints their lines (../CASES.md). It is
 * what speed is measured against.
 *
 * tables.h comes from the output of `outside tables` (bench.py writes it):
 * elements, cg, pg, and delays, the list in twelfths in rising order.
 */
#include <inttypes.h>
#include <stdint.h>
#include <stdio.h>
#include <string.h>

#include "tables.h"

#define REGISTER 147
#define SUBFRAME 60
#define FARTHEST 1000000
#define LONGEST 62
#define CASE 604

/* What is called, and not taken into its caller, as a library's functions are. */
#define CALLED __attribute__((noinline)) static

struct subframe {
    uint32_t delay;
    uint16_t pg, ci, cg;
};

/* Whether a delay is in the list. */
static int is_listed(uint32_t delay)
{
    size_t low = 0, high = sizeof delays / sizeof *delays;

    while (low < high) {
        size_t middle = (low + high) / 2;

        if (delays[middle] == delay)
            return 1;
        if (delays[middle] < delay)
            low = middle + 1;
        else
            high = middle;
    }
    return 0;
}

/* Writes the excitation and moves the register (the oldest first) by it; 0, or a refusal's number. */
CALLED int excite(int32_t *reg, const struct subframe *by, int32_t *out, size_t length)
{
    if (length != SUBFRAME)
        return 1;
    if (by->pg > 31 || by->cg > 31 || by->ci > 511)
        return 2;
    if (!is_listed(by->delay))
        return 4;
    if (by->delay % 12 != 0)
        return 15;

    const int64_t adaptive_gain = pg[by->pg];
    const int64_t ternary_gain = 1000 * cg[by->cg];
    const int8_t *ternary = elements + 2 * (511 - by->ci);
    const int32_t *end = reg + REGISTER;
    const int32_t *first = end - by->delay / 12;
    const int32_t *adaptive = first;

    for (int t = 0; t < SUBFRAME; t++) {
        int64_t sum = ternary_gain * ternary[t] + adaptive_gain * *adaptive;
        int64_t whole = (sum < 0 ? sum - 500 : sum + 500) / 1000;

        out[t] = (int32_t)(whole > FARTHEST ? FARTHEST : whole < -FARTHEST ? -FARTHEST : whole);
        if (++adaptive == end)
            adaptive = first;
    }
    memmove(reg, reg + SUBFRAME, (REGISTER - SUBFRAME) * sizeof *reg);
    memcpy(reg + REGISTER - SUBFRAME, out, SUBFRAME * sizeof *reg);
    return 0;
}

static uint16_t half(const uint8_t *s)
{
    return (uint16_t)(s[0] | s[1] << 8);
}

static uint32_t word(const uint8_t *s)
{
    return half(s) | (uint32_t)half(s + 2) << 16;
}

static void print(const int32_t *numbers, int count)
{
    for (int i = 0; i < count; i++)
        printf(" %" PRId32, numbers[i]);
}

int main(void)
{
    uint8_t given[CASE];

    while (fread(given, 1, CASE, stdin) == CASE) {
        const uint8_t *rest = given + 4 + 4 * REGISTER;
        struct subframe by = { word(rest), half(rest + 4), half(rest + 6), half(rest + 8) };
        size_t length = half(rest + 10);
        int32_t reg[REGISTER], out[LONGEST];
        int refused;

        for (int i = 0; i < REGISTER; i++)
            reg[i] = (int32_t)word(given + 4 + 4 * i);
        for (int i = 0; i < LONGEST; i++)
            out[i] = 7;
        if (length > LONGEST)
            length = LONGEST;
        refused = excite(reg, &by, out, length);
        for (uint32_t more = word(given); more > 0; more--)
            refused = excite(reg, &by, out, length);
        printf("%d", refused);
        print(out, LONGEST);
        print(reg, REGISTER);
        putchar('\n');
    }
    return 0;
}
