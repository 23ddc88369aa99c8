/*
 * Calls belt_meaning on the cases of kind m on standard input (../CASES.md), as
 * many rounds as they say, and prints the sum of the answers.
 */
#include <inttypes.h>
#include <stdio.h>
#include <stdlib.h>

#include "calls.h"

#define MOST 6553
#define CASE 10

static uint16_t codes[MOST][4];

static unsigned half(const uint8_t *s)
{
    return s[0] + 256u * s[1];
}

int main(void)
{
    static uint8_t given[4 + CASE * MOST];
    size_t length = fread(given, 1, sizeof given, stdin);
    size_t count = length < 4 ? 0 : (length - 4) / CASE;
    uint64_t sum = 0;

    if (length < 4 || (length - 4) % CASE != 0)
        return 1;
    for (size_t k = 0; k < count; k++) {
        const uint8_t *one = given + 4 + CASE * k;

        if (one[0] != 'm' || one[1] != 8)
            return 1;
        for (int n = 0; n < 4; n++)
            codes[k][n] = (uint16_t)half(one + 2 + 2 * n);
    }
    for (uint32_t more = half(given) + 65536u * half(given + 2), round = 0; round <= more; round++)
        for (size_t k = 0; k < count; k++)
            sum += belt_meaning(codes[k][0], codes[k][1], codes[k][2], codes[k][3]);
    printf("%" PRIu64 "\n", sum);
    return 0;
}
