/* Answers calls of the boundary that come over standard input, so that a program on any machine can ask the archive, which is for x86-64.
 *
 * A call: which function (1 byte: 0 reads a frame, 1 writes one), whether a buffer of length 0 is a null pointer (1 byte), the shifts of
 * both buffers from 16-byte places (1 byte each), both lengths (2 bytes each, little-endian), the bytes given, the bytes that the lent
 * buffer holds. An answer: the result (4 bytes, little-endian), a byte that is 1 where the bytes given and the guard bytes round both
 * buffers are as they were, and the bytes of the lent buffer. The program ends where its input does.
 */
#include <stdint.h>
#include <stdio.h>
#include <string.h>

#include "oatlantern.h"

enum { GUARD = 48, ROOM = 176, SIZE = GUARD + 16 + ROOM + GUARD };

struct buffer {
    _Alignas(16) uint8_t bytes[SIZE];
    size_t from, len;
};

static uint8_t guard(size_t at)
{
    return (uint8_t)(at * 29) ^ 0xA5;
}

/* Puts the next bytes of the input between guard bytes; 0 where they end early or are too many. */
static int put(struct buffer *b, size_t shift, size_t len)
{
    size_t at;

    if (shift > 15 || len > ROOM)
        return 0;
    for (at = 0; at < SIZE; at++)
        b->bytes[at] = guard(at);
    b->from = GUARD + shift;
    b->len = len;
    return fread(b->bytes + b->from, 1, len, stdin) == len;
}

static int is_whole(const struct buffer *b)
{
    size_t at;

    for (at = 0; at < SIZE; at++)
        if ((at < b->from || at >= b->from + b->len) && b->bytes[at] != guard(at))
            return 0;
    return 1;
}

static uint8_t *lent(struct buffer *b, int null)
{
    return null && b->len == 0 ? NULL : b->bytes + b->from;
}

int main(void)
{
    static struct buffer from, to;
    uint8_t head[8], before[ROOM], answer[5];
    int32_t result;
    uint32_t bits;

    while (fread(head, 1, sizeof head, stdin) == sizeof head) {
        if (head[0] > 1 || !put(&from, head[2], (size_t)head[4] | (size_t)head[5] << 8) ||
            !put(&to, head[3], (size_t)head[6] | (size_t)head[7] << 8))
            return 2;
        memcpy(before, from.bytes + from.from, from.len);
        result = head[0] == 0 ? oatlantern_read_frame(lent(&from, head[1]), from.len, lent(&to, head[1]), to.len)
                              : oatlantern_write_frame(lent(&from, head[1]), from.len, lent(&to, head[1]), to.len);
        bits = (uint32_t)result;
        answer[0] = (uint8_t)bits;
        answer[1] = (uint8_t)(bits >> 8);
        answer[2] = (uint8_t)(bits >> 16);
        answer[3] = (uint8_t)(bits >> 24);
        answer[4] = is_whole(&from) && is_whole(&to) && memcmp(before, from.bytes + from.from, from.len) == 0;
        if (fwrite(answer, 1, sizeof answer, stdout) != sizeof answer || fwrite(to.bytes + to.from, 1, to.len, stdout) != to.len)
            return 1;
    }
    return ferror(stdin) || fflush(stdout) != 0;
}
