/*
 * sanitize [N]: the archive under a C driver that is built with the address and
 * undefined-behaviour sanitizers. The archive's own code is not instrumented, so
 * the buffers lie where a stray byte is seen all the same: against a page that
 * may not be touched, once at the buffer's end and once at its start (a read or
 * a write there ends the program), and in blocks of malloc of exactly their
 * size, between guard bytes. Checks itself: records come back from their frames,
 * frames at distance 1 are mended, refusals write nothing.
 */
#define _DEFAULT_SOURCE
#include <stdio.h>
#include <stdlib.h>
#include <string.h>
#include <sys/mman.h>
#include <unistd.h>

#include "oatlantern.h"

#define FRAME OATLANTERN_FRAME_BYTES
#define RECORD OATLANTERN_RECORD_BYTES
#define LONGEST 200

typedef int32_t function(const uint8_t *given, size_t given_len, uint8_t *lent, size_t lent_len);

static unsigned long checks;

static void expect(int holds, const char *what)
{
    checks++;
    if (!holds) {
        fprintf(stderr, "sanitize: %s\n", what);
        exit(1);
    }
}

/* splitmix64 */
static uint64_t state = 1016;

static uint64_t next(void)
{
    uint64_t z = state += UINT64_C(0x9E3779B97F4A7C15);

    z = (z ^ z >> 30) * UINT64_C(0xBF58476D1CE4E5B9);
    z = (z ^ z >> 27) * UINT64_C(0x94D049BB133111EB);
    return z ^ z >> 31;
}

/* A page between two that may not be touched. */
static uint8_t *fenced_page(size_t page)
{
    uint8_t *p = mmap(NULL, 3 * page, PROT_NONE, MAP_PRIVATE | MAP_ANONYMOUS, -1, 0);

    if (p == MAP_FAILED || mprotect(p + page, page, PROT_READ | PROT_WRITE) != 0) {
        perror("sanitize: mmap");
        exit(1);
    }
    return p + page;
}

static size_t page;
static uint8_t *given_page;
static uint8_t *lent_page;

/*
 * Calls the function four times: buffers at the ends of their pages, at their
 * starts, in malloc's blocks, and in the middle of guard bytes. All four must
 * give the same result and leave the same bytes, which are handed back.
 */
static int32_t everywhere(function *f, const uint8_t *given, size_t given_len, uint8_t *lent, size_t lent_len)
{
    uint8_t held[LONGEST], first[LONGEST], guard[LONGEST + 64];
    int32_t result = 0;
    size_t i;
    int way;

    memcpy(held, lent, lent_len);
    for (way = 0; way < 4; way++) {
        uint8_t *from, *to;
        int32_t r;

        if (way == 0) {
            from = given_page + page - given_len;
            to = lent_page + page - lent_len;
        } else if (way == 1) {
            from = given_page;
            to = lent_page;
        } else if (way == 2) {
            from = given_len == 0 ? NULL : malloc(given_len);
            to = lent_len == 0 ? NULL : malloc(lent_len);
        } else {
            from = given_page + 1;
            to = guard + 32;
            memset(guard, 0x5a, sizeof guard);
        }
        expect((from != NULL || given_len == 0) && (to != NULL || lent_len == 0), "out of memory");
        if (given_len != 0)
            memcpy(from, given, given_len);
        if (lent_len != 0)
            memcpy(to, held, lent_len);
        r = f(from, given_len, to, lent_len);
        if (given_len != 0)
            expect(memcmp(from, given, given_len) == 0, "the given bytes have changed");
        if (r < 0 && lent_len != 0)
            expect(memcmp(to, held, lent_len) == 0, "a refusal has written");
        if (way == 0) {
            result = r;
            memcpy(first, to, lent_len);
        } else {
            expect(r == result, "the result depends on where the buffers lie");
            if (lent_len != 0)
                expect(memcmp(to, first, lent_len) == 0, "the bytes depend on where the buffers lie");
        }
        if (way == 2) {
            free(from);
            free(to);
        }
        if (way == 3)
            for (i = 0; i < sizeof guard; i++)
                if (i < 32 || i >= 32 + lent_len)
                    expect(guard[i] == 0x5a, "a guard byte has changed");
    }
    memcpy(lent, first, lent_len);
    return result;
}

static void fill(uint8_t *bytes, size_t n)
{
    size_t i;

    for (i = 0; i < n; i++)
        bytes[i] = (uint8_t)next();
}

/* What the reader's result has beside the number and the mark: 256 for a parity hit, 512 for a data hit. */
static int hit_of(int number)
{
    switch (number) {
    case 0: return 0;
    case 1: case 2: case 4: case 8: return 256;
    default: return 512;
    }
}

/* A result of the reader that is no refusal: a number, a mark and the hit that goes with the number, and no other bit. */
static int is_reading(int32_t result)
{
    int number, mark;

    if (oatlantern_is_refused(result))
        return 0;
    number = oatlantern_number(result);
    mark = oatlantern_mark(result);
    return number <= 15 && mark < OATLANTERN_LSPS && result == hit_of(number) + 16 * mark + number;
}

static void lengths(void)
{
    static const size_t tried[] = { 0, 1, 8, 16, 17, 18, 19, 32, 36, 54, 55, 56, 57, 58, 64, 112, 128 };
    const size_t count = sizeof tried / sizeof tried[0];
    uint8_t given[LONGEST], lent[LONGEST];
    size_t i, j;

    for (i = 0; i < count; i++)
        for (j = 0; j < count; j++) {
            int32_t r;

            fill(given, tried[i]);
            fill(lent, tried[j]);
            r = everywhere(oatlantern_read_frame, given, tried[i], lent, tried[j]);
            expect(tried[i] == FRAME && tried[j] == RECORD ? is_reading(r) : r == -OATLANTERN_REFUSED_LENGTH, "reader: lengths");
            fill(lent, tried[j]);
            r = everywhere(oatlantern_write_frame, given, tried[i], lent, tried[j]);
            expect(tried[i] == RECORD && tried[j] == FRAME ? r <= 0 && r >= -6 : r == -OATLANTERN_REFUSED_LENGTH, "writer: lengths");
        }
}

/* The guarded places, by correction number. */
static const int GUARDED[15] = { 21, 51, 11, 94, 61, 114, 41, 134, 124, 143, 83, 31, 72, 1, 104 };

static int number_of(int place)
{
    int n;

    for (n = 1; n <= 15; n++)
        if (GUARDED[n - 1] == place)
            return n;
    return 0;
}

/* A frame read gives indices within their fields; where nothing was wrong with it, it is written back to the same bytes. */
static void there_and_back(const uint8_t *frame)
{
    static const uint8_t widths[OATLANTERN_FIELDS] = OATLANTERN_WIDTHS;
    uint8_t record[RECORD], back[FRAME], again[RECORD];
    int32_t r, w;
    int field, place;

    fill(record, sizeof record);
    r = everywhere(oatlantern_read_frame, frame, FRAME, record, RECORD);
    expect(is_reading(r), "reader: range of the result");
    expect(oatlantern_too_large(record) == 0, "reader: an index too large");
    fill(back, sizeof back);
    w = everywhere(oatlantern_write_frame, record, RECORD, back, FRAME);
    if (oatlantern_mark(r) != 0)
        expect(w == -OATLANTERN_REFUSED_FALLING, "writer: a fall");
    else if (oatlantern_get_index(record, OATLANTERN_SP) != 0)
        expect(w == -OATLANTERN_REFUSED_EXPANSION, "writer: the expansion bit");
    else {
        expect(w == 0, "writer: a sound record");
        expect((memcmp(back, frame, FRAME) == 0) == (oatlantern_number(r) == 0), "a frame comes back exactly where it was clean");
        expect(everywhere(oatlantern_read_frame, back, FRAME, again, RECORD) == 0, "a written frame is clean");
        expect(memcmp(again, record, RECORD) == 0, "a record comes back");
        for (place = 1; place <= 144; place++) {
            back[(place - 1) / 8] ^= (uint8_t)(0x80 >> ((place - 1) % 8));
            r = oatlantern_read_frame(back, FRAME, again, RECORD);
            expect(is_reading(r) && oatlantern_number(r) == number_of(place), "one flip: the number");
            expect((memcmp(again, record, RECORD) == 0) == (number_of(place) != 0), "one flip: mended where it is guarded");
            back[(place - 1) / 8] ^= (uint8_t)(0x80 >> ((place - 1) % 8));
        }
        field = 1 + (int)(next() % OATLANTERN_FIELDS);
        oatlantern_set_index(record, field, (uint16_t)(1u << widths[field - 1] | (uint16_t)next()));
        expect(oatlantern_too_large(record) == field, "the field that is too large");
        expect(everywhere(oatlantern_write_frame, record, RECORD, back, FRAME) == -OATLANTERN_REFUSED_TOO_LARGE, "writer: an index too large");
    }
}

int main(int argc, char **argv)
{
    long count = argc > 1 ? strtol(argv[1], NULL, 10) : 20000;
    uint8_t frame[FRAME];
    long n;

    page = (size_t)sysconf(_SC_PAGESIZE);
    given_page = fenced_page(page);
    lent_page = fenced_page(page);
    lengths();
    memset(frame, 0, sizeof frame);
    there_and_back(frame);
    for (n = 0; n < count; n++) {
        fill(frame, sizeof frame);
        if (n % 2 == 0) {
            /* half of them with nothing but subframe bits: such LSPs are in order */
            uint8_t record[RECORD];
            int field;

            oatlantern_read_frame(frame, FRAME, record, RECORD);
            for (field = OATLANTERN_LSP_1; field <= OATLANTERN_LSP_10; field++)
                oatlantern_set_index(record, field, 0);
            oatlantern_set_index(record, OATLANTERN_SP, 0);
            expect(oatlantern_write_frame(record, RECORD, frame, FRAME) == 0, "a record in order");
        }
        there_and_back(frame);
    }
    printf("sanitize: %lu checks, 0 failed\n", checks);
    return checks == 0;
}
