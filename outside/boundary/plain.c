/*
 * A plain C frame reader and writer, written from the documents: Federal
 * Standard 1016 with the house rules. They follow the printed table one place
 * at a time and use the same buffers and results as oatlantern.h. They are what
 * speed is measured against, and what the fuzzer compares with.
 */
#include "plain.h"

#define FIELDS 28
#define PLACES 144
#define LSPS 10

/* A place of the table of 3.8.2: the field, numbered as in the record, and the bit. Field 0 has the four parity bits. */
struct place {
    uint8_t field;
    uint8_t bit;
};

#define LSP(j, i) { j, i }
#define PD(n, i) { 4 * (n) + 7, i }
#define PG(n, i) { 4 * (n) + 8, i }
#define CI(n, i) { 4 * (n) + 9, i }
#define CG(n, i) { 4 * (n) + 10, i }
#define HP(i) { 0, i }
#define SP_BIT { 27, 0 }
#define SY_BIT { 28, 0 }

/* 3.8.2, in the order of transmission. */
static const struct place TABLE[PLACES] = {
    /* bits 1 to 36 */
    PG(4, 4), PD(3, 4), LSP(1, 1), CG(2, 4), CI(3, 3), CI(1, 8),
    PD(4, 0), LSP(8, 0), PG(2, 3), CG(3, 0), PD(1, 5), LSP(3, 3),
    CI(2, 3), CI(4, 4), PD(2, 1), LSP(10, 0), PG(1, 3), CG(4, 0),
    LSP(5, 2), PD(3, 0), HP(0), CI(1, 1), CI(4, 8), LSP(2, 2),
    PG(3, 1), PD(4, 5), CG(1, 3), CI(3, 5), LSP(7, 0), CI(2, 1),
    PD(3, 7), CI(1, 0), PG(4, 0), LSP(4, 3), CG(3, 1), CI(1, 5),
    /* bits 37 to 72 */
    PD(2, 0), CI(4, 1), LSP(9, 0), CI(3, 8), PG(1, 4), CG(2, 2),
    PD(1, 3), LSP(6, 1), CI(3, 4), CI(2, 2), CG(1, 4), PD(2, 3),
    LSP(1, 2), PG(3, 2), HP(1), PD(3, 1), CG(4, 3), LSP(8, 1),
    PG(3, 0), CI(2, 8), PD(4, 1), CI(4, 0), LSP(3, 2), PG(2, 0),
    PD(1, 6), CG(2, 0), CI(3, 6), LSP(10, 1), PG(1, 1), CI(4, 7),
    PD(3, 3), CG(1, 2), LSP(5, 3), CI(1, 6), LSP(2, 0), PG(3, 4),
    /* bits 73 to 108 */
    PD(1, 4), CG(3, 2), LSP(7, 1), CI(2, 7), CI(3, 0), PD(2, 5),
    LSP(4, 1), CG(1, 0), PG(4, 3), LSP(9, 1), PD(3, 6), CI(1, 4),
    CG(2, 1), LSP(6, 2), CI(4, 3), PG(2, 2), PD(4, 3), LSP(1, 0),
    CG(4, 2), LSP(8, 2), CI(2, 4), HP(2), PD(2, 2), LSP(3, 0),
    PG(1, 2), CG(3, 4), LSP(10, 2), CI(4, 5), CI(2, 0), PD(1, 2),
    LSP(5, 1), SP_BIT, PG(4, 2), CG(2, 3), LSP(2, 1), PD(4, 4),
    /* bits 109 to 144 */
    CI(1, 2), PG(2, 1), CI(3, 7), LSP(4, 0), CI(2, 5), PD(1, 7),
    PG(1, 0), CG(4, 4), LSP(5, 0), PD(4, 2), CI(1, 3), CI(3, 1),
    LSP(7, 2), CI(4, 2), PD(1, 1), PG(2, 4), CG(3, 3), LSP(3, 1),
    CI(1, 7), PD(3, 2), CI(2, 6), LSP(9, 2), PG(4, 1), CG(1, 1),
    PD(2, 4), HP(3), LSP(6, 0), PG(3, 3), CI(4, 6), PD(1, 0),
    LSP(2, 3), CG(4, 1), CI(3, 2), LSP(4, 2), PD(3, 5), SY_BIT,
};

/* 3.9: the guarded places, counted from 1, in the order of their correction numbers 1 to 15. */
static const uint8_t GUARDED[15] = { 21, 51, 11, 94, 61, 114, 41, 134, 124, 143, 83, 31, 72, 1, 104 };

/* How many bits each field has. */
static const uint8_t WIDTHS[FIELDS] = {
    3, 4, 4, 4, 4, 3, 3, 3, 3, 3, 8, 5, 9, 5, 6, 5, 9, 5, 8, 5, 9, 5, 6, 5, 9, 5, 1, 1,
};

/* 3.7.2, in Hz: a row for each parameter. */
static const uint16_t HERTZ[LSPS][16] = {
    { 100, 170, 225, 250, 280, 340, 420, 500 },
    { 210, 235, 265, 295, 325, 360, 400, 440, 480, 520, 560, 610, 670, 740, 810, 880 },
    { 420, 460, 500, 540, 585, 640, 705, 775, 850, 950, 1050, 1150, 1250, 1350, 1450, 1550 },
    { 620, 660, 720, 795, 880, 970, 1080, 1170, 1270, 1370, 1470, 1570, 1670, 1770, 1870, 1970 },
    { 1000, 1050, 1130, 1210, 1285, 1350, 1430, 1510, 1590, 1670, 1750, 1850, 1950, 2050, 2150, 2250 },
    { 1470, 1570, 1690, 1830, 2000, 2200, 2400, 2600 },
    { 1800, 1880, 1960, 2100, 2300, 2480, 2700, 2900 },
    { 2225, 2400, 2525, 2650, 2800, 2950, 3150, 3350 },
    { 2760, 2880, 3000, 3100, 3200, 3310, 3430, 3550 },
    { 3190, 3270, 3350, 3420, 3490, 3590, 3710, 3830 },
};

/* The order mark of indices that fit their fields: the lowest j for which LSP j+1 is below LSP j, or 0. */
static int order_mark(const uint16_t *fields)
{
    int j;

    for (j = 1; j < LSPS; j++)
        if (HERTZ[j][fields[j + 1]] < HERTZ[j - 1][fields[j]])
            return j;
    return 0;
}

/* The exclusive or of the numbers of those guarded places whose bit is set. */
static int parity_number(const uint16_t *fields)
{
    int number = 0;
    int n;

    for (n = 1; n <= 15; n++) {
        const struct place *p = &TABLE[GUARDED[n - 1] - 1];

        if (fields[p->field] >> p->bit & 1)
            number ^= n;
    }
    return number;
}

int32_t plain_read_frame(const uint8_t *frame, size_t frame_len, uint8_t *record, size_t record_len)
{
    uint16_t fields[FIELDS + 1] = { 0 };
    int hit = 0;
    int number;
    int i;

    if (frame_len != 18 || record_len != 2 * FIELDS)
        return -1;
    for (i = 0; i < PLACES; i++)
        fields[TABLE[i].field] |= (uint16_t)((frame[i / 8] >> (7 - i % 8) & 1) << TABLE[i].bit);
    number = parity_number(fields);
    if (number != 0) {
        const struct place *p = &TABLE[GUARDED[number - 1] - 1];

        fields[p->field] ^= (uint16_t)(1 << p->bit);
        hit = p->field == 0 ? 256 : 512;
    }
    for (i = 0; i < FIELDS; i++) {
        record[2 * i] = (uint8_t)(fields[i + 1] & 255);
        record[2 * i + 1] = (uint8_t)(fields[i + 1] >> 8);
    }
    return hit + 16 * order_mark(fields) + number;
}

int32_t plain_write_frame(const uint8_t *record, size_t record_len, uint8_t *frame, size_t frame_len)
{
    uint16_t fields[FIELDS + 1] = { 0 };
    int i;

    if (frame_len != 18 || record_len != 2 * FIELDS)
        return -1;
    for (i = 0; i < FIELDS; i++) {
        fields[i + 1] = (uint16_t)(record[2 * i] | record[2 * i + 1] << 8);
        if (fields[i + 1] >> WIDTHS[i] != 0)
            return -2;
    }
    if (order_mark(fields) != 0)
        return -3;
    if (fields[27] != 0)
        return -6;
    fields[0] = (uint16_t)parity_number(fields);
    for (i = 0; i < 18; i++)
        frame[i] = 0;
    for (i = 0; i < PLACES; i++)
        frame[i / 8] |= (uint8_t)((fields[TABLE[i].field] >> TABLE[i].bit & 1) << (7 - i % 8));
    return 0;
}
