/*
 * oatlantern-decode: 18-byte frames on standard input, one line of text for
 * each on standard output: the 28 indices in field order, the correction
 * number, the order mark, and the letter of the correction's kind. With -v,
 * standard error says what each correction has changed.
 */
#include <errno.h>
#include <stdio.h>
#include <string.h>

#include "oatlantern.h"

static const char NAME[] = "oatlantern-decode";

/* Prints the line of one frame; 0 where it could not be printed. */
static int print_frame(const uint8_t *record, int32_t result)
{
    int field;

    for (field = 1; field <= OATLANTERN_FIELDS; field++)
        if (printf("%u ", (unsigned)oatlantern_get_index(record, field)) < 0)
            return 0;
    return printf("%d %d %c\n", oatlantern_number(result), oatlantern_mark(result),
                  oatlantern_kind_letter(oatlantern_kind(result))) >= 0;
}

/* Says, after the frame's line, what its correction has changed; nothing where the frame is clean. */
static void say_correction(unsigned long count, int32_t result)
{
    int number = oatlantern_number(result);

    switch (oatlantern_kind(result)) {
    case OATLANTERN_PARITY_HIT:
        fflush(stdout);
        fprintf(stderr, "%s: frame %lu: correction number %d: a parity bit, no index was changed\n", NAME, count, number);
        break;
    case OATLANTERN_DATA_HIT:
        fflush(stdout);
        fprintf(stderr, "%s: frame %lu: correction number %d: bit %d of field %d was inverted\n", NAME, count, number,
                oatlantern_corrected_bit(number), oatlantern_corrected_field(number));
        break;
    default:
        break;
    }
}

int main(int argc, char **argv)
{
    uint8_t frame[OATLANTERN_FRAME_BYTES];
    uint8_t record[OATLANTERN_RECORD_BYTES];
    unsigned long count = 0;
    int verbose = argc == 2 && strcmp(argv[1], "-v") == 0;

    if (argc != 1 + verbose) {
        fprintf(stderr, "usage: %s [-v] < FRAMES > LINES\n", NAME);
        return 2;
    }

    for (;;) {
        size_t got = fread(frame, 1, sizeof frame, stdin);
        int32_t result;

        if (ferror(stdin)) {
            fprintf(stderr, "%s: standard input: %s\n", NAME, strerror(errno));
            return 1;
        }
        if (got == 0)
            break;
        count++;
        result = oatlantern_read_frame(frame, got, record, sizeof record);
        if (oatlantern_is_refused(result)) {
            if (fflush(stdout) == EOF)
                break;
            fprintf(stderr, "%s: frame %lu: refused %d: %s (%lu bytes are left)\n", NAME, count, oatlantern_refusal(result),
                    oatlantern_refusal_words(oatlantern_refusal(result)), (unsigned long)got);
            return 1;
        }
        if (!print_frame(record, result))
            break;
        if (verbose)
            say_correction(count, result);
    }

    if (fflush(stdout) == EOF || ferror(stdout)) {
        fprintf(stderr, "%s: standard output: %s\n", NAME, strerror(errno));
        return 1;
    }
    return 0;
}
