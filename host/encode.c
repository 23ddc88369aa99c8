/*
 * oatlantern-encode: lines of text on standard input, the frame of each on
 * standard output. A line has the 28 indices in field order, and may have the
 * two numbers after them that oatlantern-decode prints, and its letter after
 * those; they are not used.
 */
#include <errno.h>
#include <stdio.h>
#include <string.h>

#include "oatlantern.h"

#define ONLY_INDICES OATLANTERN_FIELDS
#define AS_DECODED (OATLANTERN_FIELDS + 2)

/* The largest number that a pair of bytes holds. It is too large for every field. */
#define LARGEST 65535UL

static const char NAME[] = "oatlantern-encode";

/* What a line was. */
enum line {
    LINE_NONE,      /* the input has ended */
    LINE_WHOLE,     /* 28 or 30 numbers, or 30 and a letter, the first 28 now in the record */
    LINE_MALFORMED, /* anything else; a message has been printed */
    LINE_UNREAD     /* the input could not be read */
};

/* Whether a byte is a letter that oatlantern-decode prints. */
static int is_letter(int c)
{
    return c == 'c' || c == 'p' || c == 'd';
}

/*
 * Takes one line, of any length, byte by byte. Numbers are decimal digits,
 * parted by spaces or tabs. One over LARGEST counts as LARGEST, so that the
 * writer refuses it as too large. After thirty numbers a letter may stand.
 */
static enum line take_line(unsigned long at, uint8_t *record)
{
    unsigned long numbers = 0;
    unsigned long value = 0;
    int in_number = 0;
    int lettered = 0;
    int c = getchar();

    if (c == EOF)
        return ferror(stdin) ? LINE_UNREAD : LINE_NONE;
    for (;; c = getchar()) {
        if (c >= '0' && c <= '9') {
            value = (in_number ? 10 * value : 0) + (unsigned long)(c - '0');
            if (value > LARGEST)
                value = LARGEST;
            in_number = 1;
            continue;
        }
        if (is_letter(c) && !in_number && !lettered && numbers == AS_DECODED) {
            lettered = 1;
            continue;
        }
        if (in_number) {
            numbers++;
            if (numbers <= OATLANTERN_FIELDS)
                oatlantern_set_index(record, (int)numbers, (uint16_t)value);
            in_number = 0;
        }
        if (c == '\n' || c == EOF)
            break;
        if (c != ' ' && c != '\t' && c != '\r') {
            fprintf(stderr, "%s: line %lu: malformed: byte 0x%02x is no digit and no space\n", NAME, at, (unsigned)c);
            return LINE_MALFORMED;
        }
    }
    if (c == EOF && ferror(stdin))
        return LINE_UNREAD;
    if (numbers != ONLY_INDICES && numbers != AS_DECODED) {
        fprintf(stderr, "%s: line %lu: malformed: %lu numbers, not %d or %d\n", NAME, at, numbers, ONLY_INDICES, AS_DECODED);
        return LINE_MALFORMED;
    }
    return LINE_WHOLE;
}

/* Says why the writer has refused the record of a line; the program's exit status. */
static int line_refused(unsigned long at, int refusal, const uint8_t *record)
{
    fprintf(stderr, "%s: line %lu: refused %d: %s", NAME, at, refusal, oatlantern_refusal_words(refusal));
    if (refusal == OATLANTERN_REFUSED_TOO_LARGE)
        fprintf(stderr, " (field %d)", oatlantern_too_large(record));
    fprintf(stderr, "\n");
    return 1;
}

/* Says that standard output failed; the program's exit status. */
static int output_failed(void)
{
    fprintf(stderr, "%s: standard output: %s\n", NAME, strerror(errno));
    return 1;
}

int main(int argc, char **argv)
{
    uint8_t frame[OATLANTERN_FRAME_BYTES];
    uint8_t record[OATLANTERN_RECORD_BYTES];
    unsigned long at;

    (void)argv;
    if (argc != 1) {
        fprintf(stderr, "usage: %s < LINES > FRAMES\n", NAME);
        return 2;
    }

    for (at = 1;; at++) {
        enum line line = take_line(at, record);
        int32_t result;

        if (line == LINE_UNREAD) {
            fprintf(stderr, "%s: standard input: %s\n", NAME, strerror(errno));
            return 1;
        }
        if (line == LINE_NONE)
            return fflush(stdout) == EOF || ferror(stdout) ? output_failed() : 0;
        if (line == LINE_MALFORMED)
            return fflush(stdout) == EOF ? output_failed() : 1;
        result = oatlantern_write_frame(record, sizeof record, frame, sizeof frame);
        if (oatlantern_is_refused(result))
            return fflush(stdout) == EOF ? output_failed() : line_refused(at, oatlantern_refusal(result), record);
        if (fwrite(frame, 1, sizeof frame, stdout) != sizeof frame)
            return output_failed();
    }
}
