/*
 * oatlantern decode: 18-byte frames, one line of text for each: the 28 indices
 * in field order, the correction number, the order mark, and the letter of the
 * correction's kind. With -v, standard error says what each correction has
 * changed.
 *
 * oatlantern encode: such lines, the frame of each. A line may end after the
 * 28 indices, or without the letter; what stands behind them is not used.
 *
 * Both are streams of any length.
 */
#define _POSIX_C_SOURCE 200809L

#include <errno.h>
#include <stdio.h>
#include <string.h>

#include "command.h"

#define ONLY_INDICES OATLANTERN_FIELDS
#define AS_DECODED (OATLANTERN_FIELDS + 2)

/* The largest number that a pair of bytes holds. It is too large for every field. */
#define LARGEST 65535UL

/* What is read: a file, or standard input, and its name. */
struct input {
    FILE *file;
    const char *name;
};

/* Opens what the one name behind a subcommand says, or standard input where there is none; answers WELL, USAGE or FAILED. */
static int open_input(int argc, char **argv, struct input *input)
{
    int names = operands(argc, argv);

    if (names < 0 || names > 1)
        return USAGE;
    input->name = names == 0 ? "-" : argv[1];
    input->file = strcmp(input->name, "-") == 0 ? stdin : fopen(input->name, "rb");
    return input->file != NULL ? WELL : failed(shown(input->name), errno);
}

static void close_input(const struct input *input)
{
    if (input->file != stdin)
        (void)fclose(input->file);
}

/* ---- decode ---- */

/* Prints the line of one frame; 0 where it could not be printed. */
static int print_frame(const uint8_t *record, int32_t result)
{
    int field;

    for (field = 1; field <= OATLANTERN_FIELDS; field++)
        if (printf("%u ", (unsigned)oatlantern_get_index(record, field)) < 0)
            return 0;
    return printf("%d %d %c\n", oatlantern_number(result), oatlantern_mark(result),
                  oatlantern_kind_letter(oatlantern_kind(result))) >= 0;
}

/* Says, after the frame's line, what its correction has changed; nothing where the frame is clean. */
static void say_correction(const char *name, unsigned long count, int32_t result)
{
    int number = oatlantern_number(result);

    switch (oatlantern_kind(result)) {
    case OATLANTERN_PARITY_HIT:
        say("%s: frame %lu: correction number %d: a parity bit, no index was changed", shown(name), count, number);
        break;
    case OATLANTERN_DATA_HIT:
        say("%s: frame %lu: correction number %d: bit %d of field %d was inverted", shown(name), count, number,
            oatlantern_corrected_bit(number), oatlantern_corrected_field(number));
        break;
    default:
        break;
    }
}

static int frame_refused(const char *name, unsigned long count, int refusal, size_t left)
{
    say("%s: frame %lu: refused %d: %s (%lu bytes are left)", shown(name), count, refusal, oatlantern_refusal_words(refusal),
        (unsigned long)left);
    return REFUSED;
}

/* All frames, as long as standard output takes their lines. */
static int decode(const struct input *input, int verbose)
{
    uint8_t frame[OATLANTERN_FRAME_BYTES];
    uint8_t record[OATLANTERN_RECORD_BYTES];
    unsigned long count;

    for (count = 1;; count++) {
        size_t got = fread(frame, 1, sizeof frame, input->file);
        int32_t result;

        if (ferror(input->file))
            return failed(shown(input->name), errno);
        if (got == 0)
            return WELL;
        result = oatlantern_read_frame(frame, got, record, sizeof record);
        if (oatlantern_is_refused(result))
            return frame_refused(input->name, count, oatlantern_refusal(result), got);
        if (!print_frame(record, result))
            return written();
        if (verbose)
            say_correction(input->name, count, result);
    }
}

int decode_frames(int argc, char **argv)
{
    int verbose = argc > 1 && strcmp(argv[1], "-v") == 0;
    struct input input;
    int status;

    if (verbose)
        argv[1] = argv[0];
    status = open_input(argc - verbose, argv + verbose, &input);
    if (status == USAGE)
        return misused(argv[0]);
    if (status != WELL)
        return status;
    status = decode(&input, verbose);
    close_input(&input);
    return status;
}

/* ---- encode ---- */

/* What a line was. */
enum line {
    LINE_NONE,      /* the input has ended */
    LINE_WHOLE,     /* 28 or 30 numbers, or 30 and a letter, the first 28 now in the record */
    LINE_MALFORMED, /* anything else, which has been said */
    LINE_UNREAD     /* the input could not be read */
};

/* Whether a byte is a letter that decode prints. */
static int is_letter(int c)
{
    return c == 'c' || c == 'p' || c == 'd';
}

static enum line stray_byte(const struct input *input, unsigned long at, int c)
{
    say("%s: line %lu: malformed: byte 0x%02x is no digit and no space", shown(input->name), at, (unsigned)c);
    return LINE_MALFORMED;
}

static enum line wrong_count(const struct input *input, unsigned long at, unsigned long numbers)
{
    say("%s: line %lu: malformed: %lu numbers, not %d or %d", shown(input->name), at, numbers, ONLY_INDICES, AS_DECODED);
    return LINE_MALFORMED;
}

/*
 * Takes one line, of any length, byte by byte. Numbers are decimal digits,
 * parted by spaces or tabs. One over LARGEST counts as LARGEST, so that the
 * writer refuses it as too large. After thirty numbers a letter may stand.
 */
static enum line take_line(const struct input *input, unsigned long at, uint8_t *record)
{
    unsigned long numbers = 0;
    unsigned long value = 0;
    int in_number = 0;
    int lettered = 0;
    int c = getc(input->file);

    if (c == EOF)
        return ferror(input->file) ? LINE_UNREAD : LINE_NONE;
    for (;; c = getc(input->file)) {
        if (c >= '0' && c <= '9') {
            value = (in_number ? 10 * value : 0) + (unsigned long)(c - '0');
            if (value > LARGEST)
                value = LARGEST;
            in_number = 1;
            continue;
        }
        if (is_letter(c) && !in_number && !lettered && numbers == AS_DECODED) {
            lettered = 1;
            continue;
        }
        if (in_number) {
            numbers++;
            if (numbers <= OATLANTERN_FIELDS)
                oatlantern_set_index(record, (int)numbers, (uint16_t)value);
            in_number = 0;
        }
        if (c == '\n' || c == EOF)
            break;
        if (c != ' ' && c != '\t' && c != '\r')
            return stray_byte(input, at, c);
    }
    if (c == EOF && ferror(input->file))
        return LINE_UNREAD;
    return numbers == ONLY_INDICES || numbers == AS_DECODED ? LINE_WHOLE : wrong_count(input, at, numbers);
}

/* Says why the writer has refused the record of a line. */
static int line_refused(const char *name, unsigned long at, int refusal, const uint8_t *record)
{
    const char *words = oatlantern_refusal_words(refusal);

    if (refusal == OATLANTERN_REFUSED_TOO_LARGE)
        say("%s: line %lu: refused %d: %s (field %d)", shown(name), at, refusal, words, oatlantern_too_large(record));
    else
        say("%s: line %lu: refused %d: %s", shown(name), at, refusal, words);
    return REFUSED;
}

/* All lines, as long as standard output takes their frames. */
static int encode(const struct input *input)
{
    uint8_t frame[OATLANTERN_FRAME_BYTES];
    uint8_t record[OATLANTERN_RECORD_BYTES];
    unsigned long at;

    for (at = 1;; at++) {
        int32_t result;

        switch (take_line(input, at, record)) {
        case LINE_NONE:
            return WELL;
        case LINE_UNREAD:
            return failed(shown(input->name), errno);
        case LINE_MALFORMED:
            return REFUSED;
        case LINE_WHOLE:
            break;
        }
        result = oatlantern_write_frame(record, sizeof record, frame, sizeof frame);
        if (oatlantern_is_refused(result))
            return line_refused(input->name, at, oatlantern_refusal(result), record);
        if (fwrite(frame, 1, sizeof frame, stdout) != sizeof frame)
            return written();
    }
}

int encode_records(int argc, char **argv)
{
    struct input input;
    int status = open_input(argc, argv, &input);

    if (status == USAGE)
        return misused(argv[0]);
    if (status != WELL)
        return status;
    status = encode(&input);
    close_input(&input);
    return status;
}
