/*
 * test-header COUNT: the header's inline functions against the archive, over
 * COUNT frames and COUNT records, and against the table of guarded places on
 * standard input: fifteen lines of a correction number, its place, and the
 * field and bit that it names, 0 and 0 for a parity bit. And each of the other
 * functions of the archive, with each result and refusal that the header names.
 * It is C and C++.
 */
#include <stdio.h>
#include <stdlib.h>
#include <string.h>

#include "oatlantern.h"

#define PLACES 144
#define GUARDED 15

static unsigned long checks;

static void check(int holds, const char *what, long at)
{
    checks++;
    if (!holds) {
        fprintf(stderr, "test-header: %s (%ld)\n", what, at);
        exit(1);
    }
}

/* A sequence of numbers: xorshift, 32 bits. */
static uint32_t next(void)
{
    static uint32_t x = 2463534242u;

    x ^= x << 13;
    x ^= x >> 17;
    x ^= x << 5;
    return x;
}

/* The place of each guarded bit and its field, by its number; 0 is none. */
static int places[GUARDED + 1];
static int fields[GUARDED + 1];

static void flip(uint8_t *frame, int place)
{
    const unsigned byte = frame[(place - 1) / 8] ^ (0x80u >> ((place - 1) % 8));

    frame[(place - 1) / 8] = byte & 0xff;
}

static void random_frame(uint8_t *frame)
{
    int i;

    for (i = 0; i < OATLANTERN_FRAME_BYTES; i++)
        frame[i] = next() >> 8 & 0xff;
}

/* The table on standard input says of each number what the two functions say. */
static void table(void)
{
    int number, place, field, bit, lines = 0;

    while (scanf("%d %d %d %d", &number, &place, &field, &bit) == 4) {
        lines++;
        check(number == lines && place >= 1 && place <= PLACES, "the table's rows", number);
        places[number] = place;
        fields[number] = field;
        check(oatlantern_corrected_field(number) == field, "field of a number", number);
        check(oatlantern_corrected_bit(number) == bit, "bit of a number", number);
    }
    check(lines == GUARDED, "fifteen rows", lines);
    for (number = -40; number <= 300; number++)
        if (number < 1 || number > GUARDED)
            check(oatlantern_corrected_field(number) == 0 && oatlantern_corrected_bit(number) == 0, "no such number", number);
}

/* The two records differ in just the bit that the number names; they are equal where it names none. */
static int differ_as_named(const uint8_t *a, const uint8_t *b, int number)
{
    int field;

    for (field = 1; field <= OATLANTERN_FIELDS; field++) {
        const int reversed = oatlantern_get_index(a, field) ^ oatlantern_get_index(b, field);
        const int named = field == oatlantern_corrected_field(number) ? 1 << oatlantern_corrected_bit(number) : 0;

        if (reversed != named)
            return 0;
    }
    return 1;
}

/* The kind that a number says, by the table: a data bit has a field. */
static int kind_of(int number)
{
    if (number == 0)
        return OATLANTERN_CLEAN;
    return fields[number] == 0 ? OATLANTERN_PARITY_HIT : OATLANTERN_DATA_HIT;
}

/*
 * What a correction changed. Flipping the parity bits that a frame's number is
 * the sum of makes its parity agree, and they are in no field: so it is then
 * read as it came, and the first reading differs in the corrected bit alone.
 */
static void correction(long at)
{
    uint8_t frame[OATLANTERN_FRAME_BYTES], record[OATLANTERN_RECORD_BYTES], as_it_came[OATLANTERN_RECORD_BYTES];
    int32_t result;
    int number, parity;

    random_frame(frame);
    result = oatlantern_read_frame(frame, sizeof frame, record, sizeof record);
    check(!oatlantern_is_refused(result) && oatlantern_refusal(result) == 0, "every frame is read", at);
    number = oatlantern_number(result);
    check(result == 16 * oatlantern_mark(result) + number + kind_of(number), "nothing else in the result", at);
    check(oatlantern_kind(result) == kind_of(number), "the kind of a number", at);
    check(number >= 0 && number <= GUARDED && oatlantern_mark(result) >= 0 && oatlantern_mark(result) < OATLANTERN_LSPS,
          "number and mark", at);
    check(oatlantern_too_large(record) == 0, "indices that were read fit", at);
    for (parity = 1; parity <= 8; parity *= 2)
        if (number & parity)
            flip(frame, places[parity]);
    result = oatlantern_read_frame(frame, sizeof frame, as_it_came, sizeof as_it_came);
    check(oatlantern_number(result) == 0 && oatlantern_kind(result) == OATLANTERN_CLEAN, "the parity agrees", at);
    check(differ_as_named(record, as_it_came, number), "what the correction changed", at);
}

/* A written frame with one guarded bit flipped: its number, and the record as it was written. With two: never 0, never mended. */
static void flips(long at)
{
    uint8_t frame[OATLANTERN_FRAME_BYTES], record[OATLANTERN_RECORD_BYTES], again[OATLANTERN_RECORD_BYTES];
    int32_t result;
    int field, n, m;

    random_frame(frame);
    oatlantern_read_frame(frame, sizeof frame, record, sizeof record);
    for (field = OATLANTERN_LSP_1; field <= OATLANTERN_LSP_10; field++)
        oatlantern_set_index(record, field, 0);
    oatlantern_set_index(record, OATLANTERN_SP, 0);
    check(oatlantern_write_frame(record, sizeof record, frame, sizeof frame) == 0, "a record that fits is written", at);
    for (n = 1; n <= GUARDED; n++) {
        flip(frame, places[n]);
        result = oatlantern_read_frame(frame, sizeof frame, again, sizeof again);
        check(oatlantern_number(result) == n && memcmp(record, again, sizeof record) == 0, "one flip", at);
        check(oatlantern_kind(result) == kind_of(n), "one flip: its kind", at);
        for (m = 1; m < n; m++) {
            flip(frame, places[m]);
            result = oatlantern_read_frame(frame, sizeof frame, again, sizeof again);
            check(oatlantern_number(result) == (n ^ m) && oatlantern_kind(result) == kind_of(n ^ m), "two flips: a third number", at);
            check(memcmp(record, again, sizeof record) != 0, "two flips: a data bit is wrong", at);
            flip(frame, places[m]);
        }
        flip(frame, places[n]);
    }
}

/* The lowest field that is too large: the fields below it fit, and it does not, by what the writer says of each alone. */
static void sizes(long at)
{
    static const uint8_t widths[OATLANTERN_FIELDS] = OATLANTERN_WIDTHS;
    uint8_t frame[OATLANTERN_FRAME_BYTES], record[OATLANTERN_RECORD_BYTES], part[OATLANTERN_RECORD_BYTES];
    int32_t result;
    int field, large;

    /* most indices fit; of the others some are one too large and some are anything */
    for (field = 1; field <= OATLANTERN_FIELDS; field++) {
        const unsigned end = 1u << widths[field - 1];
        const unsigned drawn = next() % 40 == 0 ? (next() % 2 == 0 ? end : next()) : next() % end;

        oatlantern_set_index(record, field, drawn & 0xffff);
        check(oatlantern_get_index(record, field) == (drawn & 0xffff), "an index comes back", at);
    }
    large = oatlantern_too_large(record);
    result = oatlantern_write_frame(record, sizeof record, frame, sizeof frame);
    check((oatlantern_refusal(result) == OATLANTERN_REFUSED_TOO_LARGE) == (large != 0), "too large, as the writer says", at);
    if (large == 0)
        return;
    memcpy(part, record, sizeof part);
    for (field = large; field <= OATLANTERN_FIELDS; field++)
        oatlantern_set_index(part, field, 0);
    result = oatlantern_write_frame(part, sizeof part, frame, sizeof frame);
    check(oatlantern_refusal(result) != OATLANTERN_REFUSED_TOO_LARGE && oatlantern_too_large(part) == 0, "the fields below fit", at);
    memset(part, 0, sizeof part);
    oatlantern_set_index(part, large, oatlantern_get_index(record, large));
    result = oatlantern_write_frame(part, sizeof part, frame, sizeof frame);
    check(oatlantern_refusal(result) == OATLANTERN_REFUSED_TOO_LARGE && oatlantern_too_large(part) == large, "the field itself", at);
}

/* Every index of every field, 0 to 65,535, in a record of zeros. */
static void each_index(void)
{
    uint8_t frame[OATLANTERN_FRAME_BYTES], record[OATLANTERN_RECORD_BYTES];
    unsigned index;
    int field;

    for (field = 1; field <= OATLANTERN_FIELDS; field++)
        for (index = 0; index <= 0xffff; index++) {
            int32_t result;

            memset(record, 0, sizeof record);
            oatlantern_set_index(record, field, index & 0xffff);
            result = oatlantern_write_frame(record, sizeof record, frame, sizeof frame);
            check(oatlantern_get_index(record, field) == index, "an index comes back", field);
            check(oatlantern_too_large(record) == (oatlantern_refusal(result) == OATLANTERN_REFUSED_TOO_LARGE ? field : 0),
                  "one index too large", field);
        }
}

/* Results taken apart: each function takes its own bits whatever the others are, and a refusal has neither number, mark nor kind. */
static void results(void)
{
    static const int32_t above[] = { 0, 1, 2, 3, 4, 0x55, 0x800, 0x400000, 0x7fffff };
    static const char letters[] = "cpd?";
    const int count = sizeof above / sizeof above[0];
    int32_t mark, number, refusal;
    int i, kind;

    for (mark = 0; mark <= 15; mark++)
        for (number = 0; number <= 15; number++)
            for (i = 0; i < count; i++) {
                const int32_t result = 256 * above[i] + 16 * mark + number;

                check(oatlantern_number(result) == number && oatlantern_mark(result) == mark, "taken apart", result);
                check(oatlantern_kind(result) == 256 * (above[i] % 4), "the kind", result);
                check(!oatlantern_is_refused(result) && oatlantern_refusal(result) == 0, "not refused", result);
            }
    for (refusal = 1; refusal <= 300; refusal++) {
        check(oatlantern_is_refused(-refusal) && oatlantern_refusal(-refusal) == refusal, "refused", refusal);
        check(oatlantern_number(-refusal) == 0 && oatlantern_mark(-refusal) == 0, "a refusal has no number", refusal);
        check(oatlantern_kind(-refusal) == OATLANTERN_CLEAN, "a refusal has no kind", refusal);
    }
    for (kind = 0; kind <= 3; kind++)
        check(oatlantern_kind_letter(256 * kind) == letters[kind], "the letter of a kind", kind);
    for (kind = -300; kind <= 1100; kind++)
        check((oatlantern_kind_letter(kind) == '?') == (kind != 0 && kind != 256 && kind != 512), "no such kind", kind);
}

/* Each refusal of the archive, by its name in the header. */
static void refusals(void)
{
    uint8_t frame[OATLANTERN_FRAME_BYTES] = { 0 }, record[OATLANTERN_RECORD_BYTES] = { 0 };

    check(oatlantern_write_frame(record, sizeof record, frame, sizeof frame) == 0, "zeros are written", 0);
    check(oatlantern_refusal(oatlantern_read_frame(frame, sizeof frame - 1, record, sizeof record)) == OATLANTERN_REFUSED_LENGTH &&
              oatlantern_refusal(oatlantern_write_frame(record, sizeof record + 1, frame, sizeof frame)) == OATLANTERN_REFUSED_LENGTH,
          "refused for a length", 0);
    oatlantern_set_index(record, OATLANTERN_SP, 1);
    check(oatlantern_refusal(oatlantern_write_frame(record, sizeof record, frame, sizeof frame)) == OATLANTERN_REFUSED_EXPANSION,
          "refused for SP", 0);
    oatlantern_set_index(record, OATLANTERN_LSP_1, 7);
    check(oatlantern_refusal(oatlantern_write_frame(record, sizeof record, frame, sizeof frame)) == OATLANTERN_REFUSED_FALLING,
          "refused for the order", 0);
    oatlantern_set_index(record, OATLANTERN_SY, 2);
    check(oatlantern_refusal(oatlantern_write_frame(record, sizeof record, frame, sizeof frame)) == OATLANTERN_REFUSED_TOO_LARGE,
          "refused for an index", 0);
}

/* The refusals, 0 and all others have words, and only the others share theirs. */
static void words(void)
{
    static const int known[] = { 0, OATLANTERN_REFUSED_LENGTH, OATLANTERN_REFUSED_TOO_LARGE, OATLANTERN_REFUSED_FALLING,
                                 OATLANTERN_REFUSED_NOT_LISTED, OATLANTERN_REFUSED_EXPANSION, OATLANTERN_REFUSED_BLOCK,
                                 OATLANTERN_REFUSED_HEADER_CUT, OATLANTERN_REFUSED_PAST_END, OATLANTERN_REFUSED_WRONG_SIZE,
                                 OATLANTERN_REFUSED_NOTHING_KEPT, OATLANTERN_REFUSED_OTHER_COUNT, OATLANTERN_REFUSED_FULL,
                                 OATLANTERN_REFUSED_NOT_WHOLE };
    const int count = sizeof known / sizeof known[0];
    const char *other = oatlantern_refusal_words(-1);
    int i, refusal;

    for (refusal = -20; refusal <= 300; refusal++) {
        const char *said = oatlantern_refusal_words(refusal);
        int is_known = 0;

        for (i = 0; i < count; i++) {
            is_known |= known[i] == refusal;
            check((strcmp(said, oatlantern_refusal_words(known[i])) == 0) == (known[i] == refusal), "its own words", refusal);
        }
        check(said[0] != '\0' && (strcmp(said, other) != 0) == is_known, "words", refusal);
    }
}

/* The causes, 0 and all others, in the same way. */
static void causes(void)
{
    const char *other = oatlantern_cause_words(OATLANTERN_EXTRA + 1);
    size_t one, two;

    for (one = 0; one <= 300; one++) {
        const char *said = oatlantern_cause_words(one);

        check(said[0] != '\0' && (strcmp(said, other) != 0) == (one <= OATLANTERN_EXTRA), "words of a cause", 0);
        for (two = 0; two <= OATLANTERN_EXTRA; two++)
            check((strcmp(said, oatlantern_cause_words(two)) == 0) == (one == two), "a cause's own words", 0);
    }
}

/* The record of nothing but zeros: both ways to hear it, the state after it, and its refusals. */
static void hearing(void)
{
    static const uint16_t hz[OATLANTERN_LSPS] = { 100, 210, 420, 620, 1000, 1470, 1800, 2225, 2760, 3190 };
    uint8_t record[OATLANTERN_RECORD_BYTES] = { 0 };
    struct oatlantern_state state, arrays;
    struct oatlantern_values values, parts;
    int i;

    memset(&state, 0, sizeof state);
    memset(&arrays, 0, sizeof arrays);
    check(oatlantern_hear(record, sizeof record, &state, &values) == 0, "zeros are heard", 0);
    check(oatlantern_hear_record(record, sizeof record, arrays.sync, arrays.hz, parts.cg, parts.pg, parts.delays,
                                 parts.averages) == 0,
          "zeros are heard into arrays", 0);
    check(memcmp(&state, &arrays, sizeof state) == 0 && memcmp(values.averages, parts.averages, sizeof values.averages) == 0,
          "the same in arrays", 0);
    check(state.sync[0] != 0 && state.sync[1] != 0 && state.sync[2] == 0, "the state's SY", 0);
    for (i = 0; i < OATLANTERN_SUBFRAMES; i++)
        check(values.cg[i] == -1330 && values.pg[i] == -993 && values.delays[i] == (i % 2 == 0 ? 656 : 532), "what is heard", i);
    for (i = 0; i < OATLANTERN_SUBFRAMES * OATLANTERN_LSPS; i++)
        check(values.averages[i] == 8u * hz[i % OATLANTERN_LSPS] && state.hz[i % OATLANTERN_LSPS] == hz[i % OATLANTERN_LSPS],
              "averages and Hz", i);
    check(oatlantern_hear(record, sizeof record - 1, &state, &values) == -OATLANTERN_REFUSED_LENGTH, "hearing: a length", 0);
    check(memcmp(&state, &arrays, sizeof state) == 0, "a refusal leaves the state", 0);
    oatlantern_set_index(record, OATLANTERN_SY, 1);
    oatlantern_set_index(record, OATLANTERN_SP, 1);
    check(oatlantern_hear(record, sizeof record, &state, &values) == -OATLANTERN_REFUSED_EXPANSION, "hearing: SP", 0);
    check(state.sync[2] == 1 && memcmp(state.hz, arrays.hz, sizeof state.hz) == 0, "the SY of a refused record is kept", 0);
    oatlantern_set_index(record, OATLANTERN_SP, 2);
    check(oatlantern_hear(record, sizeof record, &state, &values) == -OATLANTERN_REFUSED_TOO_LARGE, "hearing: an index", 0);
}

/* A subframe from silence, the register after it, and the refusals. */
static void exciting(void)
{
    static const int32_t first[] = { 1330, 0, 1330, 0, 0, 0, 0, 0, 0, 1330, 0, 0, 1330, 0 };
    const size_t all = OATLANTERN_ELEMENTS;
    int32_t past[OATLANTERN_PAST] = { 0 }, out[OATLANTERN_ELEMENTS];

    check(oatlantern_excite(past, 240, 0, 0, 0, out, all) == 0, "a subframe is made", 0);
    check(memcmp(out, first, sizeof first) == 0, "its elements", 0);
    check(memcmp(past + OATLANTERN_PAST - OATLANTERN_ELEMENTS, out, sizeof out) == 0 && past[0] == 0, "the register moves on", 0);
    check(oatlantern_excite(past, 240, 0, 0, 0, out, all - 1) == -OATLANTERN_REFUSED_LENGTH, "excitation: a length", 0);
    check(oatlantern_excite(past, 240, 32, 0, 0, out, all) == -OATLANTERN_REFUSED_TOO_LARGE, "excitation: PG", 0);
    check(oatlantern_excite(past, 240, 0, 512, 0, out, all) == -OATLANTERN_REFUSED_TOO_LARGE, "excitation: CI", 0);
    check(oatlantern_excite(past, 239, 0, 0, 0, out, all) == -OATLANTERN_REFUSED_NOT_LISTED, "excitation: a delay", 0);
    check(oatlantern_excite(past, 656, 0, 0, 0, out, all) == -OATLANTERN_REFUSED_NOT_WHOLE, "excitation: thirds", 0);
    check(memcmp(past + OATLANTERN_PAST - OATLANTERN_ELEMENTS, first, sizeof first) == 0, "a refusal leaves the register", 0);
}

#define SOUND_BYTES 66

/* A recording of unit 7 and number 1 with two frames of zeros, and two bytes more; the frames stand from byte 20 to 56. */
static const uint8_t sound[SOUND_BYTES + 2] = { 8, 0, 0, 0, 1, 0, 7, 0, 0, 0, 1, 0, 0, 0, 36, 0, 0, 0, 2, 0,
                                                0, 0, 0, 0, 0, 0, 0, 0, 0, 0, 0, 0, 0, 0, 0, 0, 0, 0, 0, 0,
                                                0, 0, 0, 0, 0, 0, 0, 0, 0, 0, 0, 0, 0, 0, 0, 0, 4, 0, 0, 0,
                                                3, 0, 2, 0, 0, 0, 0, 0 };

/* What is wrong with a recording: its length, and one byte of it that is another. */
struct wrong {
    size_t length, at;
    uint8_t byte;
    int refusal;
    size_t place, size;
    enum oatlantern_cause cause;
};

static const struct wrong WRONG[] = {
    { 0, 0, 8, OATLANTERN_REFUSED_BLOCK, 0, 0, OATLANTERN_END_MISSING },
    { 59, 0, 8, OATLANTERN_REFUSED_HEADER_CUT, 56, 0, OATLANTERN_HEADER_CUT },
    { 44, 0, 8, OATLANTERN_REFUSED_PAST_END, 14, 0, OATLANTERN_PAST_END },
    { SOUND_BYTES, 14, 35, OATLANTERN_REFUSED_WRONG_SIZE, 14, 35, OATLANTERN_WRONG_SIZE },
    { SOUND_BYTES, 18, 4, OATLANTERN_REFUSED_BLOCK, 14, 0, OATLANTERN_UNKNOWN_KIND },
    { SOUND_BYTES, 4, 2, OATLANTERN_REFUSED_WRONG_SIZE, 0, 8, OATLANTERN_WRONG_SIZE },
    { SOUND_BYTES, 62, 3, OATLANTERN_REFUSED_BLOCK, 56, 0, OATLANTERN_WRONG_COUNT },
    { SOUND_BYTES - 10, 0, 8, OATLANTERN_REFUSED_BLOCK, 56, 0, OATLANTERN_END_MISSING },
    { SOUND_BYTES + 1, 0, 8, OATLANTERN_REFUSED_BLOCK, 66, 0, OATLANTERN_EXTRA },
};

static uint8_t text[OATLANTERN_LISTING_BYTES];
static uint8_t longest[OATLANTERN_RECORDING_BYTES + 1];

/* A refused recording has its one line, and what it tells; nothing of it is heard. */
static void refused(const uint8_t *recording, const struct wrong *wrong, long at)
{
    static uint32_t book[OATLANTERN_BOOK_WORDS];
    size_t told[OATLANTERN_TOLD], again[OATLANTERN_TOLD], span[2] = { 1, 2 }, end = 0;
    const int32_t result = oatlantern_list(recording, wrong->length, text, sizeof text, &end, told);

    check(oatlantern_refusal(result) == wrong->refusal && told[OATLANTERN_TOLD_CAUSE] == wrong->cause,
          "a refused recording", at);
    check(told[OATLANTERN_TOLD_PLACE] == wrong->place && told[OATLANTERN_TOLD_SIZE] == wrong->size, "its place and size", at);
    check(told[OATLANTERN_TOLD_UNIT] == 0 && told[OATLANTERN_TOLD_NUMBER] == 0, "it has no key", at);
    check(end > 8 && memcmp(text, "refused ", 8) == 0 && memchr(text, '\n', end) == text + end - 1, "its line", at);
    oatlantern_voice_block(recording, wrong->length, 0, span);
    check(span[0] == 0 && span[1] == 0, "it has no voice block", at);
    check(oatlantern_tally_enter_recording(book, recording, wrong->length, 5, again) == result &&
              memcmp(told, again, sizeof told) == 0 && oatlantern_tally_entries(book) == 0, "it is not entered", at);
}

static void recordings(void)
{
    static const char listing[] = "unit 7 recording 1 frames 2\n1 0 c 0 0 656 532 656 532\n2 0 c 0 0 656 532 656 532\n"
                                  "repaired 0 breaks 1\n";
    const struct wrong too_long = { sizeof longest, 0, 0, OATLANTERN_REFUSED_LENGTH, 0, 0, OATLANTERN_TOO_LONG };
    const struct wrong no_head = { SOUND_BYTES - 14, 0, 0, OATLANTERN_REFUSED_BLOCK, 0, 0, OATLANTERN_OUT_OF_TURN };
    const int count = sizeof WRONG / sizeof WRONG[0];
    uint8_t recording[sizeof sound];
    size_t told[OATLANTERN_TOLD], span[2], end = 5;
    int i;

    check(oatlantern_list(sound, SOUND_BYTES, text, sizeof text - 1, &end, told) == -OATLANTERN_REFUSED_LENGTH && end == 5,
          "a listing's buffer", 0);
    check(oatlantern_list(sound, SOUND_BYTES, text, sizeof text, &end, told) == 0, "a sound recording", 0);
    check(end == sizeof listing - 1 && memcmp(text, listing, end) == 0, "its listing", 0);
    check(told[OATLANTERN_TOLD_UNIT] == 7 && told[OATLANTERN_TOLD_NUMBER] == 1 && told[OATLANTERN_TOLD_CAUSE] == 0, "its key", 0);
    oatlantern_voice_block(sound, SOUND_BYTES, 0, span);
    check(span[0] == 20 && span[1] == 56, "its voice block", 0);
    oatlantern_voice_block(sound, SOUND_BYTES, 1, span);
    check(span[0] == 0 && span[1] == 0, "past the last voice block", 0);
    for (i = 0; i < count; i++) {
        memcpy(recording, sound, sizeof sound);
        recording[WRONG[i].at] = WRONG[i].byte;
        refused(recording, &WRONG[i], i);
    }
    refused(longest, &too_long, count);
    refused(sound + 14, &no_head, count + 1);
}

static void salvaging(void)
{
    static uint8_t out[OATLANTERN_RECORDING_BYTES];
    size_t changes[OATLANTERN_CHANGES];

    check(oatlantern_salvage(sound, SOUND_BYTES, out, sizeof out, changes) == 0, "a sound one is salvaged", 0);
    check(changes[OATLANTERN_SALVAGED] == SOUND_BYTES && memcmp(sound, out, SOUND_BYTES) == 0, "unchanged", 0);
    check(changes[OATLANTERN_DROPPED] == 0 && changes[OATLANTERN_DROPPED_FROM] == 0 && changes[OATLANTERN_KEPT_FRAMES] == 0 &&
              changes[OATLANTERN_END_WRITTEN] == 0, "and no change", 0);
    check(oatlantern_salvage(sound, 44, out, sizeof out, changes) == 1, "a cut one is mended", 0);
    check(changes[OATLANTERN_DROPPED] == 6 && changes[OATLANTERN_DROPPED_FROM] == 38 && changes[OATLANTERN_KEPT_FRAMES] == 1 &&
              changes[OATLANTERN_END_WRITTEN] == 38 && changes[OATLANTERN_SALVAGED] == 48, "what was changed", 0);
    check(oatlantern_salvage(sound, 37, out, sizeof out, changes) == -OATLANTERN_REFUSED_NOTHING_KEPT, "no whole frame", 0);
    check(oatlantern_salvage(sound, SOUND_BYTES, out, sizeof out - 1, changes) == -OATLANTERN_REFUSED_LENGTH, "its buffer", 0);
    check(oatlantern_salvage(longest, sizeof longest, out, sizeof out, changes) == -OATLANTERN_REFUSED_LENGTH, "too long", 0);
}

/* Entered, already held and refused; what is held, and a full book. */
static void tallying(void)
{
    static uint32_t book[OATLANTERN_BOOK_WORDS];
    size_t told[OATLANTERN_TOLD];
    uint32_t i, count = 77;
    uint64_t total = 15;

    check(oatlantern_tally_enter_recording(book, sound, SOUND_BYTES, 15, told) == 0 && told[OATLANTERN_TOLD_UNIT] == 7 &&
              told[OATLANTERN_TOLD_NUMBER] == 1, "a recording is entered", 0);
    check(oatlantern_tally_enter(book, 7, 1, 15) == 1, "it is already held", 0);
    check(oatlantern_tally_enter(book, 7, 1, 16) == -OATLANTERN_REFUSED_OTHER_COUNT, "another count", 0);
    check(oatlantern_tally_held(book, 7, 2, &count) == 0 && count == 77, "not held", 0);
    check(oatlantern_tally_held(book, 7, 1, &count) == 1 && count == 15, "held", 0);
    for (i = 2; i <= OATLANTERN_BOOK_ENTRIES; i++)
        check(oatlantern_tally_enter(book, 7, i, 4294967295u) == 0 && oatlantern_tally_entries(book) == i, "entered", 0);
    check(oatlantern_tally_enter(book, 8, 1, 1) == -OATLANTERN_REFUSED_FULL, "the book is full", 0);
    check(oatlantern_tally_enter(book, 7, 2, 4294967295u) == 1, "what is held still is", 0);
    for (i = 0; i < OATLANTERN_BOOK_ENTRIES; i++)
        check(oatlantern_tally_number(book, i) == i + 1 && oatlantern_tally_unit(book, i) == 7 &&
                  oatlantern_tally_count(book, i) == (i == 0 ? 15 : 4294967295u), "an entry's parts", 0);
    for (i = 1; i < OATLANTERN_BOOK_ENTRIES; i++)
        total += 4294967295u;
    check(oatlantern_tally_total(book, 7) == total && oatlantern_tally_total(book, 8) == 0, "totals", 0);
}

/* A buffer of length 0 may be null: it is refused as any other of the wrong length, or is an empty recording. Nothing is written. */
static void nothing_lent(void)
{
    static uint8_t out[OATLANTERN_RECORDING_BYTES];
    static uint32_t book[OATLANTERN_BOOK_WORDS];
    const struct wrong empty = { 0, 0, 0, OATLANTERN_REFUSED_BLOCK, 0, 0, OATLANTERN_END_MISSING };
    struct oatlantern_state state;
    struct oatlantern_values values;
    int32_t past[OATLANTERN_PAST] = { 0 };
    size_t told[OATLANTERN_TOLD] = { 9, 9, 9, 9, 9 }, changes[OATLANTERN_CHANGES] = { 9, 9, 9, 9, 9 }, end = 9;
    int i;

    refused(NULL, &empty, -1);
    check(oatlantern_list(sound, SOUND_BYTES, NULL, 0, &end, told) == -OATLANTERN_REFUSED_LENGTH && end == 9, "no text buffer", 0);
    check(oatlantern_salvage(NULL, 0, out, sizeof out, changes) == -OATLANTERN_REFUSED_NOTHING_KEPT, "nothing to salvage", 0);
    check(oatlantern_salvage(sound, SOUND_BYTES, NULL, 0, changes) == -OATLANTERN_REFUSED_LENGTH, "nowhere to salvage to", 0);
    for (i = 0; i < OATLANTERN_TOLD; i++)
        check(told[i] == 9 && changes[i] == 9, "a refusal leaves the numbers", i);
    check(oatlantern_tally_enter_recording(book, NULL, 0, 5, told) == -OATLANTERN_REFUSED_BLOCK && book[0] == 0, "no recording", 0);
    check(oatlantern_excite(past, 240, 0, 0, 0, NULL, 0) == -OATLANTERN_REFUSED_LENGTH, "nowhere for sixty", 0);
    memset(&state, 0, sizeof state);
    check(oatlantern_hear(NULL, 0, &state, &values) == -OATLANTERN_REFUSED_LENGTH && state.sync[0] == 0, "no record", 0);
}

int main(int argc, char **argv)
{
    const long count = argc > 1 ? strtol(argv[1], NULL, 10) : 20000;
    char version[40];
    long at;

    sprintf(version, "%d.%d.%d", OATLANTERN_VERSION_MAJOR, OATLANTERN_VERSION_MINOR, OATLANTERN_VERSION_PATCH);
    check(strcmp(version, OATLANTERN_VERSION) == 0, "the version's parts", 0);
    table();
    results();
    refusals();
    words();
    causes();
    hearing();
    exciting();
    recordings();
    salvaging();
    tallying();
    nothing_lent();
    each_index();
    for (at = 0; at < count; at++) {
        correction(at);
        sizes(at);
        if (at % 16 == 0)
            flips(at);
    }
    printf("%lu\n", checks);
    return 0;
}
