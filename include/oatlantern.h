/*
 * oatlantern.h - 4,800 bit/s voice frames and recordings (Federal Standard 1016)
 * for C and C++
 *
 * The functions of the archive liboatlantern.a:
 *
 *     oatlantern_read_frame, oatlantern_write_frame
 *         an 18-byte frame into a record of 28 indices, mended as far as its
 *         parity can mend it, and a record into a frame;
 *     oatlantern_hear
 *         what a record says: gains, delays and averages;
 *     oatlantern_excite
 *         the excitation of a subframe;
 *     oatlantern_list, oatlantern_voice_block
 *         a recording as text, and where its frames stand;
 *     oatlantern_salvage
 *         what can be kept of a damaged recording, as a good one;
 *     oatlantern_tally_enter, oatlantern_tally_enter_recording,
 *     oatlantern_tally_held, oatlantern_tally_total, oatlantern_tally_entries
 *         the tally book: each recording counted once.
 *
 * There is nothing to set up and nothing to release. Small functions below, all
 * inline, take results and records apart.
 *
 *     uint8_t frame[OATLANTERN_FRAME_BYTES];
 *     uint8_t record[OATLANTERN_RECORD_BYTES];
 *     int32_t result = oatlantern_read_frame(frame, sizeof frame, record, sizeof record);
 *     if (oatlantern_is_refused(result))
 *         printf("refused %d: %s\n", oatlantern_refusal(result),
 *                oatlantern_refusal_words(oatlantern_refusal(result)));
 *     else
 *         printf("PD of subframe 1 is %d, correction number %d %c, order mark %d\n",
 *                oatlantern_get_index(record, OATLANTERN_PD_1), oatlantern_number(result),
 *                oatlantern_kind_letter(oatlantern_kind(result)), oatlantern_mark(result));
 *
 * Rules for all of them
 *
 * Buffers. A buffer is a pointer and a length in elements, bytes but for the
 * sixty of an excitation. The pointer must be good for that many; one to bytes
 * may have any alignment. With length 0 it may also be null: such a buffer is
 * never touched and is refused like any other of the wrong length, or is an
 * empty recording. What is lent by a pointer alone is an array of just as many
 * elements as the declaration says, and must be there. No two of what is lent
 * to one call may overlap.
 *
 * Every input has an answer. No call fails in any other way than by a refusal,
 * and each one ends, after a bounded number of steps whatever the bytes.
 *
 * A refusal writes nothing. When a result is negative, every element that was
 * lent for writing is what it was before the call. There are two exceptions,
 * each said at its function: a refused recording has a listing, which is the
 * line that says so, and what its refusal tells goes into lent numbers; and of
 * a record refused with 6 the state keeps its SY. What is only read is never
 * changed.
 *
 * Threads. The functions keep no state and allocate nothing. Any number of
 * threads may call them at once on buffers of their own, and many may share a
 * buffer that all of them only read. They may be called from a signal handler.
 *
 * What stays
 *
 * Within a major version each name of this header keeps its meaning and each
 * number its value: sizes, fields, widths, the order of the bytes, correction
 * numbers, marks, refusals. What compiles and links goes on doing so, and the
 * same bytes get the same answer.
 *
 * A minor version may add names (all begin with oatlantern_ or OATLANTERN_),
 * and it may set bits of the reader's result from 1,024 up, which are reserved.
 * So a caller takes results apart by the functions below, takes every result
 * below 0 for a refusal, and looks at no other bit. CHANGELOG.md has the
 * changes of each version.
 *
 * 256 and 512 were reserved up to version 1.3 and tell the kind since 1.4. What
 * a caller sees that was built with an older header and is linked with this
 * archive: results of frames whose parity agrees are what they were, and so
 * are refusals; the others are 256 or 512 more. oatlantern_number and
 * oatlantern_mark of the headers from 1.0 on answer as before. A caller that
 * divides a result by 16 itself, or was built with a header before 1.0, takes
 * for the order mark 16 more than it is where a parity bit was hit, and 32 more
 * where a data bit was inverted, and is to be built again with this header. A
 * caller built with this header and linked with an older archive finds every
 * frame's kind OATLANTERN_CLEAN: header and archive belong together.
 */
#ifndef OATLANTERN_H
#define OATLANTERN_H

#include <stddef.h>
#include <stdint.h>

#ifdef __cplusplus
extern "C" {
#endif

/* ---- The version of this header ---- */

#define OATLANTERN_VERSION_MAJOR 1
#define OATLANTERN_VERSION_MINOR 6
#define OATLANTERN_VERSION_PATCH 0
#define OATLANTERN_VERSION "1.6.0"

/* ---- Sizes ---- */

#define OATLANTERN_FRAME_BYTES 18   /* a frame: place 1 is the top bit of byte 0, place 144 the lowest bit of byte 17 */
#define OATLANTERN_RECORD_BYTES 56  /* a record: a pair of bytes for each field */
#define OATLANTERN_FIELDS 28        /* the fields of a record, numbered from 1 */
#define OATLANTERN_LSPS 10          /* fields 1 to 10: the line spectral parameters */
#define OATLANTERN_SUBFRAMES 4      /* of each: PD, PG, CI and CG */

#define OATLANTERN_RECORDING_BYTES 65536  /* the longest recording, and the buffer for a salvaged one */
#define OATLANTERN_LISTING_BYTES 131072   /* the buffer for a listing: every one fits */
#define OATLANTERN_TOLD 5                 /* what is told of a recording */
#define OATLANTERN_CHANGES 5              /* what a salvaging changed */
#define OATLANTERN_BOOK_WORDS 12289       /* a tally book */
#define OATLANTERN_BOOK_ENTRIES 4096      /* how many entries it has room for */
#define OATLANTERN_PAST 147               /* the register of an excitation */
#define OATLANTERN_ELEMENTS 60            /* the excitation of a subframe */

/*
 * ---- The record ----
 *
 * 28 byte pairs in field order. A pair is an unsigned 16-bit index, the lower
 * byte first, whatever the byte order of the machine. The number is the field;
 * OATLANTERN_OFFSET(field) is where its pair starts, and oatlantern_get_index
 * and oatlantern_set_index read and write it.
 *
 *     field  1 to 10   LSP 1 to LSP 10   line spectral parameters
 *     field 11 to 14   subframe 1        PD pitch delay, PG pitch gain,
 *     field 15 to 18   subframe 2        CI codebook index, CG codebook gain,
 *     field 19 to 22   subframe 3        in this order
 *     field 23 to 26   subframe 4
 *     field 27         SP                the expansion bit
 *     field 28         SY                the synchronization bit
 */
enum oatlantern_field {
    OATLANTERN_LSP_1 = 1,
    OATLANTERN_LSP_2 = 2,
    OATLANTERN_LSP_3 = 3,
    OATLANTERN_LSP_4 = 4,
    OATLANTERN_LSP_5 = 5,
    OATLANTERN_LSP_6 = 6,
    OATLANTERN_LSP_7 = 7,
    OATLANTERN_LSP_8 = 8,
    OATLANTERN_LSP_9 = 9,
    OATLANTERN_LSP_10 = 10,
    OATLANTERN_PD_1 = 11,
    OATLANTERN_PG_1 = 12,
    OATLANTERN_CI_1 = 13,
    OATLANTERN_CG_1 = 14,
    OATLANTERN_PD_2 = 15,
    OATLANTERN_PG_2 = 16,
    OATLANTERN_CI_2 = 17,
    OATLANTERN_CG_2 = 18,
    OATLANTERN_PD_3 = 19,
    OATLANTERN_PG_3 = 20,
    OATLANTERN_CI_3 = 21,
    OATLANTERN_CG_3 = 22,
    OATLANTERN_PD_4 = 23,
    OATLANTERN_PG_4 = 24,
    OATLANTERN_CI_4 = 25,
    OATLANTERN_CG_4 = 26,
    OATLANTERN_SP = 27,
    OATLANTERN_SY = 28
};

/* Where the pair of a field starts in a record. */
#define OATLANTERN_OFFSET(field) (2 * ((field) - 1))

/*
 * How many bits each field has, field 1 first: an initializer for an array of
 * OATLANTERN_FIELDS numbers. An index fits its field when it is below 2 to the
 * power of that width.
 */
#define OATLANTERN_WIDTHS \
    { 3, 4, 4, 4, 4, 3, 3, 3, 3, 3, \
      8, 5, 9, 5, 6, 5, 9, 5, 8, 5, 9, 5, 6, 5, 9, 5, \
      1, 1 }

/*
 * ---- Refusals ----
 *
 * A refusal is a result below 0: minus one of these numbers. Where several
 * would apply, the lowest number is given, but for 8 to 11: of a recording 1 is
 * tried first, and then block by block 9, 10, 11, 8.
 */
#define OATLANTERN_REFUSED_LENGTH 1        /* a buffer, a frame, a record or a recording of the wrong length */
#define OATLANTERN_REFUSED_TOO_LARGE 2     /* an index is too large for its field */
#define OATLANTERN_REFUSED_FALLING 3       /* writer: the line spectral parameters fall */
#define OATLANTERN_REFUSED_NOT_LISTED 4    /* excitation: the delay is not in the standard's list */
#define OATLANTERN_REFUSED_EXPANSION 6     /* the expansion bit SP is set */
#define OATLANTERN_REFUSED_BLOCK 8         /* recording: a block of an unknown kind, out of turn, missing or too many */
#define OATLANTERN_REFUSED_HEADER_CUT 9    /* recording: a block's header is cut */
#define OATLANTERN_REFUSED_PAST_END 10     /* recording: a block's length runs past the end */
#define OATLANTERN_REFUSED_WRONG_SIZE 11   /* recording: a block has a size that its kind cannot have */
#define OATLANTERN_REFUSED_NOTHING_KEPT 12 /* salvage: no head or no whole frame can be kept */
#define OATLANTERN_REFUSED_OTHER_COUNT 13  /* tally: the key is held with another count */
#define OATLANTERN_REFUSED_FULL 14         /* tally: the book is full and the key is new */
#define OATLANTERN_REFUSED_NOT_WHOLE 15    /* excitation: the delay is in the list, but no whole number of samples */

/*
 * ---- The kinds of a correction ----
 *
 * What correction did in a frame. oatlantern_kind takes it out of a result.
 */
#define OATLANTERN_CLEAN 0         /* the parity agrees: nothing was changed */
#define OATLANTERN_PARITY_HIT 256  /* the number is that of a parity bit: no index was changed */
#define OATLANTERN_DATA_HIT 512    /* the number is that of a data bit, and that bit was inverted */

/*
 * ---- Frames ----
 *
 * oatlantern_read_frame reads the frame and puts its record into `record`.
 *
 *     0 or more   the frame was read. All 56 bytes of the record have been
 *                 written, each index within the width of its field. The
 *                 lowest four bits of the result are the correction number,
 *                 the next four the order mark, the next two the kind of the
 *                 correction: oatlantern_number, oatlantern_mark and
 *                 oatlantern_kind take them out. The bits above, from 1,024
 *                 up, are reserved. They are 0 in this version.
 *     -1          frame_len is not 18 or record_len is not 56.
 *
 * Any 18 bytes are a frame and have a reading. Whether to use it is the
 * caller's choice, by what the result tells:
 *
 * The correction number (0 to 15) tells what the parity says. Fifteen of the
 * 144 bits are guarded, and each has a number: four parity bits and eleven data
 * bits.
 *     0           OATLANTERN_CLEAN: the parity agrees, nothing was changed.
 *     1, 2, 4, 8  OATLANTERN_PARITY_HIT: the number of a parity bit, no index
 *                 was changed.
 *     the others  OATLANTERN_DATA_HIT: the number of a data bit, which was
 *                 inverted before the indices were put into the record:
 *                      3  PD_1 bit 5      9  PG_2 bit 4     13  PG_3 bit 4
 *                      5  PD_1 bit 6     10  PD_3 bit 5     14  PG_4 bit 4
 *                      6  PD_1 bit 7     11  PD_3 bit 6     15  SP
 *                      7  PG_1 bit 4     12  PD_3 bit 7
 * oatlantern_corrected_field and oatlantern_corrected_bit are this table.
 *
 * What is known by it depends on how many of the fifteen were flipped on the
 * way, which the number does not tell:
 *     none        the number is 0.
 *     one         the number is that of the flipped bit. The eleven data bits
 *                 are as they were sent.
 *     two         the number is never 0, so the damage is reported, but it is
 *                 never mended: the number is that of a third bit. If that is
 *                 a data bit, it is wrong now as well. If it is a parity bit,
 *                 nothing was inverted and the two stand as they were flipped;
 *                 both may be data bits. So OATLANTERN_PARITY_HIT says that the
 *                 data bits were left as they came, not that they are right.
 *     more        any number, 0 among them.
 * The other 129 bits are not guarded: a flip there is read as it stands.
 *
 * The order mark (0 to 9) tells whether the line spectral parameters rise, by
 * the frequencies that the indices stand for.
 *     0           none is below the one before it. Equal is in order.
 *     j           LSP j+1 is below LSP j, and j is the lowest for which it is.
 * A frame whose mark is not 0 is read all the same; its record cannot be
 * written again (refusal 3).
 */
int32_t oatlantern_read_frame(const uint8_t *frame, size_t frame_len, uint8_t *record, size_t record_len);

/*
 * oatlantern_write_frame writes the frame of the record into `frame`, with its
 * parity.
 *
 *     0           all 18 bytes of the frame have been written. Read again, the
 *                 frame gives the same record, with result 0.
 *     -1          frame_len is not 18 or record_len is not 56. This is looked
 *                 at before anything else.
 *     -2          an index is too large for its field (OATLANTERN_WIDTHS):
 *                 oatlantern_too_large says for which.
 *     -3          every index fits, but the order mark is not 0.
 *     -6          every index fits and the mark is 0, but SP is 1.
 */
int32_t oatlantern_write_frame(const uint8_t *record, size_t record_len, uint8_t *frame, size_t frame_len);

/*
 * ---- What a record says ----
 *
 * The state runs on from frame to frame. One of nothing but zeros is that
 * before the first frame, and any numbers are a state.
 */
struct oatlantern_state {
    uint16_t sync[3]; /* whether a frame was heard, whether there was a last SY (0 is no, all else yes), and that SY */
    uint16_t hz[OATLANTERN_LSPS]; /* the line spectral parameters of the frame heard last, in Hz */
};

struct oatlantern_values {
    int32_t cg[OATLANTERN_SUBFRAMES];       /* codebook gains */
    int32_t pg[OATLANTERN_SUBFRAMES];       /* pitch gains, in thousandths */
    uint16_t delays[OATLANTERN_SUBFRAMES];  /* pitch delays, in twelfths of a sample */
    uint32_t averages[OATLANTERN_SUBFRAMES * OATLANTERN_LSPS]; /* line spectral parameters of each subframe, in eighths of a Hz */
};

/*
 * oatlantern_hear_record takes what oatlantern_hear, below, takes, in arrays.
 *
 *     0 to 9      the record was heard, and this is its order mark. All values
 *                 and the state have been written.
 *     -1          record_len is not 56.
 *     -2          an index is too large for its field.
 *     -6          SP is 1. The state's last SY is now that of the record; what
 *                 else the state says is as it was, and so are the values.
 */
int32_t oatlantern_hear_record(const uint8_t *record, size_t record_len, uint16_t sync[3], uint16_t hz[OATLANTERN_LSPS],
                               int32_t cg[OATLANTERN_SUBFRAMES], int32_t pg[OATLANTERN_SUBFRAMES],
                               uint16_t delays[OATLANTERN_SUBFRAMES],
                               uint32_t averages[OATLANTERN_SUBFRAMES * OATLANTERN_LSPS]);

/* Hears a record after a state, with the results of oatlantern_hear_record. */
static inline int32_t oatlantern_hear(const uint8_t *record, size_t record_len, struct oatlantern_state *state,
                                      struct oatlantern_values *values)
{
    return oatlantern_hear_record(record, record_len, state->sync, state->hz, values->cg, values->pg, values->delays,
                                  values->averages);
}

/*
 * ---- The excitation of a subframe ----
 *
 * oatlantern_excite writes sixty whole numbers, from a delay in twelfths of a
 * sample and the indices PG, CI and CG. `past` is the register: the 147 numbers
 * that went before, the newest last, zeros before the first subframe.
 *
 *     0           the sixty have been written, and the register has moved on
 *                 by them.
 *     -1          out_len is not 60.
 *     -2          an index is too large.
 *     -4          the delay is not in the standard's list.
 *     -15         it is, but is no whole number of samples.
 */
int32_t oatlantern_excite(int32_t past[OATLANTERN_PAST], uint32_t delay, uint16_t pg, uint16_t ci, uint16_t cg, int32_t *out,
                          size_t out_len);

/*
 * ---- Recordings ----
 *
 * What is told of a recording, OATLANTERN_TOLD numbers: of a sound one its unit
 * and its number, of a refused one the place, the size and the cause; the
 * others are 0. The place counts bytes from 0. The size is told with 11 alone,
 * and with 1 neither.
 */
#define OATLANTERN_TOLD_UNIT 0
#define OATLANTERN_TOLD_NUMBER 1
#define OATLANTERN_TOLD_PLACE 2
#define OATLANTERN_TOLD_SIZE 3
#define OATLANTERN_TOLD_CAUSE 4

/* Why a recording is refused: which of the things that a number stands for. */
enum oatlantern_cause {
    OATLANTERN_TOO_LONG = 1,     /* 1 */
    OATLANTERN_HEADER_CUT = 2,   /* 9 */
    OATLANTERN_PAST_END = 3,     /* 10 */
    OATLANTERN_WRONG_SIZE = 4,   /* 11 */
    OATLANTERN_UNKNOWN_KIND = 5, /* 8, as all that follow */
    OATLANTERN_OUT_OF_TURN = 6,
    OATLANTERN_END_MISSING = 7,
    OATLANTERN_WRONG_COUNT = 8,
    OATLANTERN_EXTRA = 9
};

/*
 * oatlantern_list lists any bytes as a recording: as text, without a 0 at its
 * end. Its length is put into `*text_end`; the bytes past it are as they were.
 *
 *     0           the recording is sound, and its listing is laid.
 *     -1, -8 to -11   it is refused. Its listing, one line, is laid all the
 *                 same, and `told` has what the refusal tells.
 *     -1          also where text_len is not OATLANTERN_LISTING_BYTES. Then
 *                 nothing is written, not even `*text_end`.
 */
int32_t oatlantern_list(const uint8_t *recording, size_t recording_len, uint8_t *text, size_t text_len, size_t text_end[1],
                        size_t told[OATLANTERN_TOLD]);

/*
 * oatlantern_voice_block says where the frames of voice block k of a recording
 * stand, counted from 0: from byte span[0] to before byte span[1]. Where there
 * is no such block, and of a refused recording, both are 0.
 */
void oatlantern_voice_block(const uint8_t *recording, size_t recording_len, size_t k, size_t span[2]);

/*
 * oatlantern_salvage writes what can be kept of a damaged recording as a good
 * one. What it changed is put into `changes`; the bytes of `out` past the result
 * are as they were.
 *
 *     0           the recording is sound and comes out unchanged. The numbers
 *                 are 0 but for the last.
 *     1           it was mended.
 *     -1          recording_len is over 65,536 or out_len is not that.
 *     -12         no head or no whole frame can be kept.
 */
#define OATLANTERN_DROPPED 0       /* how many bytes were dropped */
#define OATLANTERN_DROPPED_FROM 1  /* from where on */
#define OATLANTERN_KEPT_FRAMES 2   /* how many frames were kept */
#define OATLANTERN_END_WRITTEN 3   /* where the end block was written */
#define OATLANTERN_SALVAGED 4      /* how many bytes the result has */

int32_t oatlantern_salvage(const uint8_t *recording, size_t recording_len, uint8_t *out, size_t out_len,
                           size_t changes[OATLANTERN_CHANGES]);

/*
 * ---- The tally book ----
 *
 * A book counts each recording once, by its key, unit and number. It is 12,289
 * words that the caller keeps: how many entries it holds, then three columns of
 * 4,096, the numbers, the units and the counts, in the order in which they were
 * entered. One whose first word is 0 is empty, and any words are a book.
 *
 * Entering answers
 *
 *     0           entered: the entry is the last one now.
 *     1           already held, with this count. The book is as it was, as it
 *                 is after every refusal.
 *     -13         the key is held with another count.
 *     -14         the book is full and the key is new.
 */
int32_t oatlantern_tally_enter(uint32_t book[OATLANTERN_BOOK_WORDS], uint32_t unit, uint32_t number, uint32_t count);

/*
 * The same of a recording, by what its head says, with the count that was
 * spoken in it. One that is refused is refused by its own number, -1 or -8 to
 * -11, before the book is looked at. `told` is written in every case, as
 * oatlantern_list does.
 */
int32_t oatlantern_tally_enter_recording(uint32_t book[OATLANTERN_BOOK_WORDS], const uint8_t *recording, size_t recording_len,
                                         uint32_t count, size_t told[OATLANTERN_TOLD]);

/* Whether a key is held: 1, and its count is put into `*count`, or 0, and that stays as it was. */
int32_t oatlantern_tally_held(const uint32_t book[OATLANTERN_BOOK_WORDS], uint32_t unit, uint32_t number, uint32_t count[1]);

/* The sum of the counts of a unit. */
uint64_t oatlantern_tally_total(const uint32_t book[OATLANTERN_BOOK_WORDS], uint32_t unit);

/* How many entries the book holds, 4,096 at most. */
uint32_t oatlantern_tally_entries(const uint32_t book[OATLANTERN_BOOK_WORDS]);

/* Entry i, counted from 0, of those that it holds. */
static inline uint32_t oatlantern_tally_number(const uint32_t book[OATLANTERN_BOOK_WORDS], uint32_t i)
{
    return book[1 + i];
}

static inline uint32_t oatlantern_tally_unit(const uint32_t book[OATLANTERN_BOOK_WORDS], uint32_t i)
{
    return book[1 + OATLANTERN_BOOK_ENTRIES + i];
}

static inline uint32_t oatlantern_tally_count(const uint32_t book[OATLANTERN_BOOK_WORDS], uint32_t i)
{
    return book[1 + 2 * OATLANTERN_BOOK_ENTRIES + i];
}

/*
 * ---- Results taken apart ----
 *
 * `result` is one that a function above gave. Bits that are not named here do
 * not change what these answer: each takes out its own by a mask.
 */

/* Whether a result of either function is a refusal: 1 or 0. */
static inline int oatlantern_is_refused(int32_t result)
{
    return result < 0;
}

/* The number of the refusal, or 0 where there was none. */
static inline int oatlantern_refusal(int32_t result)
{
    return result < 0 ? -result : 0;
}

/*
 * What a refusal's number says, in a few words without a full stop. Any number
 * has an answer. Of a recording oatlantern_cause_words says more.
 */
static inline const char *oatlantern_refusal_words(int refusal)
{
    switch (refusal) {
    case 0:
        return "not refused";
    case OATLANTERN_REFUSED_LENGTH:
        return "the frame is not 18 bytes or the record not 56";
    case OATLANTERN_REFUSED_TOO_LARGE:
        return "an index is too large for its field";
    case OATLANTERN_REFUSED_FALLING:
        return "the line spectral parameters fall";
    case OATLANTERN_REFUSED_NOT_LISTED:
        return "the delay is not in the standard's list";
    case OATLANTERN_REFUSED_EXPANSION:
        return "the expansion bit SP is set";
    case OATLANTERN_REFUSED_BLOCK:
        return "a block is of an unknown kind, out of turn, missing or too many";
    case OATLANTERN_REFUSED_HEADER_CUT:
        return "a block's header is cut";
    case OATLANTERN_REFUSED_PAST_END:
        return "a block's length runs past the end of the recording";
    case OATLANTERN_REFUSED_WRONG_SIZE:
        return "a block has a size that its kind cannot have";
    case OATLANTERN_REFUSED_NOTHING_KEPT:
        return "there is no right head at the front, or no whole frame that can be kept";
    case OATLANTERN_REFUSED_OTHER_COUNT:
        return "the tally book holds this unit and number with another count";
    case OATLANTERN_REFUSED_FULL:
        return "the tally book is full, and this unit and number are new";
    case OATLANTERN_REFUSED_NOT_WHOLE:
        return "the delay is in the list, but is no whole number of samples";
    default:
        return "a refusal that this version does not know";
    }
}

/* What the cause of a recording's refusal says, in the same way. Any number has an answer. */
static inline const char *oatlantern_cause_words(size_t cause)
{
    switch (cause) {
    case 0:
        return "not refused";
    case OATLANTERN_TOO_LONG:
        return "the recording has more than 65,536 bytes";
    case OATLANTERN_HEADER_CUT:
        return "the block's header is cut: one to five bytes are left of its six";
    case OATLANTERN_PAST_END:
        return "the block's length runs past the end of the recording";
    case OATLANTERN_WRONG_SIZE:
        return "the block has a size that its kind cannot have";
    case OATLANTERN_UNKNOWN_KIND:
        return "the block is of an unknown kind";
    case OATLANTERN_OUT_OF_TURN:
        return "the block is out of turn: no head first, a second head, an end before any voice";
    case OATLANTERN_END_MISSING:
        return "the end block is missing";
    case OATLANTERN_WRONG_COUNT:
        return "the end block tells a wrong number of frames";
    case OATLANTERN_EXTRA:
        return "there are bytes after the end block";
    default:
        return "a cause that this version does not know";
    }
}

/* The order mark in a result of oatlantern_read_frame, or 0 where it is a refusal. */
static inline int oatlantern_mark(int32_t result)
{
    return result < 0 ? 0 : result >> 4 & 15;
}

/* The correction number in a result of oatlantern_read_frame, or 0 where it is a refusal. */
static inline int oatlantern_number(int32_t result)
{
    return result < 0 ? 0 : result & 15;
}

/* The kind of the correction in a result of oatlantern_read_frame, or OATLANTERN_CLEAN where it is a refusal. */
static inline int oatlantern_kind(int32_t result)
{
    return result < 0 ? OATLANTERN_CLEAN : result & (OATLANTERN_PARITY_HIT | OATLANTERN_DATA_HIT);
}

/* The letter of a kind, as the listing has it: c, p or d. Any other number has '?'. */
static inline char oatlantern_kind_letter(int kind)
{
    switch (kind) {
    case OATLANTERN_CLEAN:
        return 'c';
    case OATLANTERN_PARITY_HIT:
        return 'p';
    case OATLANTERN_DATA_HIT:
        return 'd';
    default:
        return '?';
    }
}

/* The field of the data bit that a correction number names, or 0 where it names none. Any number has an answer. */
static inline int oatlantern_corrected_field(int number)
{
    switch (number) {
    case 3:
    case 5:
    case 6:
        return OATLANTERN_PD_1;
    case 7:
        return OATLANTERN_PG_1;
    case 9:
        return OATLANTERN_PG_2;
    case 10:
    case 11:
    case 12:
        return OATLANTERN_PD_3;
    case 13:
        return OATLANTERN_PG_3;
    case 14:
        return OATLANTERN_PG_4;
    case 15:
        return OATLANTERN_SP;
    default:
        return 0;
    }
}

/*
 * Which bit of that field the number names; bit 0 is the lowest, with weight 1.
 * It is 0 for SP, which has one bit, and where the number names no data bit:
 * oatlantern_corrected_field tells these apart.
 */
static inline int oatlantern_corrected_bit(int number)
{
    switch (number) {
    case 3:
    case 10:
        return 5;
    case 5:
    case 11:
        return 6;
    case 6:
    case 12:
        return 7;
    case 7:
    case 9:
    case 13:
    case 14:
        return 4;
    default:
        return 0;
    }
}

/* ---- Indices of a record. The field is 1 to 28, the record 56 bytes. ---- */

static inline uint16_t oatlantern_get_index(const uint8_t *record, int field)
{
    const uint8_t *pair = record + OATLANTERN_OFFSET(field);
    return (pair[0] | pair[1] << 8) & 0xffff;
}

static inline void oatlantern_set_index(uint8_t *record, int field, uint16_t index)
{
    uint8_t *pair = record + OATLANTERN_OFFSET(field);
    const unsigned value = index;
    pair[0] = value & 0xff;
    pair[1] = (value >> 8) & 0xff;
}

/*
 * The lowest field whose index is too large for it, or 0 where every index
 * fits. It is not 0 exactly where oatlantern_write_frame refuses the record
 * with 2.
 */
static inline int oatlantern_too_large(const uint8_t *record)
{
    static const uint8_t widths[OATLANTERN_FIELDS] = OATLANTERN_WIDTHS;
    int field;

    for (field = 1; field <= OATLANTERN_FIELDS; field++)
        if (oatlantern_get_index(record, field) >> widths[field - 1] != 0)
            return field;
    return 0;
}

#ifdef __cplusplus
}
#endif

#endif
