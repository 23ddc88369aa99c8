/*
 * oatlantern list, hear and excite: recordings as text, any number of them one
 * after the other. oatlantern salvage: what can be kept of one, as a good one.
 */
#define _XOPEN_SOURCE 700

#include <errno.h>
#include <fcntl.h>
#include <stdio.h>
#include <stdlib.h>
#include <string.h>
#include <sys/stat.h>
#include <unistd.h>

#include "command.h"

/* The recording that is at hand, and its listing. */
static uint8_t bytes[READ_BYTES];
static uint8_t text[OATLANTERN_LISTING_BYTES];

/* ---- What is printed of a sound recording ---- */

/* Prints the recording at hand, by its length and that of its listing. */
typedef void printer(size_t length, size_t text_end);

static void print_text(size_t from, size_t end)
{
    (void)fwrite(text + from, 1, end - from, stdout);
}

static void print_listing(size_t length, size_t text_end)
{
    (void)length;
    print_text(0, text_end);
}

/* A frame as it was read and heard, and what runs on from frame to frame. */
struct hearing {
    unsigned long frame; /* its number, counted from 1 */
    uint8_t record[OATLANTERN_RECORD_BYTES];
    int32_t read;  /* the reader's result */
    int32_t heard; /* and that of the hearing */
    struct oatlantern_values values;
    struct oatlantern_state state;
    int32_t past[OATLANTERN_PAST]; /* the register of the excitation */
};

/* Hears the frames of the recording at hand in order and prints each, as long as standard output takes it. */
static void each_frame(size_t length, void (*print)(struct hearing *))
{
    struct hearing hearing;
    size_t block, at, span[2];

    memset(&hearing, 0, sizeof hearing);
    for (block = 0;; block++) {
        oatlantern_voice_block(bytes, length, block, span);
        if (span[0] == span[1])
            return;
        for (at = span[0]; at + OATLANTERN_FRAME_BYTES <= span[1]; at += OATLANTERN_FRAME_BYTES) {
            hearing.frame++;
            hearing.read = oatlantern_read_frame(bytes + at, OATLANTERN_FRAME_BYTES, hearing.record, sizeof hearing.record);
            hearing.heard = oatlantern_hear(hearing.record, sizeof hearing.record, &hearing.state, &hearing.values);
            print(&hearing);
            if (ferror(stdout))
                return;
        }
    }
}

static void print_number(long number)
{
    printf(" %ld", number);
}

/* The correction number, and what it means. */
static void print_correction(int32_t read)
{
    int number = oatlantern_number(read);
    int kind = oatlantern_kind(read);

    printf(" number %d %c", number, oatlantern_kind_letter(kind));
    if (kind == OATLANTERN_DATA_HIT)
        printf(" %d %d", oatlantern_corrected_field(number), oatlantern_corrected_bit(number));
}

/* Gains, delays and averages, and the Hz that are kept. */
static void print_values(const struct hearing *hearing)
{
    int i;

    fputs(" gains", stdout);
    for (i = 0; i < OATLANTERN_SUBFRAMES; i++) {
        print_number(hearing->values.cg[i]);
        print_number(hearing->values.pg[i]);
    }
    fputs(" delays", stdout);
    for (i = 0; i < OATLANTERN_SUBFRAMES; i++)
        print_number(hearing->values.delays[i]);
    fputs(" averages", stdout);
    for (i = 0; i < OATLANTERN_SUBFRAMES * OATLANTERN_LSPS; i++)
        print_number((long)hearing->values.averages[i]);
    fputs(" state", stdout);
    for (i = 0; i < OATLANTERN_LSPS; i++)
        print_number(hearing->state.hz[i]);
}

static void print_heard(struct hearing *hearing)
{
    int field;

    printf("frame %lu", hearing->frame);
    for (field = 1; field <= OATLANTERN_FIELDS; field++)
        print_number(oatlantern_get_index(hearing->record, field));
    print_correction(hearing->read);
    printf(" mark %d", oatlantern_mark(hearing->read));
    if (oatlantern_is_refused(hearing->heard))
        printf(" refused %d", oatlantern_refusal(hearing->heard));
    else
        print_values(hearing);
    if (hearing->state.sync[1] != 0)
        printf(" sy %d", hearing->state.sync[2]);
    putchar('\n');
}

/* A line for each voice block, and one past the last. */
static void print_blocks(size_t length)
{
    size_t block, span[2] = {0, 1};

    for (block = 0; span[0] != span[1]; block++) {
        oatlantern_voice_block(bytes, length, block, span);
        printf("block %lu %lu %lu\n", (unsigned long)block, (unsigned long)span[0], (unsigned long)(span[1] - span[0]));
    }
}

/* The first line and the last are those of the listing. */
static void print_hearing(size_t length, size_t text_end)
{
    size_t first = 0;
    size_t last = text_end;

    while (first < text_end && text[first++] != '\n')
        continue;
    while (last > 0 && (last == text_end || text[last - 1] != '\n'))
        last--;
    print_text(0, first);
    each_frame(length, print_heard);
    print_blocks(length);
    print_text(last, text_end);
}

/* A subframe, counted from 0: sixty whole numbers, or the refusal. */
static void print_subframe(struct hearing *hearing, int subframe)
{
    int32_t elements[OATLANTERN_ELEMENTS];
    int first = OATLANTERN_PD_1 + 4 * subframe;
    int32_t result = oatlantern_excite(hearing->past, hearing->values.delays[subframe],
                                       oatlantern_get_index(hearing->record, first + 1),
                                       oatlantern_get_index(hearing->record, first + 2),
                                       oatlantern_get_index(hearing->record, first + 3), elements, OATLANTERN_ELEMENTS);
    int i;

    printf("%lu %d", hearing->frame, subframe + 1);
    if (oatlantern_is_refused(result))
        printf(" refused %d", oatlantern_refusal(result));
    else
        for (i = 0; i < OATLANTERN_ELEMENTS; i++)
            print_number(elements[i]);
    putchar('\n');
}

static void print_excited(struct hearing *hearing)
{
    int subframe;

    if (oatlantern_is_refused(hearing->heard)) {
        printf("%lu refused %d\n", hearing->frame, oatlantern_refusal(hearing->heard));
        return;
    }
    for (subframe = 0; subframe < OATLANTERN_SUBFRAMES; subframe++)
        print_subframe(hearing, subframe);
}

static void print_excitation(size_t length, size_t text_end)
{
    (void)text_end;
    each_frame(length, print_excited);
}

/* ---- Files, one after the other ---- */

struct counts {
    unsigned long sound, refused, unread;
};

/* Prints one recording, or the line that says why it is refused; where there are several, behind its name. */
static void print_file(const char *name, int several, printer *print, struct counts *counts)
{
    size_t told[OATLANTERN_TOLD];
    size_t length, text_end;
    int32_t result;

    if (read_file(name, bytes, &length) != WELL) {
        counts->unread++;
        return;
    }
    if (several)
        printf("%s:\n", shown(name));
    result = oatlantern_list(bytes, length, text, sizeof text, &text_end, told);
    if (oatlantern_is_refused(result)) {
        print_text(0, text_end);
        (void)refused_recording(name, result, told);
        counts->refused++;
        return;
    }
    print(length, text_end);
    counts->sound++;
}

static void print_counts(int files, const struct counts *counts)
{
    printf("%d recordings: %lu sound, %lu refused", files, counts->sound, counts->refused);
    if (counts->unread > 0)
        printf(", %lu not read", counts->unread);
    putchar('\n');
}

/* It ends early where standard output fails. */
static int print_files(int argc, char **argv, printer *print)
{
    struct counts counts = {0, 0, 0};
    int files = operands(argc, argv);
    int i;

    if (files < 0)
        return misused(argv[0]);
    if (files < 2)
        print_file(files == 0 ? "-" : argv[1], 0, print, &counts);
    for (i = 0; i < files && files > 1 && written() == WELL; i++) {
        progress((unsigned long)i, (unsigned long)files);
        print_file(argv[i + 1], 1, print, &counts);
    }
    progress_over();
    if (files > 1)
        print_counts(files, &counts);
    if (counts.unread > 0 || written() == FAILED)
        return FAILED;
    return counts.refused > 0 ? REFUSED : WELL;
}

int list_files(int argc, char **argv)
{
    return print_files(argc, argv, print_listing);
}

int hear_files(int argc, char **argv)
{
    return print_files(argc, argv, print_hearing);
}

int excite_files(int argc, char **argv)
{
    return print_files(argc, argv, print_excitation);
}

/* ---- Salvaging. Each function that writes a file answers an error number, or 0. ---- */

static int write_all(int file, const uint8_t *from, size_t length)
{
    while (length > 0) {
        ssize_t put = write(file, from, length);

        if (put < 0 && errno != EINTR)
            return errno;
        if (put > 0) {
            from += put;
            length -= (size_t)put;
        }
    }
    return 0;
}

/* Into what is there and is no plain file, such as a pipe or a device. */
static int write_straight(const char *path, const uint8_t *from, size_t length)
{
    int file = open(path, O_WRONLY | O_NOCTTY);
    int error = file < 0 ? errno : write_all(file, from, length);

    if (file >= 0 && close(file) != 0 && error == 0)
        error = errno;
    return error;
}

/* A name in the folder that a path is in, as a path. It is to be freed; null where there is no memory. */
static char *in_folder_of(const char *path, const char *name)
{
    const char *slash = strrchr(path, '/');
    size_t folder = slash == NULL ? 0 : (size_t)(slash - path) + 1;
    char *joined = malloc(folder + strlen(name) + 1);

    if (joined != NULL) {
        memcpy(joined, path, folder);
        strcpy(joined + folder, name);
    }
    return joined;
}

/* Sees to it that a new name in a folder stays there. A folder that may not be read, or cannot be asked for it, is left alone. */
static int keep_name(const char *path)
{
    char *folder = in_folder_of(path, ".");
    int file = folder == NULL ? -1 : open(folder, O_RDONLY);
    int error = file >= 0 && fsync(file) != 0 && errno != EINVAL ? errno : 0;

    if (file >= 0)
        (void)close(file);
    free(folder);
    return error;
}

/*
 * Writes a new file, beside the path and whole, before it takes the path's name: what is there stays as it is until then, and
 * for good where something fails. A mode that the file system does not take is left out.
 */
static int replace(const char *path, mode_t mode, const uint8_t *from, size_t length)
{
    char *fresh = in_folder_of(path, ".oatlantern-XXXXXX");
    int file = fresh == NULL ? -1 : mkstemp(fresh);
    int error;

    if (file < 0) {
        error = errno;
        free(fresh);
        return error;
    }
    error = write_all(file, from, length);
    (void)fchmod(file, mode);
    if (error == 0 && fsync(file) != 0)
        error = errno;
    if (close(file) != 0 && error == 0)
        error = errno;
    if (error == 0 && rename(fresh, path) != 0)
        error = errno;
    if (error != 0)
        (void)unlink(fresh);
    free(fresh);
    return error != 0 ? error : keep_name(path);
}

/* The mode of a file that is plainly made. */
static mode_t plain_mode(void)
{
    mode_t mask = umask(0);

    (void)umask(mask);
    return (mode_t)0666 & ~mask;
}

/*
 * A link stays one: what it leads to is replaced. One that leads nowhere is a failure, and so is a file that is there and may
 * not be written, though its folder would let another take its name.
 */
static int write_file(const char *path, const uint8_t *from, size_t length)
{
    struct stat there;
    char *real;
    int error;

    if (stat(path, &there) != 0) {
        error = errno;
        return error == ENOENT && lstat(path, &there) != 0 ? replace(path, plain_mode(), from, length) : error;
    }
    if (!S_ISREG(there.st_mode))
        return write_straight(path, from, length);
    if (access(path, W_OK) != 0)
        return errno;
    real = realpath(path, NULL);
    error = real == NULL ? errno : replace(real, there.st_mode & (mode_t)0777, from, length);
    free(real);
    return error;
}

static int write_salvaged(const char *path, const uint8_t *from, size_t length)
{
    int error;

    if (strcmp(path, "-") == 0) {
        (void)fwrite(from, 1, length, stdout);
        return written();
    }
    error = write_file(path, from, length);
    return error == 0 ? WELL : failed(shown(path), error);
}

static int nothing_kept(const char *name, int refusal)
{
    say("%s: refused %d: %s", shown(name), refusal,
        refusal == OATLANTERN_REFUSED_LENGTH ? oatlantern_cause_words(OATLANTERN_TOO_LONG) : oatlantern_refusal_words(refusal));
    return REFUSED;
}

static void say_changes(const size_t changes[OATLANTERN_CHANGES])
{
    if (changes[OATLANTERN_DROPPED] > 0)
        fprintf(stderr, "dropped %lu bytes from %lu\n", (unsigned long)changes[OATLANTERN_DROPPED],
                (unsigned long)changes[OATLANTERN_DROPPED_FROM]);
    fprintf(stderr, "kept %lu frames\nend written at %lu\n", (unsigned long)changes[OATLANTERN_KEPT_FRAMES],
            (unsigned long)changes[OATLANTERN_END_WRITTEN]);
}

int salvage_file(int argc, char **argv)
{
    static uint8_t salvaged[OATLANTERN_RECORDING_BYTES];
    size_t changes[OATLANTERN_CHANGES];
    int names = operands(argc, argv);
    const char *in = names > 0 ? argv[1] : "-";
    size_t length;
    int32_t result;

    if (names < 0 || names > 2)
        return misused(argv[0]);
    if (read_file(in, bytes, &length) != WELL)
        return FAILED;
    result = oatlantern_salvage(bytes, length, salvaged, sizeof salvaged, changes);
    if (oatlantern_is_refused(result))
        return nothing_kept(in, oatlantern_refusal(result));
    if (write_salvaged(names > 1 ? argv[2] : "-", salvaged, changes[OATLANTERN_SALVAGED]) != WELL)
        return FAILED;
    if (result > 0)
        say_changes(changes);
    return WELL;
}
