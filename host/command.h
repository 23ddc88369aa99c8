/*
 * The command oatlantern: what its parts share. Each part is one subcommand or
 * several, and answers an exit status.
 */
#ifndef COMMAND_H
#define COMMAND_H

#include <stddef.h>
#include <stdint.h>

#include "oatlantern.h"

enum status {
    WELL = 0,    /* all well */
    REFUSED = 1, /* something was refused */
    USAGE = 2,   /* the command was not used as it says */
    FAILED = 3   /* the system failed: something cannot be opened, read or written */
};

/* One byte more than a recording may have: a file is read no further. */
#define READ_BYTES (OATLANTERN_RECORDING_BYTES + 1)

/*
 * The subcommands: argv[0] is the subcommand's name, and what comes after it
 * stands behind. --help and --version were looked for already.
 */
int list_files(int argc, char **argv);
int hear_files(int argc, char **argv);
int excite_files(int argc, char **argv);
int salvage_file(int argc, char **argv);
int decode_frames(int argc, char **argv);
int encode_records(int argc, char **argv);
int tally(int argc, char **argv);

/* How a subcommand is used, on standard error; answers USAGE. */
int misused(const char *subcommand);

/*
 * The names behind a subcommand, from argv[1] on, without the -- that may stand before them; answers how many they are, or
 * -1 where one begins with - and is more than that, and no -- stands before it.
 */
int operands(int argc, char **argv);

/* Says one line on standard error, behind the program's name. What was printed before it is written first. */
void say(const char *format, ...);

/*
 * Shows how far the work is, `done` of so many recordings, on a terminal and once it takes long; it begins with `done` 0. The
 * line stands on standard error until the next thing is said there, or until progress_over.
 */
void progress(unsigned long done, unsigned long all);
void progress_over(void);

/* Says that something failed, by the system's words for an error number; answers FAILED. */
int failed(const char *what, int error);

/* A file's name in a line: "standard input" for -, and no byte of it ends or hides the line. */
const char *shown(const char *name);

/* Reads an open file to its end, or as many bytes as there is room for; answers an error number, or 0. */
int read_up_to(int file, size_t most, uint8_t *bytes, size_t *length);

/*
 * Reads a file, standard input for -, READ_BYTES at most; answers WELL, or FAILED after it said why.
 */
int read_file(const char *name, uint8_t bytes[READ_BYTES], size_t *length);

/*
 * Says why a recording is refused, by the result of a function that judged it and what it told, in the handbook's words;
 * answers REFUSED.
 */
int refused_recording(const char *name, int32_t result, const size_t told[OATLANTERN_TOLD]);

/* Writes what was printed; answers WELL, or FAILED after it said why. Once it failed, it stays so and is not said again. */
int written(void);

#endif
