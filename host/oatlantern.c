/*
 * oatlantern: the one command for people. It finds the subcommand, and has what
 * all of them share: reading, what is said, and the exit status.
 */
#define _POSIX_C_SOURCE 200809L

#include <errno.h>
#include <fcntl.h>
#include <signal.h>
#include <stdarg.h>
#include <stdio.h>
#include <string.h>
#include <time.h>
#include <unistd.h>

#include "command.h"

struct subcommand {
    const char *name;
    int (*run)(int argc, char **argv);
    const char *arguments;
    const char *help;
};

static const struct subcommand SUBCOMMANDS[] = {
    {"list", list_files, "[FILE..]",
     "Lists recordings: unit, number and frames, a line for each frame, repairs and\n"
     "breaks; or the one line that says why a recording is refused.\n"},
    {"hear", hear_files, "[FILE..]",
     "Prints all that is read and heard of each frame of a recording.\n"},
    {"salvage", salvage_file, "[IN [OUT]]",
     "Writes what can be kept of a damaged recording as a good one, and says on\n"
     "standard error what was changed. Where nothing can be kept, OUT stays as it is.\n"},
    {"excite", excite_files, "[FILE..]",
     "Prints the excitation of each subframe of a recording, sixty whole numbers a line.\n"},
    {"decode", decode_frames, "[-v] [FILE]",
     "Reads 18-byte frames and prints a line for each: 28 indices, correction number,\n"
     "order mark and the letter of the correction. -v says what each correction changed.\n"},
    {"encode", encode_records, "[FILE]",
     "Reads such lines and writes the 18-byte frames.\n"},
    {"tally", tally, "BOOK WHAT ..",
     "Keeps the tally book BOOK, in which each recording's count is entered once. WHAT is\n"
     "  enter RECORDING COUNT           enter a recording with the count spoken in it\n"
     "  enter-key UNIT NUMBER COUNT     enter a count by unit and recording number\n"
     "  total UNIT                      the total of a unit\n"
     "  totals                          the totals of all units\n"
     "  held UNIT NUMBER                which count is held\n"
     "  show                            all entries, in the order in which they were entered\n"
     "  merge OTHER                     enter all that another book holds\n"
     "  check                           whether BOOK is a book, and where it is not\n"
     "The first entry makes the book.\n"},
};

enum { COUNT = sizeof SUBCOMMANDS / sizeof SUBCOMMANDS[0] };

static const char PROGRAM[] = "oatlantern";
static int output_failed;

/* How many columns the line of progress has that stands on the terminal; 0 is none. */
static int progress_columns;

void progress_over(void)
{
    if (progress_columns > 0)
        fprintf(stderr, "\r%*s\r", progress_columns, "");
    progress_columns = 0;
}

/* Milliseconds, from some moment on. */
static long now(void)
{
    struct timespec time;

    return clock_gettime(CLOCK_MONOTONIC, &time) == 0 ? (long)time.tv_sec * 1000 + time.tv_nsec / 1000000 : 0;
}

/* Where standard output is a terminal too, what is printed there shows how far the work is. */
void progress(unsigned long done, unsigned long all)
{
    static int wanted;
    static long due;

    if (done == 0) {
        wanted = isatty(STDERR_FILENO) && !isatty(STDOUT_FILENO);
        due = wanted ? now() + 1000 : 0;
    }
    if (!wanted || now() < due)
        return;
    due = now() + 250;
    progress_columns = fprintf(stderr, "\r%lu of %lu recordings", done, all) - 1;
}

void say(const char *format, ...)
{
    va_list arguments;

    (void)written();
    progress_over();
    fprintf(stderr, "%s: ", PROGRAM);
    va_start(arguments, format);
    vfprintf(stderr, format, arguments);
    va_end(arguments);
    fputc('\n', stderr);
}

int failed(const char *what, int error)
{
    say("%s: %s", what, strerror(error));
    return FAILED;
}

const char *shown(const char *name)
{
    static char line[4096];
    size_t i;

    if (strcmp(name, "-") == 0)
        return "standard input";
    for (i = 0; name[i] != '\0' && i + 1 < sizeof line; i++)
        line[i] = (unsigned char)name[i] < ' ' || name[i] == 127 ? '?' : name[i];
    line[i] = '\0';
    return line;
}

/* Standard output failed, which is said once. */
static int not_written(int error)
{
    if (!output_failed) {
        progress_over();
        fprintf(stderr, "%s: standard output: %s\n", PROGRAM, strerror(error == 0 ? EIO : error));
    }
    output_failed = 1;
    return FAILED;
}

/* Where a print failed already, its error number is still there. */
int written(void)
{
    if (!output_failed && !ferror(stdout) && fflush(stdout) == 0)
        return WELL;
    return not_written(errno);
}

/* The same at the end, where a file system may still say that it could not keep what was written. */
static int closed(void)
{
    if (written() == FAILED)
        return FAILED;
    return close(STDOUT_FILENO) == 0 ? WELL : not_written(errno);
}

int read_up_to(int file, size_t most, uint8_t *bytes, size_t *length)
{
    *length = 0;
    while (*length < most) {
        ssize_t got = read(file, bytes + *length, most - *length);

        if (got == 0)
            break;
        if (got > 0)
            *length += (size_t)got;
        else if (errno != EINTR)
            return errno;
    }
    return 0;
}

int read_file(const char *name, uint8_t bytes[READ_BYTES], size_t *length)
{
    int input = strcmp(name, "-") == 0;
    int file = input ? STDIN_FILENO : open(name, O_RDONLY);
    int error = file < 0 ? errno : read_up_to(file, READ_BYTES, bytes, length);

    if (file >= 0 && !input)
        (void)close(file);
    return error == 0 ? WELL : failed(shown(name), error);
}

int refused_recording(const char *name, int32_t result, const size_t told[OATLANTERN_TOLD])
{
    int number = oatlantern_refusal(result);
    const char *words = oatlantern_cause_words(told[OATLANTERN_TOLD_CAUSE]);
    unsigned long place = (unsigned long)told[OATLANTERN_TOLD_PLACE];

    switch (told[OATLANTERN_TOLD_CAUSE]) {
    case OATLANTERN_TOO_LONG:
        say("%s: refused %d: %s", shown(name), number, words);
        break;
    case OATLANTERN_WRONG_SIZE:
        say("%s: refused %d at %lu %lu: %s", shown(name), number, place, (unsigned long)told[OATLANTERN_TOLD_SIZE], words);
        break;
    default:
        say("%s: refused %d at %lu: %s", shown(name), number, place, words);
        break;
    }
    return REFUSED;
}

static const struct subcommand *found(const char *name)
{
    int i;

    for (i = 0; i < COUNT; i++)
        if (strcmp(SUBCOMMANDS[i].name, name) == 0)
            return &SUBCOMMANDS[i];
    return NULL;
}

int misused(const char *subcommand)
{
    say("usage: %s %s %s", PROGRAM, subcommand, found(subcommand)->arguments);
    return USAGE;
}

int operands(int argc, char **argv)
{
    int options = 1;
    int count = 0;
    int i;

    for (i = 1; i < argc; i++) {
        if (options && strcmp(argv[i], "--") == 0) {
            options = 0;
            continue;
        }
        if (options && argv[i][0] == '-' && argv[i][1] != '\0')
            return -1;
        argv[++count] = argv[i];
    }
    return count;
}

static int help(void)
{
    int i;

    printf("Usage: %s SUBCOMMAND ..\n"
           "Reads, lists, checks and salvages 4,800 bit/s voice recordings (Federal Standard 1016), and keeps the\n"
           "tally book.\n\n",
           PROGRAM);
    for (i = 0; i < COUNT; i++)
        printf("  %s %s %s\n", PROGRAM, SUBCOMMANDS[i].name, SUBCOMMANDS[i].arguments);
    printf("\nA FILE that is - or not said is standard input. SUBCOMMAND --help says more; --version tells the version.\n"
           "Exit status: 0 all well, 1 something was refused, 2 bad usage, 3 the system failed.\n");
    return written();
}

static int help_on(const struct subcommand *subcommand)
{
    printf("Usage: %s %s %s\n%s", PROGRAM, subcommand->name, subcommand->arguments, subcommand->help);
    return written();
}

static int version(void)
{
    printf("%s %s\n", PROGRAM, OATLANTERN_VERSION);
    return written();
}

/* A standard file that is closed stays unusable: no file that is opened later takes its number. */
static void keep_closed(void)
{
    int number;

    for (number = STDIN_FILENO; number <= STDERR_FILENO; number++)
        if (fcntl(number, F_GETFD) < 0)
            (void)open("/dev/null", number == STDIN_FILENO ? O_WRONLY : O_RDONLY);
}

/* The subcommand that a name like oatlantern-list says, or none. */
static char *by_name(char *path)
{
    char *slash = strrchr(path, '/');
    char *name = slash == NULL ? path : slash + 1;
    size_t length = strlen(PROGRAM);

    return strncmp(name, PROGRAM, length) == 0 && name[length] == '-' ? name + length + 1 : NULL;
}

static int run(int argc, char **argv)
{
    const struct subcommand *subcommand;

    if (argc < 1)
        return say("usage: %s SUBCOMMAND .. (--help tells more)", PROGRAM), USAGE;
    if (strcmp(argv[0], "--help") == 0)
        return help();
    if (strcmp(argv[0], "--version") == 0)
        return version();
    subcommand = found(argv[0]);
    if (subcommand == NULL)
        return say("%s is no subcommand (--help tells them)", shown(argv[0])), USAGE;
    if (argc > 1 && strcmp(argv[1], "--help") == 0)
        return help_on(subcommand);
    if (argc > 1 && strcmp(argv[1], "--version") == 0)
        return version();
    return subcommand->run(argc, argv);
}

/* A closed pipe, and a file that may not grow, are failures that are said, and no silent end. */
int main(int argc, char **argv)
{
    char *name = argc > 0 ? by_name(argv[0]) : NULL;
    int status;

    keep_closed();
    (void)signal(SIGPIPE, SIG_IGN);
    (void)signal(SIGXFSZ, SIG_IGN);
    if (name != NULL)
        argv[0] = name;
    status = name != NULL ? run(argc, argv) : run(argc - 1, argv + 1);
    return closed() == WELL ? status : FAILED;
}
