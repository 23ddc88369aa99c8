/*
 * oatlantern tally: the tally book for people. Each verb opens the book, asks
 * the archive's functions or lets them enter, and says what they answered.
 */
#define _POSIX_C_SOURCE 200809L

#include <inttypes.h>
#include <stdio.h>
#include <string.h>

#include "book.h"
#include "command.h"

static struct book book;

/* The larger of two statuses is the worse. */
static int worse(int one, int other)
{
    return one > other ? one : other;
}

/* ---- Numbers ---- */

/* A number of a key or a count: digits, up to the largest of 32 bits. */
static int number_in(const char *text, const char *what, uint32_t *number)
{
    uint64_t value = 0;
    size_t i;

    for (i = 0; text[i] >= '0' && text[i] <= '9' && value <= UINT32_MAX; i++)
        value = 10 * value + (uint64_t)(text[i] - '0');
    *number = (uint32_t)value;
    if (i > 0 && text[i] == '\0' && value <= UINT32_MAX)
        return WELL;
    if (i == 0 && text[i] == '\0')
        say("the %s is empty", what);
    else
        say("the %s %s %s", what, strcmp(text, "-") == 0 ? text : shown(text),
            value > UINT32_MAX ? "is larger than 4294967295" : "is no number of digits only");
    return USAGE;
}

/* ---- Asking ---- */

/* Takes what a book holds. It is closed then: no writer has to wait while the answer is printed. */
static int asked(const char *name)
{
    int status = book_open(&book, name, ASKING);

    return status == WELL ? book_close(&book) : status;
}

static int total(const char *name, char **words)
{
    uint32_t unit;
    int status = number_in(words[0], "unit", &unit);

    if (status == WELL)
        status = asked(name);
    if (status == WELL)
        printf("unit %" PRIu32 " total %" PRIu64 "\n", unit, oatlantern_tally_total(book.words, unit));
    return status;
}

/* Finds the lowest unit of the book that is not below `from`, and how many entries it has; 0 where there is none. */
static uint32_t next_unit(uint64_t from, uint32_t *unit)
{
    uint32_t i, entries = oatlantern_tally_entries(book.words), recordings = 0;

    for (i = 0; i < entries; i++) {
        uint32_t found = oatlantern_tally_unit(book.words, i);

        if (found < from || (recordings > 0 && found > *unit))
            continue;
        recordings = recordings > 0 && found == *unit ? recordings + 1 : 1;
        *unit = found;
    }
    return recordings;
}

static int totals(const char *name, char **words)
{
    uint32_t unit, recordings;
    uint64_t from = 0, sum = 0;
    int status = asked(name);

    (void)words;
    if (status != WELL)
        return status;
    while ((recordings = next_unit(from, &unit)) > 0) {
        uint64_t of_unit = oatlantern_tally_total(book.words, unit);

        printf("unit %" PRIu32 " recordings %" PRIu32 " total %" PRIu64 "\n", unit, recordings, of_unit);
        sum += of_unit;
        from = (uint64_t)unit + 1;
    }
    printf("entries %" PRIu32 " total %" PRIu64 "\n", oatlantern_tally_entries(book.words), sum);
    return WELL;
}

static int held(const char *name, char **words)
{
    uint32_t unit, number, count;
    int status = number_in(words[0], "unit", &unit);

    if (status == WELL)
        status = number_in(words[1], "recording number", &number);
    if (status == WELL)
        status = asked(name);
    if (status != WELL)
        return status;
    if (oatlantern_tally_held(book.words, unit, number, &count) != 0)
        printf("held unit %" PRIu32 " recording %" PRIu32 " count %" PRIu32 "\n", unit, number, count);
    else
        printf("not held unit %" PRIu32 " recording %" PRIu32 "\n", unit, number);
    return WELL;
}

static int show(const char *name, char **words)
{
    uint32_t i;
    int status = asked(name);

    (void)words;
    if (status != WELL)
        return status;
    for (i = 0; i < oatlantern_tally_entries(book.words); i++)
        printf("%" PRIu32 " unit %" PRIu32 " recording %" PRIu32 " count %" PRIu32 "\n", i + 1,
               oatlantern_tally_unit(book.words, i), oatlantern_tally_number(book.words, i),
               oatlantern_tally_count(book.words, i));
    return WELL;
}

static int check(const char *name, char **words)
{
    int status = asked(name);

    (void)words;
    if (status == WELL)
        printf("%s: a book, %" PRIu32 " entries\n", shown(name), oatlantern_tally_entries(book.words));
    return status;
}

/* ---- Entering ---- */

struct entry {
    uint32_t unit;
    uint32_t number;
    uint32_t count;
};

/* Says that the book refused an entry. */
static int refused(int32_t result, const struct entry *entry)
{
    const char *words = oatlantern_refusal_words(oatlantern_refusal(result));
    uint32_t count;

    if (oatlantern_tally_held(book.words, entry->unit, entry->number, &count) != 0)
        say("%s: refused %d: %s (unit %" PRIu32 " recording %" PRIu32 " is held with %" PRIu32 ", not %" PRIu32 ")",
            shown(book.name), oatlantern_refusal(result), words, entry->unit, entry->number, count, entry->count);
    else
        say("%s: refused %d: %s (unit %" PRIu32 " recording %" PRIu32 ")", shown(book.name), oatlantern_refusal(result), words,
            entry->unit, entry->number);
    return REFUSED;
}

/* Keeps what was entered into the open book, closes it, and only then says what entering answered. */
static int answered(int32_t result, const struct entry *entry)
{
    int kept = result == 0 ? book_keep(&book) : WELL;
    int closed = book_close(&book);

    if (kept != WELL)
        return kept;
    if (oatlantern_is_refused(result))
        return worse(refused(result, entry), closed);
    printf("%s unit %" PRIu32 " recording %" PRIu32 " count %" PRIu32 "\n", result == 0 ? "entered" : "already held", entry->unit,
           entry->number, entry->count);
    return closed;
}

static int enter_key(const char *name, char **words)
{
    struct entry entry;
    int status = number_in(words[0], "unit", &entry.unit);

    if (status == WELL)
        status = number_in(words[1], "recording number", &entry.number);
    if (status == WELL)
        status = number_in(words[2], "count", &entry.count);
    if (status == WELL)
        status = book_open(&book, name, ENTERING);
    if (status != WELL)
        return status;
    return answered(oatlantern_tally_enter(book.words, entry.unit, entry.number, entry.count), &entry);
}

/* The recording is judged on an empty book first, so that a refused one opens none and makes none. */
static int enter(const char *name, char **words)
{
    static uint8_t recording[READ_BYTES];
    static uint32_t empty[OATLANTERN_BOOK_WORDS];
    size_t told[OATLANTERN_TOLD];
    size_t length;
    struct entry entry;
    int32_t result;
    int status = number_in(words[1], "count", &entry.count);

    if (status == WELL)
        status = read_file(words[0], recording, &length);
    if (status != WELL)
        return status;
    result = oatlantern_tally_enter_recording(empty, recording, length, entry.count, told);
    if (oatlantern_is_refused(result))
        return refused_recording(words[0], result, told);
    entry.unit = (uint32_t)told[OATLANTERN_TOLD_UNIT];
    entry.number = (uint32_t)told[OATLANTERN_TOLD_NUMBER];
    status = book_open(&book, name, ENTERING);
    if (status != WELL)
        return status;
    return answered(oatlantern_tally_enter_recording(book.words, recording, length, entry.count, told), &entry);
}

/* ---- Merging ---- */

struct merged {
    uint32_t entered;
    uint32_t held;
    uint32_t refused;
};

/* Enters all that another book holds into the open one, in its order; REFUSED where there is no room for all of it. */
static int enter_all(const uint32_t other[OATLANTERN_BOOK_WORDS], struct merged *merged)
{
    uint32_t i;

    for (i = 0; i < oatlantern_tally_entries(other); i++) {
        struct entry entry;
        int32_t result;

        entry.unit = oatlantern_tally_unit(other, i);
        entry.number = oatlantern_tally_number(other, i);
        entry.count = oatlantern_tally_count(other, i);
        result = oatlantern_tally_enter(book.words, entry.unit, entry.number, entry.count);
        if (result == 0)
            merged->entered++;
        else if (result > 0)
            merged->held++;
        else {
            (void)refused(result, &entry);
            if (oatlantern_refusal(result) != OATLANTERN_REFUSED_OTHER_COUNT)
                return REFUSED;
            merged->refused++;
        }
    }
    return WELL;
}

static int say_merged(const struct merged *merged)
{
    printf("merged %" PRIu32 " entered, %" PRIu32 " already held, %" PRIu32 " refused\n", merged->entered, merged->held,
           merged->refused);
    return merged->refused == 0 ? WELL : REFUSED;
}

/* A book is a file with a name of its own. */
static int is_input(const char *name)
{
    if (strcmp(name, "-") != 0)
        return 0;
    say("a book cannot be standard input");
    return 1;
}

static int merge(const char *name, char **words)
{
    static struct book other;
    struct merged merged = {0, 0, 0};
    int there;
    int status = is_input(words[0]) ? USAGE : book_open(&other, words[0], ASKING);

    if (status == WELL)
        status = book_close(&other);
    if (status == WELL)
        status = book_is_there(name, &there);
    if (status != WELL)
        return status;
    if (!there && oatlantern_tally_entries(other.words) == 0)
        return say_merged(&merged); /* no book is made for nothing */
    status = book_open(&book, name, ENTERING);
    if (status != WELL)
        return status;
    status = enter_all(other.words, &merged);
    if (status == WELL && merged.entered > 0)
        status = book_keep(&book);
    if (status == WELL)
        status = say_merged(&merged);
    return worse(status, book_close(&book));
}

/* ---- The verbs ---- */

static const struct {
    const char *name;
    int words; /* how many stand behind it */
    int (*run)(const char *name, char **words);
} VERBS[] = {
    {"enter", 2, enter}, {"enter-key", 3, enter_key}, {"total", 1, total}, {"totals", 0, totals},
    {"held", 2, held},   {"show", 0, show},           {"merge", 1, merge}, {"check", 0, check},
};

int tally(int argc, char **argv)
{
    size_t i;

    for (i = 0; argc >= 3 && i < sizeof VERBS / sizeof VERBS[0]; i++)
        if (strcmp(argv[2], VERBS[i].name) == 0 && argc == 3 + VERBS[i].words)
            return is_input(argv[1]) ? USAGE : VERBS[i].run(argv[1], argv + 3);
    return misused("tally");
}
