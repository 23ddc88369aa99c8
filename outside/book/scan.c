/*
 * The tally book as a plain scan in C: makes the calls on standard input and
 * prints the lines of `sheet` (../CASES.md; not r and d, which end the calls).
 * It is what speed is measured against.
 *
 * As it stands, a book is lent, it has a column each of numbers, units and
 * counts, and the number is compared before the unit. Otherwise by macro:
 *
 *   UNIT_FIRST   the unit is compared before the number
 *   ROWS         the three words of an entry stand side by side
 *   BY_VALUE     a call takes a book by value, and gives one back if it changes it
 */
#include <inttypes.h>
#include <stdint.h>
#include <stdio.h>

#define ROOM 4096
#define WORDS (3 * ROOM + 1)
#define INPUT 262144

/* What is called, and not taken into its caller, as a library's functions are. */
#define CALLED __attribute__((noinline)) static

struct book {
    uint32_t entries;
#ifdef ROWS
    struct { uint32_t number, unit, count; } row[ROOM];
#define NUMBER(book, i) (book)->row[i].number
#define UNIT(book, i) (book)->row[i].unit
#define COUNT(book, i) (book)->row[i].count
#else
    uint32_t number[ROOM], unit[ROOM], count[ROOM];
#define NUMBER(book, i) (book)->number[i]
#define UNIT(book, i) (book)->unit[i]
#define COUNT(book, i) (book)->count[i]
#endif
};

/* A book as a call takes it that changes nothing, and how it is handed over and looked into. */
#ifdef BY_VALUE
typedef struct book taken;
#define HAND(book) (*(book))
#define LOOK(taken) (&(taken))
#else
typedef const struct book *taken;
#define HAND(book) (book)
#define LOOK(taken) (taken)
#endif

/* An answer: what it is, and the number of those that have one. */
enum what { NOTHING, ENTERED, ALREADY_HELD, REFUSED, HELD, NOT_HELD, TOTAL, ENTRIES, CLEARED };

struct said {
    enum what what;
    uint64_t number;
};

/* How many entries a book holds. */
static uint32_t entries(const struct book *book)
{
    return book->entries < ROOM ? book->entries : ROOM;
}

/* The first entry that has a key, or how many entries there are. */
static size_t find(const struct book *book, uint32_t unit, uint32_t number)
{
    size_t end = entries(book);
    size_t i;

    for (i = 0; i < end; i++)
#ifdef UNIT_FIRST
        if (UNIT(book, i) == unit && NUMBER(book, i) == number)
#else
        if (NUMBER(book, i) == number && UNIT(book, i) == unit)
#endif
            break;
    return i;
}

/* Which count is held under a key. */
CALLED struct said ask(taken it, uint32_t unit, uint32_t number)
{
    const struct book *book = LOOK(it);
    size_t i = find(book, unit, number);

    if (i == entries(book))
        return (struct said){ NOT_HELD, 0 };
    return (struct said){ HELD, COUNT(book, i) };
}

/* The total for a unit. */
CALLED uint64_t total(taken it, uint32_t unit)
{
    const struct book *book = LOOK(it);
    size_t end = entries(book);
    uint64_t sum = 0;
    size_t i;

    for (i = 0; i < end; i++)
        if (UNIT(book, i) == unit)
            sum += COUNT(book, i);
    return sum;
}

/* Enters an entry: a new key where there is room. */
static struct said put(struct book *book, uint32_t unit, uint32_t number, uint32_t count)
{
    size_t end = entries(book);
    size_t i = find(book, unit, number);

    if (i < end && COUNT(book, i) == count)
        return (struct said){ ALREADY_HELD, 0 };
    if (i < end)
        return (struct said){ REFUSED, 13 };
    if (end == ROOM)
        return (struct said){ REFUSED, 14 };
    NUMBER(book, i) = number;
    UNIT(book, i) = unit;
    COUNT(book, i) = count;
    book->entries = (uint32_t)end + 1;
    return (struct said){ ENTERED, 0 };
}

#ifdef BY_VALUE
struct entered {
    struct book book;
    struct said said;
};

/* What entering comes to, and the book after it. */
CALLED struct entered entered(struct book book, uint32_t unit, uint32_t number, uint32_t count)
{
    struct said said = put(&book, unit, number, count);

    return (struct entered){ book, said };
}

static struct said enter(struct book *book, uint32_t unit, uint32_t number, uint32_t count)
{
    struct entered after = entered(*book, unit, number, count);

    *book = after.book;
    return after.said;
}
#else
CALLED struct said enter(struct book *book, uint32_t unit, uint32_t number, uint32_t count)
{
    return put(book, unit, number, count);
}
#endif

/* Lays words from a place on: a first number, and each next one by a step more. */
static void lay(struct book *book, uint32_t from, uint32_t to, uint32_t first, uint32_t step)
{
    uint32_t at;

    for (at = from; at < to && at < WORDS; at++, first += step)
        if (at == 0)
            book->entries = first;
        else if (at <= ROOM)
            NUMBER(book, at - 1) = first;
        else if (at <= 2 * ROOM)
            UNIT(book, at - 1 - ROOM) = first;
        else
            COUNT(book, at - 1 - 2 * ROOM) = first;
}

/* How many bytes stand behind the byte of a call's kind, or -1 for no kind. */
static long size(uint8_t kind)
{
    switch (kind) {
    case 'e': return 12;
    case 'h': return 8;
    case 't': case 'm': return 4;
    case 'n': case 'c': return 0;
    case 'w': return 16;
    default: return -1;
    }
}

/* Word i of a call's numbers. */
static uint32_t word(const uint8_t *numbers, int i)
{
    const uint8_t *s = numbers + 4 * i;

    return s[0] | (uint32_t)s[1] << 8 | (uint32_t)s[2] << 16 | (uint32_t)s[3] << 24;
}

/* What a call answers. */
CALLED struct said make(struct book *book, uint8_t kind, const uint8_t *numbers)
{
    switch (kind) {
    case 'e':
        return enter(book, word(numbers, 0), word(numbers, 1), word(numbers, 2));
    case 'h':
        return ask(HAND(book), word(numbers, 0), word(numbers, 1));
    case 't':
        return (struct said){ TOTAL, total(HAND(book), word(numbers, 0)) };
    case 'n':
        return (struct said){ ENTRIES, entries(book) };
    case 'w':
        lay(book, word(numbers, 0), word(numbers, 1), word(numbers, 2), word(numbers, 3));
        return (struct said){ NOTHING, 0 };
    default:
        book->entries = 0;
        return (struct said){ CLEARED, 0 };
    }
}

/* Prints the line of an answer. */
static void say(struct said said)
{
    switch (said.what) {
    case NOTHING: break;
    case ENTERED: fputs("entered\n", stdout); break;
    case ALREADY_HELD: fputs("already held\n", stdout); break;
    case REFUSED: printf("refused %" PRIu64 "\n", said.number); break;
    case HELD: printf("held %" PRIu64 "\n", said.number); break;
    case NOT_HELD: fputs("not held\n", stdout); break;
    case TOTAL: printf("total %" PRIu64 "\n", said.number); break;
    case ENTRIES: printf("entries %" PRIu64 "\n", said.number); break;
    case CLEARED: fputs("cleared\n", stdout); break;
    }
}

int main(void)
{
    static uint8_t calls[INPUT];
    struct book book = { 0 };
    size_t end = fread(calls, 1, INPUT, stdin);
    uint32_t more = 0;
    size_t at = 0;

    while (at < end) {
        uint8_t kind = calls[at++];
        long bytes = size(kind);

        if (bytes < 0 || end - at < (size_t)bytes)
            break;
        if (kind == 'm') {
            more = word(calls + at, 0);
        } else {
            for (; more > 0; more--)
                make(&book, kind, calls + at);
            say(make(&book, kind, calls + at));
        }
        at += (size_t)bytes;
    }
    return 0;
}
