/*
 * A tally book in a file. SQLite does what makes it last: locks, journal, syncs
 * and rolling back after a crash. Here stands how a book is laid out, how one
 * is made and judged, and how entries are added at its end.
 */
#define _XOPEN_SOURCE 700 /* POSIX of 2008, with realpath */

#include <errno.h>
#include <fcntl.h>
#include <limits.h>
#include <stdarg.h>
#include <stdio.h>
#include <stdlib.h>
#include <string.h>
#include <sys/stat.h>
#include <unistd.h>

#include <sqlite3.h>

#include "book.h"
#include "command.h"

/* ---- How a book is laid out ---- */

enum { APPLICATION = 0x4F41544C /* OATL, the highest byte first */, VERSION = 1 };

/* In the order of their names. The file has these very texts, and nothing else but tables of SQLite's own. */
static const struct {
    const char *type;
    const char *name;
    const char *sql;
} SCHEMA[] = {
    {"table", "entries",
     "CREATE TABLE entries(\n"
     "  place INTEGER PRIMARY KEY CHECK(place BETWEEN 1 AND 4096),\n"
     "  unit INTEGER NOT NULL CHECK(unit BETWEEN 0 AND 4294967295),\n"
     "  number INTEGER NOT NULL CHECK(number BETWEEN 0 AND 4294967295),\n"
     "  count INTEGER NOT NULL CHECK(count BETWEEN 0 AND 4294967295),\n"
     "  seal INTEGER NOT NULL CHECK(seal BETWEEN 0 AND 4294967295)\n"
     ") STRICT"},
    {"view", "totals",
     "CREATE VIEW totals(unit, recordings, total) AS\n"
     "  SELECT unit, count(*), sum(count) FROM entries GROUP BY unit ORDER BY unit"},
};

enum { OBJECTS = sizeof SCHEMA / sizeof SCHEMA[0] };

/*
 * The seal of an entry: the CRC-32 of zip and PNG, over the seal before it and
 * the entry, four bytes each, the lowest first. So a change in any entry shows.
 */
static uint32_t sealed(uint32_t before, uint32_t place, uint32_t unit, uint32_t number, uint32_t count)
{
    const uint32_t numbers[] = {before, place, unit, number, count};
    uint32_t crc = 0xffffffff;
    unsigned i, bit;

    for (i = 0; i < sizeof numbers; i++) {
        crc ^= numbers[i / 4] >> 8 * (i % 4) & 0xff;
        for (bit = 0; bit < 8; bit++)
            crc = (crc & 1) != 0 ? crc >> 1 ^ 0xEDB88320 : crc >> 1;
    }
    return ~crc;
}

/* ---- What is said ---- */

/* SQLite's words may have bytes of a spoiled file in them, and more lines than one: made plain text in one line. */
static const char *in_line(char *text)
{
    size_t i;

    for (i = 0; text[i] != '\0'; i++)
        if (text[i] == '\n')
            text[i] = ' ';
        else if (text[i] < ' ' || text[i] > '~')
            text[i] = '?';
    return text;
}

static int no_book(const struct book *book, const char *format, ...)
{
    char why[512];
    va_list arguments;

    va_start(arguments, format);
    (void)vsnprintf(why, sizeof why, format, arguments);
    va_end(arguments);
    say("%s: no book: %s", shown(book->name), in_line(why));
    return REFUSED;
}

/* The system's error number behind a result, or 0. SQLite forgets it where it has rolled back since; the file still knows. */
static int error_of(const struct book *book, int result)
{
    int kind = result & 0xff;
    int error = kind == SQLITE_IOERR || kind == SQLITE_CANTOPEN ? sqlite3_system_errno(book->database) : 0;

    if (kind == SQLITE_IOERR && error == 0 &&
        sqlite3_file_control(book->database, NULL, SQLITE_FCNTL_LAST_ERRNO, &error) != SQLITE_OK)
        error = 0;
    return error;
}

/* Why SQLite did not do what it was to do: in its words, and the system's where it was the system that failed. */
static const char *words_of(const struct book *book, int result)
{
    static char words[512];
    int error = error_of(book, result);

    if (result == SQLITE_READONLY_ROLLBACK)
        return "a crash left it half written, and it cannot be put right while it is read-only";
    if (result == SQLITE_READONLY_DIRECTORY)
        return "its folder cannot be written, and a journal has to stand beside it";
    (void)snprintf(words, sizeof words, "%s%s%s", sqlite3_errmsg(book->database), error == 0 ? "" : ": ",
                   error == 0 ? "" : strerror(error));
    return in_line(words);
}

/* Says why; answers the status of it. */
static int said(const struct book *book, int result)
{
    switch (result & 0xff) {
    case SQLITE_CORRUPT:
    case SQLITE_NOTADB:
    case SQLITE_ERROR: /* a file format that this SQLite does not know: the statements are right ones */
        return no_book(book, "%s", words_of(book, result));
    case SQLITE_BUSY:
        say("%s: another program has held the book for %d seconds", shown(book->name), WAIT_SECONDS);
        return FAILED;
    default:
        say("%s: %s", shown(book->name), words_of(book, result));
        return FAILED;
    }
}

/* ---- Statements ---- */

static int done(const struct book *book, const char *sql)
{
    int result = sqlite3_exec(book->database, sql, NULL, NULL, NULL);

    return result == SQLITE_OK ? WELL : said(book, result);
}

static int prepared(const struct book *book, const char *sql, sqlite3_stmt **statement)
{
    int result = sqlite3_prepare_v2(book->database, sql, -1, statement, NULL);

    return result == SQLITE_OK ? WELL : said(book, result);
}

/* One step: *row is 1 where there is a row, 0 at the end. */
static int stepped(const struct book *book, sqlite3_stmt *statement, int *row)
{
    int result = sqlite3_step(statement);

    *row = result == SQLITE_ROW;
    return result == SQLITE_ROW || result == SQLITE_DONE ? WELL : said(book, result);
}

/* Ends a statement. What went wrong in a step was said there; SQLite tells it again here. */
static int finished(const struct book *book, sqlite3_stmt *statement, int status)
{
    int result = sqlite3_finalize(statement);

    return status == WELL && result != SQLITE_OK ? said(book, result) : status;
}

/* What a statement answers first, as text; it is cut where there is no room for all of it. */
static int answered(const struct book *book, const char *sql, char *text, size_t size)
{
    sqlite3_stmt *statement;
    const unsigned char *found;
    int row;
    int status = prepared(book, sql, &statement);

    text[0] = '\0';
    if (status != WELL)
        return status;
    status = stepped(book, statement, &row);
    found = row ? sqlite3_column_text(statement, 0) : NULL;
    (void)snprintf(text, size, "%s", found == NULL ? "" : (const char *)found);
    return finished(book, statement, status);
}

/* ---- Judging what the file has, in a transaction ---- */

/* Whether a statement answers this number. */
static int is_number(const struct book *book, const char *sql, int number, int *is)
{
    char text[64], expected[64];
    int status = answered(book, sql, text, sizeof text);

    (void)snprintf(expected, sizeof expected, "%d", number);
    *is = strcmp(text, expected) == 0;
    return status;
}

static int judged_header(const struct book *book)
{
    char journal[64];
    int is;
    int status = is_number(book, "PRAGMA application_id", APPLICATION, &is);

    if (status == WELL && !is)
        status = no_book(book, "another program's database");
    if (status == WELL)
        status = is_number(book, "PRAGMA user_version", VERSION, &is);
    if (status == WELL && !is)
        status = no_book(book, "it is of a version that this program does not know");
    if (status == WELL)
        status = is_number(book, "PRAGMA auto_vacuum", 0, &is); /* then some pages would be of another kind */
    if (status == WELL && !is)
        status = no_book(book, "its pages are not laid out as those of a book");
    if (status == WELL)
        status = answered(book, "PRAGMA journal_mode", journal, sizeof journal);
    if (status == WELL && strcmp(journal, "delete") != 0)
        status = no_book(book, "its journal is not of a book's kind");
    return status;
}

static int is_text(sqlite3_stmt *statement, int column, const char *text)
{
    const unsigned char *found = sqlite3_column_text(statement, column);

    return found != NULL && strcmp((const char *)found, text) == 0;
}

static int judged_schema(const struct book *book)
{
    sqlite3_stmt *statement;
    int row, right = 1, i = 0;
    int status = prepared(book,
                          "SELECT type, name, sql FROM sqlite_schema"
                          " WHERE NOT (type = 'table' AND name GLOB 'sqlite_*') ORDER BY name",
                          &statement);

    if (status != WELL)
        return status;
    while (right && (status = stepped(book, statement, &row)) == WELL && row) {
        right = i < OBJECTS && is_text(statement, 0, SCHEMA[i].type) && is_text(statement, 1, SCHEMA[i].name) &&
                is_text(statement, 2, SCHEMA[i].sql);
        i++;
    }
    status = finished(book, statement, status);
    return status != WELL || (right && i == OBJECTS) ? status : no_book(book, "its tables are not those of a book");
}

/* The place of the entry that holds a key, counted from 1. */
static uint32_t holder(const struct book *book, uint32_t unit, uint32_t number)
{
    uint32_t i;

    for (i = 0; i < book->kept; i++)
        if (oatlantern_tally_unit(book->words, i) == unit && oatlantern_tally_number(book->words, i) == number)
            break;
    return i + 1;
}

/* Lays the row that the statement stands on into the array as the next entry, if it is one. */
static int replayed(struct book *book, sqlite3_stmt *statement)
{
    enum { PLACE, UNIT, NUMBER, COUNT, SEAL, COLUMNS };
    uint32_t row[COLUMNS];
    unsigned place = book->kept + 1;
    int column;

    if (place > OATLANTERN_BOOK_ENTRIES)
        return no_book(book, "it has more than %d entries", OATLANTERN_BOOK_ENTRIES);
    if (sqlite3_column_int64(statement, PLACE) != place)
        return no_book(book, "entry %u is missing", place);
    for (column = 0; column < COLUMNS; column++) {
        sqlite3_int64 number = sqlite3_column_int64(statement, column);

        if (sqlite3_column_type(statement, column) != SQLITE_INTEGER || number < 0 || number > UINT32_MAX)
            return no_book(book, "entry %u has a number that no entry can have", place);
        row[column] = (uint32_t)number;
    }
    if (row[SEAL] != sealed(book->seal, row[PLACE], row[UNIT], row[NUMBER], row[COUNT]))
        return no_book(book, "entry %u was changed", place);
    if (oatlantern_tally_enter(book->words, row[UNIT], row[NUMBER], row[COUNT]) != 0)
        return no_book(book, "entry %u has a key that entry %u holds", place, (unsigned)holder(book, row[UNIT], row[NUMBER]));
    book->kept = place;
    book->seal = row[SEAL];
    return WELL;
}

static int judged_entries(struct book *book)
{
    sqlite3_stmt *statement;
    int row;
    int status = prepared(book, "SELECT place, unit, number, count, seal FROM entries ORDER BY place", &statement);

    if (status != WELL)
        return status;
    while ((status = stepped(book, statement, &row)) == WELL && row)
        if ((status = replayed(book, statement)) != WELL)
            break;
    return finished(book, statement, status);
}

/*
 * Whether every page of the file is in its place. Asked twice, for where there
 * is a view SQLite 3.40 leaves the free pages out of the check of all tables.
 */
static int judged_pages(const struct book *book)
{
    static const char *const CHECKS[] = {"PRAGMA quick_check(sqlite_schema)", "PRAGMA quick_check"};
    char text[256];
    int i, status = WELL;

    for (i = 0; i < 2 && status == WELL; i++) {
        status = answered(book, CHECKS[i], text, sizeof text);
        if (status == WELL && strcmp(text, "ok") != 0)
            status = no_book(book, "%s", text);
    }
    return status;
}

/* The entries before the pages, so that what is wrong with an entry is said with its place. */
static int judged(struct book *book)
{
    int status = judged_header(book);

    if (status == WELL)
        status = judged_schema(book);
    if (status == WELL)
        status = judged_entries(book);
    return status == WELL ? judged_pages(book) : status;
}

/* ---- The file, before SQLite has it ---- */

int book_is_there(const char *name, int *there)
{
    struct stat found;

    *there = stat(name, &found) == 0;
    return *there || errno == ENOENT ? WELL : failed(shown(name), errno);
}

/* Whether a file of SQLite's stands beside a book. */
static int is_beside(const char *path, const char *suffix)
{
    char beside[PATH_MAX + 16];
    struct stat found;

    (void)snprintf(beside, sizeof beside, "%s%s", path, suffix);
    return lstat(beside, &found) == 0;
}

/* The longest path that SQLite takes, without what it puts behind it. Of a longer one it would not say why. */
static size_t longest_path(void)
{
    const sqlite3_vfs *vfs = sqlite3_vfs_find(NULL);

    return vfs == NULL ? 0 : (size_t)vfs->mxPathname - strlen("-journal");
}

/*
 * The whole path of a file that is there, or may be made: one that SQLite takes
 * for nothing but a path, with every link followed, for the journal stands
 * beside the file itself.
 */
static int whole_path(const char *name, char path[PATH_MAX])
{
    char folder[PATH_MAX];
    const char *slash = strrchr(name, '/');
    const char *base = slash == NULL ? name : slash + 1;
    int length = slash == NULL ? 1 : slash == name ? 1 : (int)(slash - name);

    if (realpath(name, path) == NULL) {
        if (errno != ENOENT || *base == '\0')
            return failed(shown(name), errno);
        (void)snprintf(folder, sizeof folder, "%.*s", length, slash == NULL ? "." : name);
        if (realpath(folder, path) == NULL)
            return failed(shown(name), errno);
        if (strlen(path) + strlen(base) + 2 > PATH_MAX)
            return failed(shown(name), ENAMETOOLONG);
        (void)snprintf(path + strlen(path), PATH_MAX - strlen(path), "/%s", base);
    }
    return strlen(path) <= longest_path() ? WELL : failed(shown(name), ENAMETOOLONG);
}

/* SQLite's file format: what the first bytes of a file say. */
enum { HEADER_BYTES = 100, FORMAT_AT = 18, APPLICATION_AT = 68 };
static const char MAGIC[16] = "SQLite format 3";

static int first_bytes(const struct book *book, const char *path, int access, uint8_t header[HEADER_BYTES], size_t *length)
{
    int file = open(path, access);
    int error = file < 0 ? errno : read_up_to(file, HEADER_BYTES, header, length);

    if (file >= 0)
        (void)close(file);
    return error == 0 ? WELL : failed(shown(book->name), error);
}

/*
 * Looks at a file before SQLite does, which would write to some that are no
 * books: where a write-ahead log stands beside one, it would be written back.
 * Where a crash left a journal the file may be half written, and SQLite has to
 * roll it back before it can be judged. It is closed again before SQLite opens
 * it: closing it later would give up SQLite's locks.
 */
static int looked_at(const struct book *book, const char *path, enum purpose purpose)
{
    uint8_t header[HEADER_BYTES];
    struct stat found;
    size_t length;
    int status;

    if (stat(path, &found) != 0)
        return failed(shown(book->name), errno);
    if (!S_ISREG(found.st_mode))
        return no_book(book, S_ISDIR(found.st_mode) ? "it is a directory" : "it is no regular file");
    status = first_bytes(book, path, purpose == ENTERING ? O_RDWR : O_RDONLY, header, &length);
    if (status != WELL)
        return status;
    if (length == 0)
        return no_book(book, "it is empty");
    if (is_beside(path, "-wal"))
        return no_book(book, "a write-ahead log stands beside it");
    if (is_beside(path, "-journal"))
        return WELL;
    if (length < sizeof MAGIC || memcmp(header, MAGIC, sizeof MAGIC) != 0)
        return no_book(book, "it is no SQLite database");
    if (length < HEADER_BYTES)
        return no_book(book, "it is cut short");
    if (memcmp(header + APPLICATION_AT, "OATL", 4) != 0)
        return no_book(book, "another program's database");
    if (header[FORMAT_AT] != 1 || header[FORMAT_AT + 1] != 1)
        return no_book(book, "its journal is not of a book's kind");
    return WELL;
}

/* ---- Opening and making ---- */

/* What is written is on the disk before it is told: the file, the journal, and that the journal is gone. */
static int connected(struct book *book, const char *path)
{
    int result = sqlite3_open_v2(path, &book->database, SQLITE_OPEN_READWRITE | SQLITE_OPEN_EXRESCODE, NULL);
    int status, extra;

    if (book->database == NULL)
        return failed(shown(book->name), ENOMEM);
    if (result == SQLITE_OK)
        result = sqlite3_busy_timeout(book->database, 1000 * WAIT_SECONDS);
    if (result != SQLITE_OK)
        return said(book, result);
    status = done(book, "PRAGMA trusted_schema=OFF; PRAGMA cell_size_check=ON; PRAGMA fullfsync=ON; PRAGMA synchronous=EXTRA");
    if (status == WELL)
        status = is_number(book, "PRAGMA synchronous", 3, &extra);
    if (status == WELL && !extra) {
        say("%s: this SQLite cannot sync as a book needs it", shown(book->name));
        status = FAILED;
    }
    return status;
}

/* Ends a transaction and closes; answers SQLite's result. What cannot be rolled back now is when the file is opened next. */
static int let_go(struct book *book)
{
    int result = SQLITE_OK, closed;

    if (book->database == NULL)
        return SQLITE_OK;
    if (!sqlite3_get_autocommit(book->database))
        result = sqlite3_exec(book->database, "ROLLBACK", NULL, NULL, NULL);
    closed = sqlite3_close(book->database);
    book->database = NULL;
    return result == SQLITE_OK ? closed : result;
}

/* Writes an empty book into an empty file. */
static int laid_out(struct book *book, const char *path)
{
    char sql[1024];
    int status = connected(book, path);
    int result;

    (void)snprintf(sql, sizeof sql, "BEGIN IMMEDIATE; PRAGMA application_id=%d; PRAGMA user_version=%d; %s; %s; COMMIT",
                   APPLICATION, VERSION, SCHEMA[0].sql, SCHEMA[1].sql);
    if (status == WELL)
        status = done(book, sql);
    result = let_go(book);
    if (status == WELL && result != SQLITE_OK) {
        say("%s: %s", shown(book->name), sqlite3_errstr(result));
        status = FAILED;
    }
    return status;
}

/* A new empty file of another name, which is put into `path`, in the folder of the book. */
static int another_name(const struct book *book, const char *whole, char path[PATH_MAX])
{
    int file, n;

    for (n = 1; n <= 1000; n++) {
        int length = snprintf(path, PATH_MAX, "%s.new-%ld-%d", whole, (long)getpid(), n);

        if (length < 0 || (size_t)length > longest_path())
            return failed(shown(book->name), ENAMETOOLONG);
        file = open(path, O_RDWR | O_CREAT | O_EXCL, 0666);
        if (file >= 0)
            return close(file) == 0 ? WELL : failed(shown(book->name), errno);
        if (errno != EEXIST)
            break;
    }
    return failed(shown(book->name), errno);
}

/* That a book has its name is on the disk too. */
static int synced_folder(const struct book *book, const char *path)
{
    char folder[PATH_MAX];
    int length = (int)(strrchr(path, '/') - path);
    int file, error = 0;

    (void)snprintf(folder, sizeof folder, "%.*s", length == 0 ? 1 : length, path);
    file = open(folder, O_RDONLY | O_DIRECTORY);
    if (file < 0 || fsync(file) != 0)
        error = errno;
    if (file >= 0)
        (void)close(file);
    return error == 0 ? WELL : failed(shown(book->name), error);
}

/*
 * Makes an empty book where there is none: whole under another name, and then
 * it gets its own, so that a book is never half made. Where somebody else has
 * made one meanwhile, that one stays.
 */
static int made(struct book *book, const char *whole)
{
    char path[PATH_MAX];
    int there, status;

    if (is_beside(whole, "-journal") || is_beside(whole, "-wal")) {
        status = book_is_there(book->name, &there);
        if (status != WELL || there)
            return status;
        say("%s: a journal is there without its book, and would spoil a new one", shown(book->name));
        return FAILED;
    }
    status = another_name(book, whole, path);
    if (status != WELL)
        return status;
    status = laid_out(book, path);
    if (status == WELL && link(path, whole) != 0 && errno != EEXIST)
        status = failed(shown(book->name), errno);
    if (unlink(path) != 0 && status == WELL)
        status = failed(shown(book->name), errno);
    return status == WELL ? synced_folder(book, whole) : status;
}

int book_open(struct book *book, const char *name, enum purpose purpose)
{
    char path[PATH_MAX];
    int there;
    int status = book_is_there(name, &there);

    memset(book, 0, sizeof *book);
    book->name = name;
    if (status == WELL && !there && purpose == ASKING)
        status = failed(shown(name), ENOENT);
    if (status == WELL)
        status = whole_path(name, path);
    if (status == WELL && !there)
        status = made(book, path);
    if (status == WELL)
        status = looked_at(book, path, purpose);
    if (status == WELL)
        status = connected(book, path);
    if (status == WELL)
        status = done(book, purpose == ENTERING ? "BEGIN IMMEDIATE" : "BEGIN");
    if (status == WELL)
        status = judged(book);
    if (status != WELL)
        (void)let_go(book);
    return status;
}

/* ---- Writing and closing ---- */

/* Inserts the next entry of the array, as the archive laid it there. */
static int inserted(struct book *book, sqlite3_stmt *statement)
{
    uint32_t unit = oatlantern_tally_unit(book->words, book->kept);
    uint32_t number = oatlantern_tally_number(book->words, book->kept);
    uint32_t count = oatlantern_tally_count(book->words, book->kept);
    uint32_t place = book->kept + 1;
    const uint32_t row[] = {place, unit, number, count, sealed(book->seal, place, unit, number, count)};
    int column, more, status;
    int result = SQLITE_OK;

    for (column = 0; column < 5 && result == SQLITE_OK; column++)
        result = sqlite3_bind_int64(statement, column + 1, row[column]);
    if (result != SQLITE_OK)
        return said(book, result);
    status = stepped(book, statement, &more);
    if (status != WELL)
        return status;
    result = sqlite3_reset(statement);
    book->kept = place;
    book->seal = row[4];
    return result == SQLITE_OK ? WELL : said(book, result);
}

static int committed(const struct book *book)
{
    int result = sqlite3_exec(book->database, "COMMIT", NULL, NULL, NULL);
    int kind = result & 0xff;

    if (result == SQLITE_OK)
        return WELL;
    /* these come before the journal is removed, and only that makes it hold */
    if (kind == SQLITE_BUSY || kind == SQLITE_FULL || result == SQLITE_IOERR_WRITE)
        return said(book, result);
    say("%s: %s; whether it was entered is not known: ask held", shown(book->name), words_of(book, result));
    return FAILED;
}

int book_keep(struct book *book)
{
    sqlite3_stmt *statement;
    int status = prepared(book, "INSERT INTO entries(place, unit, number, count, seal) VALUES(?, ?, ?, ?, ?)", &statement);

    if (status != WELL)
        return status;
    while (status == WELL && book->kept < oatlantern_tally_entries(book->words))
        status = inserted(book, statement);
    status = finished(book, statement, status);
    return status == WELL ? committed(book) : status;
}

int book_close(struct book *book)
{
    int result = let_go(book);

    if (result == SQLITE_OK)
        return WELL;
    say("%s: %s", shown(book->name), sqlite3_errstr(result));
    return FAILED;
}
