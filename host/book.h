/*
 * A tally book in a file, kept by SQLite so that it is there after a crash. A
 * file is judged whole before anything in it is used, in the same transaction.
 * What goes into a book is decided by the functions of the archive, on `words`.
 */
#ifndef BOOK_H
#define BOOK_H

#include <stdint.h>

#include "oatlantern.h"

/* How long one program waits for another that has the book. */
#define WAIT_SECONDS 10

enum purpose {
    ASKING,  /* nothing is written; the book has to be there */
    ENTERING /* no other program writes meanwhile; where there is no book an empty one is made */
};

struct sqlite3;

struct book {
    uint32_t words[OATLANTERN_BOOK_WORDS]; /* the entries, as the archive's functions have them */
    uint32_t kept;                         /* how many of them the file has */
    uint32_t seal;                         /* the seal of the last of these */
    const char *name;                      /* as it was given, for what is said */
    struct sqlite3 *database;
};

/*
 * Every function answers a status: WELL, REFUSED where the file is no book, or
 * FAILED, and has said the one line of it.
 */

/* Whether there is something of that name: *there is 1 or 0. */
int book_is_there(const char *name, int *there);

/* Opens a book, begins a transaction, judges all of the file and lays its entries into `words`. If not WELL, it is closed. */
int book_open(struct book *book, const char *name, enum purpose purpose);

/* Puts what `words` has and the file has not into the file: all of it or nothing. WELL: it is there from now on. */
int book_keep(struct book *book);

/* Ends the transaction and closes the file. What was not kept is not in it. */
int book_close(struct book *book);

#endif
