/* A table kept in a file: taken in whole, saved whole, changed by one host at a time, read by any number. */
#ifndef BOOK_H
#define BOOK_H

#include "place.h"
#include "scalebench.h"
#include "status.h"

#include <sys/stat.h>

struct book {
    uint8_t table[SCALEBENCH_TABLE_BYTES];
    struct place place;
    int old;           /* what was read last has the length of a book from before labels of two bytes */
    int file;          /* the file that the table was read from or saved to; -1 if there is none */
    struct stat seen;  /* that file as it was then */
    unsigned wait;     /* how many seconds to wait for another host */
    int locked_before; /* by this host */
};

/*
 * A missing book is begun, as the empty table. The book is only tried: it is read once and not written. The message of
 * a missing book advises to begin it.
 */
enum { BOOK_NEW = 1, BOOK_TRY = 2, BOOK_ADVISE = 4 };

/* Opens the book at a path and takes it in. Whatever fails here and below is reported on standard error. */
enum status book_open(struct book *book, const char *path, int how, unsigned wait);

/* Opens the book and reads it; `refusal` is intake's, 0 if the table is sound, and is not reported. */
enum status book_look(struct book *book, const char *path, unsigned *refusal);

/* Takes in the book as it is now, if another program has saved it since. */
enum status book_refresh(struct book *book);

/* Takes in the book as it is now, and keeps other hosts from changing it until it is released. */
enum status book_lock(struct book *book);
void book_release(struct book *book);

/* Puts the table into the file of a locked book. Interrupts wait from then on, until the change is reported. */
enum status book_save(struct book *book);

/* Puts a sound table into the book at a path, whatever that holds, even if it is damaged; BOOK_NEW as above. */
enum status book_replace(struct book *book, const char *path, int how, unsigned wait, const uint8_t *table);

void book_close(struct book *book);

#endif
