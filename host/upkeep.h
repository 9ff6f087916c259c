/* What is done with a book as a whole. */
#ifndef UPKEEP_H
#define UPKEEP_H

#include "book.h"

/* Prints whether the book is sound, and if not which condition it breaks. */
enum status check_book(struct book *book, const char *path, int quiet);

/* Copies the book, as it is at one moment, to a file that does not exist. */
enum status back_up(struct book *book, const char *path, const char *copy);

/* Puts a copy, which must be sound, into the book, whose rights stay as in a change. */
enum status restore(struct book *book, const char *path, const char *copy, int how, unsigned wait);

/*
 * Puts a table into a file that does not exist; messages begin with `doing`. The file is private whatever the table is
 * from: who may read that is not known to be who may read the new file's folder.
 */
enum status put_new(const char *doing, const char *path, const uint8_t *table);

#endif
