/* Books from before labels of two bytes. */
#ifndef WIDEN_H
#define WIDEN_H

#include "status.h"

/* The length of such a book, by which it is told from others, and what is said of it. */
enum { OLD_TABLE_BYTES = 11467 };
#define OLD_WORDS "a book of the old width, with labels of one byte (--widen makes a new one of it)"

/*
 * Makes a book, which must not exist, of one of the old width. Each label keeps its number; the new book is taken in
 * before it is written, and what intake refuses is reported of the old one.
 */
enum status widen_book(const char *old, const char *path);

#endif
