/* Lines of text carried out on a book, and printed as the bench program prints them. */
#ifndef COMMANDS_H
#define COMMANDS_H

#include "book.h"

#include <stdio.h>

struct session {
    struct book *book;
    int dry_run; /* changes stay in memory */
    int batch;   /* changes stay in memory until all are saved at once */
    int quiet;   /* nothing is printed on standard output */
};

/*
 * Carries out one line, every line of an input, or every line of an input as one change, for which all of it is read
 * first, and prints what came of each, then the end line. Reasons go to standard error. What is printed as done is in
 * the file, except in a dry run.
 */
enum status carry_out_line(const struct session *session, const char *line);
enum status carry_out_all(const struct session *session, FILE *input);
enum status carry_out_batch(const struct session *session, FILE *input);

#endif
