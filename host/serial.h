/* Serial numbers of the assemblies that a book approves. */
#ifndef SERIAL_H
#define SERIAL_H

#include "book.h"

/* Prints the number of an assembly, which is written in brackets, or why it has none. */
enum status print_number(struct book *book, const char *path, const char *tree, int quiet);

/* Prints the assembly that has a number, or why there is none. */
enum status print_tree(struct book *book, const char *path, uint64_t number, int quiet);

/* The numbers that are listed, the first and the last; `whole` if all that there are. */
struct range {
    uint64_t from, to;
    int whole;
};

/*
 * Prints a line (add TREE) for every assembly of the range, in the order of the numbers, of the book as it is at one
 * moment. Numbers of assemblies that no listing holds, and numbers that none has, are reported on standard error. An
 * interrupt ends the list after its last line is written and it is reported how far it came.
 */
enum status list_book(struct book *book, const char *path, const struct range *range, int quiet);

#endif
