/* Malformed lines in words. */
#ifndef FORM_H
#define FORM_H

#include <stddef.h>
#include <stdint.h>

enum { FORM_TEXT = 64 };

/*
 * What is expected at the column from which on a line is malformed. All before it is the start of some well-formed
 * line. With `alone` the line is one that asks for an assembly, which stands there without the bracket that closes the
 * line.
 */
const char *expected(const uint8_t *line, size_t length, size_t column, int alone, char *text);

#endif
