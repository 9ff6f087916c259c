/* What the host prints on standard output. */
#ifndef OUTPUT_H
#define OUTPUT_H

/* Prints, unless the host is quiet. */
void output(int quiet, const char *format, ...) __attribute__((format(printf, 2, 3)));

/* The end of a noun after its number. */
const char *plural(unsigned long count);

/* Whether all that was printed is written; if not, that is reported. */
int written(void);

#endif
