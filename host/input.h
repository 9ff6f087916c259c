/* The lines of an input: read one by one as they come, or all before the first is used. */
#ifndef INPUT_H
#define INPUT_H

#include <stddef.h>
#include <stdint.h>
#include <stdio.h>

struct input {
    FILE *file;
    uint8_t *bytes; /* the lines that were read ahead, each with its end; NULL if none were */
    size_t length, next;
    int error; /* errno if reading failed before the end of the input */
};

/* Reads all lines; of a line that is too long only as many bytes are kept as show that it is. */
void input_read_ahead(struct input *input);

/* The next line without its end, cut as above, in a buffer of SCALEBENCH_LINE_BYTES + 1; false if none is left. */
int input_line(struct input *input, uint8_t *line, size_t *length);

void input_close(struct input *input);

#endif
