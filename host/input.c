/* See input.h. */
#define _XOPEN_SOURCE 700

#include "input.h"

#include "scalebench.h"

#include <errno.h>
#include <stdlib.h>
#include <string.h>

static int next_byte(struct input *input)
{
    if (input->bytes)
        return input->next < input->length ? input->bytes[input->next++] : EOF;
    int byte = getc(input->file);
    if (byte == EOF && ferror(input->file))
        input->error = errno;
    return byte;
}

int input_line(struct input *input, uint8_t *line, size_t *length)
{
    int byte = next_byte(input);
    *length = 0;
    if (byte == EOF)
        return 0;
    for (; byte != '\n' && byte != EOF; byte = next_byte(input))
        if (*length <= SCALEBENCH_LINE_BYTES)
            line[(*length)++] = (uint8_t)byte;
    return 1;
}

/* Makes room for one more line; false if there is no memory. */
static int make_room(uint8_t **bytes, size_t *room, size_t length)
{
    if (*room - length > SCALEBENCH_LINE_BYTES + 1)
        return 1;
    uint8_t *more = realloc(*bytes, 2 * *room);
    if (!more)
        return 0;
    *bytes = more;
    *room *= 2;
    return 1;
}

void input_read_ahead(struct input *input)
{
    uint8_t line[SCALEBENCH_LINE_BYTES + 1];
    size_t length, used = 0, room = 65536;
    uint8_t *bytes = malloc(room);
    while (bytes && input_line(input, line, &length)) {
        if (!make_room(&bytes, &room, used)) {
            input->error = ENOMEM;
            break;
        }
        memcpy(bytes + used, line, length);
        used += length;
        bytes[used++] = '\n';
    }
    if (!bytes)
        input->error = ENOMEM;
    input->bytes = bytes;
    input->length = used;
}

void input_close(struct input *input)
{
    free(input->bytes);
    input->bytes = NULL;
}
