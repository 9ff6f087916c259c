/*
 * See widen.h. Of the old book only the length is looked at. What the new one holds is what the old one holds, byte for
 * byte, but for a 0 before each label: so intake of the new one refuses exactly what the old intake refused, by the
 * same number.
 */
#define _XOPEN_SOURCE 700

#include "widen.h"

#include "message.h"
#include "place.h"
#include "scalebench.h"
#include "upkeep.h"

#include <errno.h>
#include <fcntl.h>
#include <string.h>
#include <unistd.h>

/* The bytes before the lines of a table, the lines that it has room for, and the bytes of a line, old and new. */
enum { HEAD = 203, LINES = 1024, OLD_LINE = 11, LINE = 12 };

_Static_assert(HEAD + LINES * OLD_LINE == OLD_TABLE_BYTES, "lines of the old width");
_Static_assert(HEAD + LINES * LINE == SCALEBENCH_TABLE_BYTES, "lines of this width");

static void widen(const uint8_t *old, uint8_t *table)
{
    memcpy(table, old, HEAD);
    for (size_t i = 0; i < LINES; i++) {
        table[HEAD + LINE * i] = 0;
        memcpy(table + HEAD + LINE * i + 1, old + HEAD + OLD_LINE * i, OLD_LINE);
    }
}

/* The bytes of a file, at most so many; their number, or -1 if that fails, which is reported. */
static ssize_t read_whole(const char *path, uint8_t *bytes, size_t room)
{
    struct place place;
    if (!place_find(&place, path, 0))
        return -1;
    int file = place_open(&place, O_RDONLY);
    ssize_t length = file < 0 ? -1 : place_read(file, bytes, room);
    if (length < 0)
        complain(file < 0 ? "cannot open" : "cannot read", path, "%s", strerror(errno));
    if (file >= 0)
        close(file);
    place_leave(&place);
    return length;
}

enum status widen_book(const char *old, const char *path)
{
    static uint8_t bytes[OLD_TABLE_BYTES + 1], table[SCALEBENCH_TABLE_BYTES]; /* one more, to notice a longer file */
    ssize_t length = read_whole(old, bytes, sizeof bytes);
    if (length < 0)
        return STATUS_BOOK;
    if (length != OLD_TABLE_BYTES) {
        complain("cannot widen", old, "it is not %d bytes long, as books of the old width are", OLD_TABLE_BYTES);
        return STATUS_BOOK;
    }
    widen(bytes, table);
    unsigned refusal = scalebench_refusal(scalebench_intake(table, sizeof table));
    if (refusal) {
        complain("cannot widen", old, "it is damaged (%u): %s", refusal, scalebench_reason(refusal));
        return STATUS_BOOK;
    }
    return put_new("cannot widen to", path, table);
}
