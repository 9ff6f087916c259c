/* Where a file is: its folder, which is held open, and its name in it. */
#ifndef PLACE_H
#define PLACE_H

#include <stdint.h>
#include <sys/types.h>

struct place {
    const char *path; /* as it was given, for messages */
    char *name;
    int folder;
};

/* The file may be missing, but not its folder; the message of a missing file advises --new. */
enum { PLACE_NEW = 1, PLACE_ADVISE = 2 };

/*
 * Finds the place of a file; false if that fails, which is reported. A link is followed, because a save would replace
 * the link and not what it leads to; but not one that another user may have planted.
 */
int place_find(struct place *place, const char *path, int how);

/* Opens the file at the place; -1 with errno if that fails or it is no regular file. */
int place_open(const struct place *place, int flags);

/* Reads at most `room` bytes from the start of an open file; their number, or -1 with errno. */
ssize_t place_read(int file, uint8_t *bytes, size_t room);

/* Whether the name stands for this open file now. */
int place_holds(const struct place *place, int file);

/* Whether the folder can be brought to the disk, which needs permission to read it. */
int place_lasts(const struct place *place);

void place_leave(struct place *place);

#endif
