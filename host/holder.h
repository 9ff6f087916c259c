/* Who has a file locked. */
#ifndef HOLDER_H
#define HOLDER_H

enum { HOLDER_TEXT = 256 };

/* " (process 1234, NAME)" for a process that has the file locked, or "" if the system does not say. */
const char *holder_text(int file, char *text);

#endif
