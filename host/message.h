/* What the host writes to standard error: one line each, with the line of the input that it is about. */
#ifndef MESSAGE_H
#define MESSAGE_H

/* The line of the input that the messages from here on are about; 0 if they are about none. */
void message_line(unsigned long number);

/* A message WHAT NAME: WHY. */
void complain(const char *what, const char *name, const char *why, ...) __attribute__((format(printf, 3, 4)));

/* A message that names no file. */
void explain(const char *why, ...) __attribute__((format(printf, 1, 2)));

/* The reason of an answer, unless the host is quiet: then the answer is all that is asked for. */
void give_reason(const char *why, ...) __attribute__((format(printf, 1, 2)));

/* From here on no reasons are given. */
void message_quiet(void);

/*
 * The name, with every byte that is no part of a printable character written as \xNN. So are characters that turn the
 * direction of text or take no room, and the backslash, so that two names do not look alike. A name longer than some
 * thousand bytes is cut. It stands until the next name is shown.
 */
const char *shown(const char *name);

/* Shows how much is done, over what was shown before. The next message or the end of the count ends the line. */
void show_count(const char *count, ...) __attribute__((format(printf, 1, 2)));
void end_count(void);

#endif
