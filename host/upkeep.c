/* See upkeep.h. */
#define _XOPEN_SOURCE 700

#include "upkeep.h"

#include "message.h"
#include "output.h"
#include "save.h"
#include "widen.h"

#include <errno.h>
#include <stdio.h>
#include <string.h>
#include <unistd.h>

enum status check_book(struct book *book, const char *path, int quiet)
{
    unsigned refusal;
    enum status status = book_look(book, path, &refusal);
    if (status != STATUS_FINE)
        return status;
    if (refusal && book->old) {
        output(quiet, "%s is " OLD_WORDS "\n", shown(path));
        return written() ? STATUS_BOOK : STATUS_FAILED;
    }
    if (refusal) {
        output(quiet, "%s is damaged (%u): %s\n", shown(path), refusal, scalebench_reason(refusal));
        return written() ? STATUS_BOOK : STATUS_FAILED;
    }
    uint64_t answer = scalebench_intake(book->table, sizeof book->table);
    unsigned states = scalebench_states(answer), transitions = scalebench_transitions(answer);
    output(quiet, "%s is sound: %u state%s, %u transition%s\n", shown(path), states, plural(states), transitions,
           plural(transitions));
    return written() ? STATUS_FINE : STATUS_FAILED;
}

enum status back_up(struct book *book, const char *path, const char *copy)
{
    enum status status = book_open(book, path, 0, 0);
    return status != STATUS_FINE ? status : put_new("cannot back up to", copy, book->table);
}

enum status restore(struct book *book, const char *path, const char *copy, int how, unsigned wait)
{
    static struct book from;
    enum status status = book_open(&from, copy, 0, 0);
    if (status == STATUS_FINE)
        status = book_replace(book, path, how, wait, from.table);
    book_close(&from);
    return status;
}

enum status put_new(const char *doing, const char *path, const uint8_t *table)
{
    struct place place;
    struct stat existing;
    if (lstat(path, &existing) == 0) {
        complain(doing, path, "it exists already");
        return STATUS_FAILED;
    }
    if (!place_find(&place, path, PLACE_NEW))
        return STATUS_FAILED;
    int file = save_new(&place, 0600, table);
    if (file < 0) {
        complain(doing, path, "%s", strerror(errno));
    } else {
        close(file);
        remove_strays(place.folder);
    }
    place_leave(&place);
    return file < 0 ? STATUS_FAILED : STATUS_FINE;
}
