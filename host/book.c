/*
 * See book.h. The lock is on the book's own file. A save puts another file in its place, which is locked before it
 * gets there. Whoever gets the lock of a file looks whether the book's name still stands for that file, and if not
 * tries again. So there is no lock file that could be deleted, planted or left. A file in the book's place is never
 * written again, so that a reader needs no lock.
 */
#define _GNU_SOURCE

#include "book.h"

#include "holder.h"
#include "interrupt.h"
#include "message.h"
#include "save.h"
#include "widen.h"

#include <errno.h>
#include <fcntl.h>
#include <string.h>
#include <sys/file.h>
#include <time.h>
#include <unistd.h>

static int same_time(const struct timespec *one, const struct timespec *other)
{
    return one->tv_sec == other->tv_sec && one->tv_nsec == other->tv_nsec;
}

/* Whether two looks are at one file with the same bytes. Times reveal a program that wrote into the file itself. */
static int unchanged(const struct stat *one, const struct stat *other)
{
    return one->st_dev == other->st_dev && one->st_ino == other->st_ino && one->st_size == other->st_size &&
           same_time(&one->st_mtim, &other->st_mtim) && same_time(&one->st_ctim, &other->st_ctim);
}

/* From here on the book is this file. */
static void hold(struct book *book, int file)
{
    if (book->file >= 0)
        close(book->file);
    book->file = file;
}

/* Makes this file the book's and reads it; `refusal` is intake's. */
static enum status read_file(struct book *book, int file, unsigned *refusal)
{
    uint8_t bytes[SCALEBENCH_TABLE_BYTES + 1]; /* one more, so that a longer file is noticed */
    ssize_t length = fstat(file, &book->seen) < 0 ? -1 : place_read(file, bytes, sizeof bytes);
    hold(book, file);
    if (length < 0) {
        complain("cannot read", book->place.path, "%s", strerror(errno));
        return STATUS_BOOK;
    }
    book->old = length == OLD_TABLE_BYTES;
    *refusal = scalebench_refusal(scalebench_intake(bytes, (size_t)length));
    if (!*refusal)
        memcpy(book->table, bytes, sizeof book->table);
    return STATUS_FINE;
}

static enum status take_in(struct book *book, int file)
{
    unsigned refusal;
    enum status status = read_file(book, file, &refusal);
    if (status != STATUS_FINE || !refusal)
        return status;
    if (book->old)
        complain("cannot use", book->place.path, "it is " OLD_WORDS);
    else
        complain("cannot use", book->place.path, "it is damaged (%u): %s", refusal, scalebench_reason(refusal));
    return STATUS_BOOK;
}

static enum status cannot_open(const struct book *book)
{
    complain("cannot open", book->place.path, "%s", strerror(errno));
    return STATUS_BOOK;
}

/* A book with the table where there is none; fine as well if another host is faster. */
static enum status begin(struct book *book)
{
    mode_t mask = umask(0);
    umask(mask);
    int file = save_new(&book->place, 0666 & ~mask, book->table);
    if (file >= 0) {
        fstat(file, &book->seen);
        hold(book, file);
        book_release(book);
    } else if (errno != EEXIST) {
        complain("cannot begin", book->place.path, "%s", strerror(errno));
        return STATUS_FAILED;
    }
    return STATUS_FINE;
}

static int place_how(int how)
{
    return (how & BOOK_NEW ? PLACE_NEW : 0) | (how & BOOK_ADVISE ? PLACE_ADVISE : 0);
}

enum status book_open(struct book *book, const char *path, int how, unsigned wait)
{
    *book = (struct book){.file = -1, .wait = wait};
    if (!place_find(&book->place, path, place_how(how)))
        return STATUS_BOOK;
    int file = place_open(&book->place, O_RDONLY);
    if (file < 0 && errno == ENOENT && how & BOOK_NEW) {
        enum status status = how & BOOK_TRY ? STATUS_FINE : begin(book);
        interrupts_pass(); /* an empty book is no change to be reported */
        if (status != STATUS_FINE || how & BOOK_TRY || book->file >= 0)
            return status;
        file = place_open(&book->place, O_RDONLY);
    }
    return file < 0 ? cannot_open(book) : take_in(book, file);
}

enum status book_look(struct book *book, const char *path, unsigned *refusal)
{
    *book = (struct book){.file = -1};
    if (!place_find(&book->place, path, 0))
        return STATUS_BOOK;
    int file = place_open(&book->place, O_RDONLY);
    return file < 0 ? cannot_open(book) : read_file(book, file, refusal);
}

enum status book_refresh(struct book *book)
{
    struct stat now;
    if (fstatat(book->place.folder, book->place.name, &now, AT_SYMLINK_NOFOLLOW) == 0 &&
        unchanged(&now, &book->seen))
        return STATUS_FINE;
    int file = place_open(&book->place, O_RDONLY);
    return file < 0 ? cannot_open(book) : take_in(book, file);
}

static double seconds(void)
{
    struct timespec now;
    clock_gettime(CLOCK_MONOTONIC, &now);
    return (double)now.tv_sec + (double)now.tv_nsec / 1e9;
}

/* The file is not locked, because of an error or if there is none because another program has it. */
static int no_lock(const struct book *book, int file, int error)
{
    char holder[HOLDER_TEXT];
    if (error)
        complain("cannot lock", book->place.path, "%s", strerror(error));
    else
        complain("cannot change", book->place.path, "another program has it%s", holder_text(file, holder));
    close(file);
    return -1;
}

/*
 * The book's file, open for writing and locked, or -1 and the status. A host keeps the lock for the time of a save, so
 * a wait looks again often.
 */
static int open_locked(const struct book *book, enum status *status)
{
    const struct timespec moment = {0, 1000000};
    double end = seconds() + book->wait;
    *status = STATUS_BOOK;
    for (;;) {
        int file = place_open(&book->place, O_RDWR);
        if (file < 0) {
            complain("cannot change", book->place.path, "%s", strerror(errno));
            return -1;
        }
        int locked = flock(file, LOCK_EX | LOCK_NB) == 0, error = errno;
        if (locked && place_holds(&book->place, file))
            return file;
        if (!locked && error != EWOULDBLOCK && error != EINTR)
            return no_lock(book, file, error);
        if (!locked && seconds() >= end) {
            *status = STATUS_BUSY;
            return no_lock(book, file, 0);
        }
        close(file);
        if (!locked)
            nanosleep(&moment, NULL);
    }
}

/* Whether the locked file may be replaced. Root may write any file, but one that nobody may write is meant to stay. */
static int changeable(const struct book *book, int file)
{
    struct stat status;
    const char *reason = NULL;
    remove_second_names(book->place.folder, file);
    if (fstat(file, &status) < 0)
        reason = strerror(errno);
    else if ((status.st_mode & 0222) == 0)
        reason = "nobody may write it";
    else if (status.st_nlink > 1)
        reason = "it has a second name (hard link), which would keep the old book";
    if (reason)
        complain("cannot change", book->place.path, "%s", reason);
    return !reason;
}

/* The book's file, locked, if it may be replaced; otherwise -1 and the status. */
static int lock(struct book *book, enum status *status)
{
    /* Before the lock, so that nobody waits for it. */
    if (!book->locked_before)
        remove_strays(book->place.folder);
    book->locked_before = 1;
    int file = open_locked(book, status);
    if (file < 0 || changeable(book, file))
        return file;
    close(file);
    *status = STATUS_BOOK;
    return -1;
}

enum status book_lock(struct book *book)
{
    const struct timespec moment = {0, 100000};
    struct stat now;
    enum status status;
    /* A host that makes one change after another leaves the book alone for a moment, so that others get their turn. */
    if (book->locked_before)
        nanosleep(&moment, NULL);
    int file = lock(book, &status);
    if (file < 0)
        return status;
    if (fstat(file, &now) < 0 || !unchanged(&now, &book->seen))
        return take_in(book, file);
    hold(book, file);
    return STATUS_FINE;
}

void book_release(struct book *book)
{
    flock(book->file, LOCK_UN);
}

static const char *save_reason(int error)
{
    if (error == ESTALE)
        return "another program has put another file in its place";
    if (error == ECANCELED)
        return "its permissions change meanwhile or cannot be kept";
    return strerror(error);
}

enum status book_save(struct book *book)
{
    int file = save_over(&book->place, book->file, book->table), error = errno;
    if (file < 0) {
        complain("cannot save", book->place.path, "%s", save_reason(error));
        return STATUS_FAILED;
    }
    fstat(file, &book->seen);
    hold(book, file);
    return STATUS_FINE;
}

enum status book_replace(struct book *book, const char *path, int how, unsigned wait, const uint8_t *table)
{
    enum status status = STATUS_FINE;
    *book = (struct book){.file = -1, .wait = wait};
    memcpy(book->table, table, sizeof book->table);
    if (!place_find(&book->place, path, place_how(how)))
        return STATUS_BOOK;
    if (how & BOOK_NEW && faccessat(book->place.folder, book->place.name, F_OK, AT_SYMLINK_NOFOLLOW) < 0)
        status = begin(book);
    if (status != STATUS_FINE || book->file >= 0)
        return status;
    int file = lock(book, &status);
    if (file < 0)
        return status;
    hold(book, file);
    return book_save(book);
}

void book_close(struct book *book)
{
    if (book->file >= 0)
        close(book->file);
    place_leave(&book->place);
}
