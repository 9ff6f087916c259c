/*
 * See save.h. A table is written to a draft: a file with a random name, made by nobody else, that only its writer may
 * read until it is whole. The writer holds a lock on its draft, so that the draft of a living host is never taken for
 * one that a killed host left; renamed to the book, the draft is the book, locked already.
 */
#define _GNU_SOURCE

#include "save.h"

#include "attributes.h"
#include "interrupt.h"

#include <dirent.h>
#include <errno.h>
#include <fcntl.h>
#include <stdio.h>
#include <string.h>
#include <sys/file.h>
#include <sys/random.h>
#include <sys/stat.h>
#include <unistd.h>

#define DRAFT_PREFIX ".scalebench-"

enum { RANDOM_BYTES = 16, PREFIX_LENGTH = sizeof DRAFT_PREFIX - 1, NAME_LENGTH = PREFIX_LENGTH + 2 * RANDOM_BYTES };

struct draft {
    char name[NAME_LENGTH + 1];
    int file;
};

/* Nobody else keeps a draft's lock, so that this wait is short. */
static int lock_draft(int file)
{
    int status;
    do
        status = flock(file, LOCK_EX);
    while (status < 0 && errno == EINTR);
    return status == 0;
}

static int name_draft(struct draft *draft)
{
    uint8_t random[RANDOM_BYTES];
    if (getrandom(random, sizeof random, 0) != (ssize_t)sizeof random)
        return 0;
    strcpy(draft->name, DRAFT_PREFIX);
    for (size_t i = 0; i < sizeof random; i++)
        snprintf(draft->name + PREFIX_LENGTH + 2 * i, 3, "%02x", random[i]);
    return 1;
}

/* Another host may have taken the draft for a stray in the moment before it was locked; then there is another one. */
static int begin_draft(struct draft *draft, int folder)
{
    struct stat status = {0};
    for (int tries = 0; tries < 100; tries++) {
        if (!name_draft(draft))
            return 0;
        draft->file = openat(folder, draft->name, O_RDWR | O_CREAT | O_EXCL | O_NOFOLLOW | O_CLOEXEC, 0600);
        if (draft->file < 0 && errno == EEXIST)
            continue;
        if (draft->file < 0)
            return 0;
        if (!lock_draft(draft->file) || fstat(draft->file, &status) < 0)
            return 0;
        if (status.st_nlink > 0)
            return 1;
        close(draft->file);
        draft->file = -1;
    }
    errno = EEXIST;
    return 0;
}

static int write_all(int file, const uint8_t *bytes, size_t length)
{
    while (length > 0) {
        ssize_t done = write(file, bytes, length);
        if (done < 0 && errno == EINTR)
            continue;
        if (done < 0)
            return 0;
        bytes += done;
        length -= (size_t)done;
    }
    return 1;
}

/* The look comes last, so that little time is left in which another program can change what was looked at. */
static int put_over(const struct draft *draft, const struct place *place, int old)
{
    if (!same_attributes(draft->file, old))
        return 0;
    if (!place_holds(place, old)) {
        errno = ESTALE;
        return 0;
    }
    return renameat(place->folder, draft->name, place->folder, place->name) == 0;
}

/* A whole draft, on the disk, in its place: over the file `old`, or if there is none with this mode. */
static int put_draft(struct draft *draft, const struct place *place, int old, mode_t mode, const uint8_t *table)
{
    if (!begin_draft(draft, place->folder) || !write_all(draft->file, table, SCALEBENCH_TABLE_BYTES))
        return 0;
    if (old >= 0 ? !copy_attributes(draft->file, old) : fchmod(draft->file, mode) < 0)
        return 0;
    if (fsync(draft->file) < 0)
        return 0;
    if (old >= 0)
        return put_over(draft, place, old);
    if (renameat2(place->folder, draft->name, place->folder, place->name, RENAME_NOREPLACE) == 0)
        return 1;
    /* Not every file system has that. A host killed between the next two steps leaves a stray, which is removed. */
    return (errno == EINVAL || errno == ENOSYS) &&
           linkat(place->folder, draft->name, place->folder, place->name, 0) == 0 &&
           unlinkat(place->folder, draft->name, 0) == 0;
}

static int save(const struct place *place, int old, mode_t mode, const uint8_t *table)
{
    struct draft draft = {.file = -1};
    interrupts_wait();
    if (!place_lasts(place)) {
        errno = EACCES;
        return -1;
    }
    if (put_draft(&draft, place, old, mode, table) && fsync(place->folder) == 0)
        return draft.file;
    int error = errno;
    if (draft.file >= 0) {
        unlinkat(place->folder, draft.name, 0);
        close(draft.file);
    }
    errno = error;
    return -1;
}

int save_over(const struct place *place, int old, const uint8_t *table)
{
    return save(place, old, 0, table);
}

int save_new(const struct place *place, mode_t mode, const uint8_t *table)
{
    return save(place, -1, mode, table);
}

static int is_draft(const char *name)
{
    return strlen(name) == NAME_LENGTH && strncmp(name, DRAFT_PREFIX, PREFIX_LENGTH) == 0 &&
           strspn(name + PREFIX_LENGTH, "0123456789abcdef") == 2 * RANDOM_BYTES;
}

/* So many names of a folder are read, and so many drafts looked at: anyone may fill a folder with them. */
enum { MOST_NAMES = 10000, MOST_DRAFTS = 100 };

/* What can be locked has no living writer. */
static int abandoned(int folder, const char *name)
{
    struct stat status;
    int file = openat(folder, name, O_RDONLY | O_NOFOLLOW | O_NONBLOCK | O_NOCTTY | O_CLOEXEC);
    if (file < 0)
        return 0;
    int left = fstat(file, &status) == 0 && S_ISREG(status.st_mode) && status.st_uid == geteuid() &&
               status.st_size <= SCALEBENCH_TABLE_BYTES && flock(file, LOCK_EX | LOCK_NB) == 0;
    close(file);
    return left;
}

static int names_file(int folder, const struct dirent *entry, const struct stat *file)
{
    struct stat status;
    return entry->d_ino == file->st_ino && fstatat(folder, entry->d_name, &status, AT_SYMLINK_NOFOLLOW) == 0 &&
           status.st_dev == file->st_dev && status.st_ino == file->st_ino;
}

/* Removes the drafts that are second names of a file, or if there is none those that are abandoned. */
static void remove_drafts(int folder, const struct stat *file)
{
    int copy = openat(folder, ".", O_RDONLY | O_DIRECTORY | O_CLOEXEC);
    DIR *entries = copy < 0 ? NULL : fdopendir(copy);
    const struct dirent *entry;
    int names = 0, drafts = 0;
    while (entries && names++ < MOST_NAMES && drafts < MOST_DRAFTS && (entry = readdir(entries))) {
        if (!is_draft(entry->d_name))
            continue;
        drafts += !file;
        if (file ? names_file(folder, entry, file) : abandoned(folder, entry->d_name))
            unlinkat(folder, entry->d_name, 0);
    }
    if (entries)
        closedir(entries);
    else if (copy >= 0)
        close(copy);
}

void remove_strays(int folder)
{
    remove_drafts(folder, NULL);
}

void remove_second_names(int folder, int locked)
{
    struct stat status;
    if (fstat(locked, &status) == 0 && status.st_nlink > 1)
        remove_drafts(folder, &status);
}
