/* See place.h. The folder stays open, so that all names mean the same folder throughout. */
#define _GNU_SOURCE

#include "place.h"

#include "message.h"

#include <errno.h>
#include <fcntl.h>
#include <limits.h>
#include <stdlib.h>
#include <string.h>
#include <sys/stat.h>
#include <unistd.h>

enum { MOST_LINKS = 40 };

static void close_place(struct place *place)
{
    if (place->folder >= 0)
        close(place->folder);
    free(place->name);
}

/*
 * Opens the folder of the last part of a path, which starts at the place's folder, and makes that part the name; false
 * with errno. A path that ends as a folder does is one. The path is changed.
 */
static int enter(struct place *place, char *path)
{
    char *slash = strrchr(path, '/');
    const char *name = slash ? slash + 1 : path;
    char *copy = strdup(slash && !*name ? "." : name);
    if (slash)
        slash[slash == path] = 0;
    int from = place->folder < 0 ? AT_FDCWD : place->folder;
    int folder = openat(from, slash ? path : ".", O_PATH | O_DIRECTORY | O_CLOEXEC), error = errno;
    close_place(place);
    place->folder = folder;
    place->name = copy;
    errno = copy ? error : ENOMEM;
    return copy && folder >= 0;
}

/*
 * Whoever may write a folder can put a link there that leads to a book of this user, who named another. So a link
 * belongs to this user, to root or to the owner of the folder, or the folder is one that only its owner may write.
 */
static int trusted(const struct place *place, const struct stat *link)
{
    struct stat folder;
    return link->st_uid == geteuid() || link->st_uid == 0 ||
           (fstat(place->folder, &folder) == 0 && (link->st_uid == folder.st_uid || (folder.st_mode & 022) == 0));
}

/*
 * Looks at what the name stands for: the path that a link has, in memory of its own, or NULL. Then `reason` is NULL if
 * it is a file, "" if it is missing, and otherwise says why it cannot be used.
 */
static char *look(const struct place *place, const char **reason)
{
    struct stat status;
    char target[PATH_MAX];
    ssize_t length = 0;
    /* The link is held, so that what is judged is what is read. */
    int file = openat(place->folder, place->name, O_PATH | O_NOFOLLOW | O_CLOEXEC);
    *reason = NULL;
    if (file < 0 || fstat(file, &status) < 0)
        *reason = errno == ENOENT ? "" : strerror(errno);
    else if (S_ISLNK(status.st_mode) && !trusted(place, &status))
        *reason = "it is a link of another user in a folder that others may write";
    else if (S_ISLNK(status.st_mode) && (length = readlinkat(file, "", target, sizeof target)) < 0)
        *reason = strerror(errno);
    else if (!S_ISLNK(status.st_mode) && !S_ISREG(status.st_mode))
        *reason = "it is not a file";
    if (file >= 0)
        close(file);
    return length > 0 ? strndup(target, (size_t)length) : NULL;
}

/* Follows the path to its end. The same reasons as of look; "" only of a name that no link leads to. */
static const char *follow(struct place *place, const char *path)
{
    const char *reason = strerror(ELOOP);
    char *rest = *path ? strdup(path) : NULL;
    if (!rest)
        return strerror(*path ? ENOMEM : ENOENT);
    for (int links = 0; rest && links <= MOST_LINKS; links++) {
        int entered = enter(place, rest);
        free(rest);
        rest = NULL;
        if (!entered)
            return strerror(errno);
        rest = look(place, &reason);
        if (reason && !*reason && links > 0)
            reason = strerror(ENOENT);
    }
    if (rest)
        reason = strerror(ELOOP);
    free(rest);
    return reason;
}

/* A folder that may be searched and not read is enough to ask of a book in it. */
static int open_folder(struct place *place)
{
    int folder = openat(place->folder, ".", O_RDONLY | O_DIRECTORY | O_CLOEXEC);
    if (folder < 0)
        return errno == EACCES;
    close(place->folder);
    place->folder = folder;
    return 1;
}

int place_find(struct place *place, const char *path, int how)
{
    *place = (struct place){.path = path, .folder = -1};
    const char *reason = follow(place, path);
    int missing = reason && !*reason;
    if (reason && !(missing && how & PLACE_NEW))
        complain("cannot open", path, "%s%s", missing ? strerror(ENOENT) : reason,
                 missing && how & PLACE_ADVISE ? " (--new begins a book)" : "");
    else if (!open_folder(place))
        complain("cannot open the folder of", path, "%s", strerror(errno));
    else
        return 1;
    place_leave(place);
    return 0;
}

int place_open(const struct place *place, int flags)
{
    struct stat status;
    /* Not blocking: a pipe that was put in the file's place must not hold the host up. */
    int file = openat(place->folder, place->name, flags | O_NOFOLLOW | O_NONBLOCK | O_NOCTTY | O_CLOEXEC);
    if (file < 0 || (fstat(file, &status) == 0 && S_ISREG(status.st_mode)))
        return file;
    close(file);
    errno = EINVAL;
    return -1;
}

ssize_t place_read(int file, uint8_t *bytes, size_t room)
{
    size_t length = 0;
    while (length < room) {
        ssize_t more = pread(file, bytes + length, room - length, (off_t)length);
        if (more < 0 && errno == EINTR)
            continue;
        if (more < 0)
            return -1;
        if (more == 0)
            break;
        length += (size_t)more;
    }
    return (ssize_t)length;
}

int place_holds(const struct place *place, int file)
{
    struct stat named, opened;
    return fstatat(place->folder, place->name, &named, AT_SYMLINK_NOFOLLOW) == 0 && fstat(file, &opened) == 0 &&
           named.st_dev == opened.st_dev && named.st_ino == opened.st_ino;
}

int place_lasts(const struct place *place)
{
    return (fcntl(place->folder, F_GETFL) & O_PATH) == 0;
}

void place_leave(struct place *place)
{
    close_place(place);
    *place = (struct place){.folder = -1};
}
