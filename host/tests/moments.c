/*
 * Linked into a host for tests, around the calls that a save makes. MOMENT=CALL:NUMBER:ACTION in the environment makes
 * something happen just before the call with this number: =ERROR lets the call fail with this errno, any other action
 * is a command for the shell. CALLS=FILE notes each call after it is made: its name, "book", "draft" or "-" for what it
 * was made on, and of an open file the mode and the permissions in the entries of its access list.
 */
#define _GNU_SOURCE

#include <errno.h>
#include <fcntl.h>
#include <stdio.h>
#include <stdlib.h>
#include <string.h>
#include <sys/stat.h>
#include <sys/types.h>
#include <sys/xattr.h>
#include <unistd.h>

/* Whether the call is to fail. */
static int moment(const char *call, int *count)
{
    const char *wanted = getenv("MOMENT");
    size_t length = strlen(call);
    char *action;
    ++*count;
    if (!wanted || strncmp(wanted, call, length) != 0 || wanted[length] != ':')
        return 0;
    if (strtol(wanted + length + 1, &action, 10) != *count || *action++ != ':')
        return 0;
    if (*action == '=') {
        errno = atoi(action + 1);
        return 1;
    }
    if (system(action) != 0)
        fprintf(stderr, "the command of a moment failed: %s\n", action);
    return 0;
}

/* "book", "draft" or "-": what the name of a file says of it. */
static const char *kind(const char *name)
{
    const char *slash = strrchr(name, '/');
    const char *last = slash ? slash + 1 : name;
    return strncmp(last, ".scalebench-", 12) == 0 ? "draft" : strcmp(last, "book") == 0 ? "book" : "-";
}

/* The call that was made on an open file, or if that is -1 on a name. */
static void note(const char *call, int file, const char *name)
{
    char link[64], path[4096] = "", list[1024];
    struct stat status;
    int error = errno;
    FILE *notes = getenv("CALLS") ? fopen(getenv("CALLS"), "a") : NULL;
    if (notes && file >= 0 && fstat(file, &status) == 0) {
        snprintf(link, sizeof link, "/proc/self/fd/%d", file);
        if (readlink(link, path, sizeof path - 1) < 0)
            path[0] = 0;
        ssize_t length = fgetxattr(file, "system.posix_acl_access", list, sizeof list);
        fprintf(notes, "%s %s %o ", call, kind(path), status.st_mode & 0777u);
        for (ssize_t entry = 4; entry + 8 <= length; entry += 8)
            fprintf(notes, "%d", list[entry + 2]);
        fputc('\n', notes);
    } else if (notes)
        fprintf(notes, "%s %s\n", call, name ? kind(name) : "-");
    if (notes)
        fclose(notes);
    errno = error;
}

#define AROUND(type, name, parameters, arguments, file, path) \
    type __real_##name parameters; \
    type __wrap_##name parameters; \
    type __wrap_##name parameters \
    { \
        static int count; \
        type result = moment(#name, &count) ? -1 : __real_##name arguments; \
        note(#name, file, path); \
        return result; \
    }

AROUND(int, flock, (int file, int how), (file, how), file, NULL)
AROUND(ssize_t, write, (int file, const void *bytes, size_t length), (file, bytes, length), file, NULL)
AROUND(int, fchmod, (int file, mode_t mode), (file, mode), file, NULL)
AROUND(int, fchown, (int file, uid_t owner, gid_t group), (file, owner, group), file, NULL)
AROUND(int, fremovexattr, (int file, const char *name), (file, name), file, NULL)
AROUND(int, fsetxattr, (int file, const char *name, const void *bytes, size_t length, int how),
       (file, name, bytes, length, how), file, NULL)
AROUND(int, fsync, (int file), (file), file, NULL)
AROUND(int, renameat, (int from, const char *old, int to, const char *name), (from, old, to, name), -1, old)
AROUND(int, renameat2, (int from, const char *old, int to, const char *name, unsigned how), (from, old, to, name, how),
       -1, old)
AROUND(int, linkat, (int from, const char *old, int to, const char *name, int how), (from, old, to, name, how), -1, old)
AROUND(int, unlinkat, (int folder, const char *name, int how), (folder, name, how), -1, name)
