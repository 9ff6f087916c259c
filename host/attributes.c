/*
 * See attributes.h. On a file with an access list the permissions of the group in its mode are the mask of the list,
 * and what the group itself may do stands in the list. So the mode gives the group too much as long as the list is
 * missing.
 */
#define _GNU_SOURCE

#include "attributes.h"

#include <errno.h>
#include <stdint.h>
#include <string.h>
#include <sys/stat.h>
#include <sys/xattr.h>
#include <unistd.h>

static const char access_list[] = "system.posix_acl_access";

/* A list is a version and entries: tag and permissions of two bytes each, low byte first, and a number. */
enum { LIST_ROOM = 65536, LIST_HEAD = 4, ENTRY = 8, PERMISSIONS_AT = 2, MASK = 0x10, OTHERS = 0x20 };

struct attributes {
    struct stat status;
    uint8_t list[LIST_ROOM];
    size_t length; /* of the list; 0 if there is none */
};

static int same_mode(const struct stat *one, const struct stat *other)
{
    return one->st_gid == other->st_gid && (one->st_mode & 0777) == (other->st_mode & 0777);
}

/* Mode and list of one moment: what changes while they are read is not copied. */
static int read_attributes(int file, struct attributes *attributes)
{
    struct stat before;
    if (fstat(file, &before) < 0)
        return 0;
    ssize_t length = fgetxattr(file, access_list, attributes->list, sizeof attributes->list);
    if ((length < 0 && errno != ENODATA && errno != ENOTSUP) || fstat(file, &attributes->status) < 0)
        return 0;
    attributes->length = length < 0 ? 0 : (size_t)length;
    if (same_mode(&before, &attributes->status) && before.st_uid == attributes->status.st_uid)
        return 1;
    errno = ECANCELED;
    return 0;
}

/* A folder may give its files a list that the model has not. */
static int drop_list(int file)
{
    return fremovexattr(file, access_list) == 0 || errno == ENODATA || errno == ENOTSUP;
}

static int copy_owner(int file, const struct stat *model)
{
    struct stat status;
    if (fstat(file, &status) < 0)
        return 0;
    if (status.st_uid == model->st_uid && status.st_gid == model->st_gid)
        return 1;
    return fchown(file, model->st_uid, model->st_gid) == 0 || status.st_gid == model->st_gid ||
           fchown(file, (uid_t)-1, model->st_gid) == 0;
}

/*
 * The list with an empty mask and no rights for others, which the mode gives afterwards. A file system may set the mode
 * that follows from a list before the list. Others get nothing either, because a mode without rights for the group lets
 * the system pass over the list, and who is named in it counts as one of the others.
 */
static int set_list(int file, const struct attributes *model)
{
    static uint8_t list[LIST_ROOM];
    if (model->length == 0)
        return 1;
    memcpy(list, model->list, model->length);
    for (size_t entry = LIST_HEAD; entry + ENTRY <= model->length; entry += ENTRY)
        if (list[entry] == MASK || list[entry] == OTHERS)
            list[entry + PERMISSIONS_AT] = 0;
    return fsetxattr(file, access_list, list, model->length, 0) == 0;
}

/* The file's owner may change, and the next one may have fewer rights to the model. Not every file system has modes. */
static int narrow(int file, const struct stat *model)
{
    struct stat status;
    if (fstat(file, &status) < 0)
        return 0;
    return (status.st_mode & 0777 & ~model->st_mode) == 0 || fchmod(file, model->st_mode & 0700) == 0;
}

/* The owner before the permissions, since a change of owner clears some; the mode last, which opens the file to all. */
int copy_attributes(int file, int model)
{
    static struct attributes attributes;
    return read_attributes(model, &attributes) && narrow(file, &attributes.status) && drop_list(file) &&
           copy_owner(file, &attributes.status) && set_list(file, &attributes) &&
           fchmod(file, attributes.status.st_mode & 0777) == 0;
}

int same_attributes(int file, int model)
{
    static struct attributes one, other;
    if (!read_attributes(file, &one) || !read_attributes(model, &other))
        return 0;
    if (same_mode(&one.status, &other.status) && one.length == other.length &&
        memcmp(one.list, other.list, one.length) == 0)
        return 1;
    errno = ECANCELED;
    return 0;
}
