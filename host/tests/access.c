/*
 * access HOST: in a folder with a book, access lists. A save keeps that of the book, and takes none from the folder.
 * access FILE USER GROUP MASK OTHERS: gives the file a list, with these permissions of a user, the group, the mask and
 * others; with DEFAULT at the end the folder FILE gives it to its files. The exit status is 77 if the file system has
 * no such lists.
 */
#define _GNU_SOURCE

#include <errno.h>
#include <stdint.h>
#include <stdio.h>
#include <stdlib.h>
#include <string.h>
#include <sys/stat.h>
#include <sys/wait.h>
#include <sys/xattr.h>
#include <unistd.h>

static const char list_name[] = "system.posix_acl_access", default_name[] = "system.posix_acl_default";

/* As the kernel has it: version 2, then tag, permissions and number of owner, a user, group, mask and others. */
struct entry {
    uint16_t tag, permissions;
    uint32_t number;
};
static struct {
    uint32_t version;
    struct entry entries[5];
} list = {2, {{1, 6, UINT32_MAX}, {2, 6, 0}, {4, 4, UINT32_MAX}, {16, 6, UINT32_MAX}, {32, 0, UINT32_MAX}}};

static int save(const char *host, const char *command)
{
    int status;
    pid_t process = fork();
    if (process == 0) {
        execl(host, host, "--quiet", "book", command, (char *)NULL);
        _exit(127);
    }
    return waitpid(process, &status, 0) == process && WIFEXITED(status) && WEXITSTATUS(status) == 0;
}

static int check(int fine, const char *what)
{
    if (!fine)
        printf("%s\n", what);
    return fine;
}

static int set(int count, char **arguments)
{
    list.entries[1].number = 12345;
    for (int i = 1; i < 5; i++)
        list.entries[i].permissions = (uint16_t)atoi(arguments[i + 1]);
    if (setxattr(arguments[1], count == 7 ? default_name : list_name, &list, sizeof list, 0) == 0)
        return 0;
    return errno == ENOTSUP ? 77 : 1;
}

int main(int count, char **arguments)
{
    char bytes[sizeof list + 1];
    struct stat status;
    if (count == 6 || count == 7)
        return set(count, arguments);
    list.entries[1].number = (uint32_t)geteuid();
    if (count != 2 || chmod("book", 0640) != 0)
        return 2;
    if (setxattr(".", default_name, &list, sizeof list, 0) != 0)
        return errno == ENOTSUP ? 77 : 1;
    int fine = check(save(arguments[1], "(add (101))"), "no save in a folder with a list");
    fine &= check(getxattr("book", list_name, bytes, sizeof bytes) < 0 && errno == ENODATA, "the folder's list taken");
    fine &= check(stat("book", &status) == 0 && (status.st_mode & 0777) == 0640, "the mode is not kept");
    removexattr(".", default_name);
    fine &= check(setxattr("book", list_name, &list, sizeof list, 0) == 0, "no list for the book");
    fine &= check(save(arguments[1], "(add (102))"), "no save of a book with a list");
    fine &= check(getxattr("book", list_name, bytes, sizeof bytes) == (ssize_t)sizeof list &&
                      memcmp(bytes, &list, sizeof list) == 0,
                  "the book's list is not kept");
    return !fine;
}
