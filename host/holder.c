/* See holder.h. Linux lists all locks in /proc/locks, by the device and number of the file. */
#define _GNU_SOURCE

#include "holder.h"

#include "message.h"

#include <stdio.h>
#include <string.h>
#include <sys/stat.h>
#include <sys/sysmacros.h>

/* A lock that is waited for has an arrow before its kind, and is none. */
static long find(const struct stat *file)
{
    char line[256];
    long process = 0, holder = 0;
    unsigned long long inode;
    unsigned high, low;
    FILE *locks = fopen("/proc/locks", "re");
    while (locks && holder == 0 && fgets(line, sizeof line, locks))
        if (sscanf(line, "%*d: FLOCK %*s %*s %ld %x:%x:%llu", &process, &high, &low, &inode) == 4 && process > 0 &&
            high == major(file->st_dev) && low == minor(file->st_dev) && inode == file->st_ino)
            holder = process;
    if (locks)
        fclose(locks);
    return holder;
}

const char *holder_text(int file, char *text)
{
    struct stat status;
    char path[64], name[64] = "";
    long process = fstat(file, &status) < 0 ? 0 : find(&status);
    if (process == 0)
        return "";
    snprintf(path, sizeof path, "/proc/%ld/comm", process);
    FILE *comm = fopen(path, "re");
    if (comm && fgets(name, sizeof name, comm))
        name[strcspn(name, "\n")] = 0;
    if (comm)
        fclose(comm);
    if (*name)
        snprintf(text, HOLDER_TEXT, " (process %ld, %.200s)", process, shown(name));
    else
        snprintf(text, HOLDER_TEXT, " (process %ld)", process);
    return text;
}
