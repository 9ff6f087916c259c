/*
 * kill HOST KILLS: two hosts change one book at the same time and are killed at random moments, again and again. When
 * both are dead the book is, byte for byte, the table after the changes that each reported as done, or after one more
 * of each; a draft left beside it cannot be read by others unless it is whole, and the next hosts remove it.
 */
#define _XOPEN_SOURCE 700

#include "scalebench.h"

#include <dirent.h>
#include <fcntl.h>
#include <signal.h>
#include <stdio.h>
#include <stdlib.h>
#include <string.h>
#include <sys/stat.h>
#include <sys/wait.h>
#include <time.h>
#include <unistd.h>

enum { HOSTS = 2, CYCLE = 100, LINES = 1000, TABLE = SCALEBENCH_TABLE_BYTES };

struct host {
    pid_t process;
    FILE *answers;
    unsigned done; /* changes that the book has */
    unsigned told; /* changes reported as done since */
};

static struct host hosts[HOSTS];
static uint8_t expected[TABLE]; /* the book with the changes of `done` */
static unsigned passed, failed;

static void check(int fine, const char *what)
{
    passed += fine != 0;
    failed += fine == 0;
    if (!fine)
        printf("after %u and %u changes: %s\n", hosts[0].done + hosts[0].told, hosts[1].done + hosts[1].told, what);
}

static void stop(const char *what)
{
    perror(what);
    exit(1);
}

/* Change k of a host: fifty trees that no other host has are put in, then taken out, and so on. */
static int drops(unsigned k) { return k % CYCLE >= CYCLE / 2; }
static unsigned child(unsigned k) { return 1 + k % (CYCLE / 2); }
static unsigned label(unsigned host) { return 255 + host; }

static void apply(uint8_t *table, unsigned host, unsigned k)
{
    static uint8_t scratch[SCALEBENCH_SCRATCH_BYTES];
    const uint8_t tree[] = {(uint8_t)(label(host) / 256), (uint8_t)label(host), 1, 0, (uint8_t)child(k), 0};
    uint64_t answer = (drops(k) ? scalebench_remove : scalebench_add)(tree, sizeof tree, table, TABLE, scratch,
                                                                      sizeof scratch);
    if (scalebench_refusal(answer))
        stop(scalebench_reason(scalebench_refusal(answer)));
}

/* The next changes as lines, all of which fit into a pipe. */
static void write_changes(int pipe, unsigned host, unsigned k)
{
    FILE *lines = fdopen(pipe, "w");
    for (unsigned end = k + LINES; lines && k < end; k++)
        fprintf(lines, "(%s (%u (%u)))\n", drops(k) ? "drop" : "add", label(host), child(k));
    if (!lines || fclose(lines) != 0)
        stop("changes");
}

static void start(const char *program, unsigned number)
{
    int to[2], from[2];
    if (pipe(to) != 0 || pipe(from) != 0)
        stop("pipe");
    pid_t process = fork();
    if (process == 0) {
        dup2(to[0], 0);
        dup2(from[1], 1);
        close(to[0]), close(to[1]), close(from[0]), close(from[1]);
        execl(program, program, "--wait", "60", "book", (char *)NULL);
        _exit(127);
    }
    close(to[0]);
    close(from[1]);
    fcntl(from[0], F_SETFD, FD_CLOEXEC);
    hosts[number].process = process;
    hosts[number].answers = fdopen(from[0], "r");
    write_changes(to[1], number, hosts[number].done);
}

static int next_answer(struct host *host)
{
    char line[64];
    if (!fgets(line, sizeof line, host->answers))
        return 0;
    host->told += strstr(line, " done ") && strchr(line, '\n');
    return 1;
}

/* Kills a host a moment after it has reported so many changes. */
static void kill_after(struct host *host, unsigned wanted)
{
    const struct timespec moment = {0, rand() % 1000000};
    int status;
    while (host->told < wanted && next_answer(host))
        ;
    nanosleep(&moment, NULL);
    kill(host->process, SIGKILL);
    while (next_answer(host))
        ;
    fclose(host->answers);
    waitpid(host->process, &status, 0);
    check(WIFSIGNALED(status) && WTERMSIG(status) == SIGKILL, "a host ended by itself");
}

static size_t read_file(const char *name, uint8_t *bytes, size_t room)
{
    FILE *file = fopen(name, "rb");
    size_t length = file ? fread(bytes, 1, room, file) : 0;
    if (file)
        fclose(file);
    return length;
}

/* Whether the book has the changes reported, and those of `more`, a bit for each host. */
static int book_has(const uint8_t *book, unsigned more)
{
    uint8_t table[TABLE];
    memcpy(table, expected, TABLE);
    for (unsigned h = 0; h < HOSTS; h++)
        if (more >> h & 1)
            apply(table, h, hosts[h].done);
    return memcmp(book, table, TABLE) == 0;
}

/* Looks at the book that both hosts have left. How many changes it has that were not reported. */
static unsigned look(void)
{
    uint8_t book[TABLE + 1];
    struct stat status;
    size_t length = read_file("book", book, sizeof book);
    unsigned more = 0;
    for (unsigned h = 0; h < HOSTS; h++)
        for (; hosts[h].told > 0; hosts[h].told--)
            apply(expected, h, hosts[h].done++);
    while (length == TABLE && more < 1 << HOSTS && !book_has(book, more))
        more++;
    check(length == TABLE && more < 1 << HOSTS, "the book has not the changes reported as done");
    check(stat("book", &status) == 0 && (status.st_mode & 0777) == 0640, "the book has another mode");
    for (unsigned h = 0; h < HOSTS && more < 1 << HOSTS; h++)
        if (more >> h & 1)
            apply(expected, h, hosts[h].done++);
    return more % 2 + more / 2;
}

/* How many files stand beside the book. */
static unsigned drafts(void)
{
    uint8_t bytes[TABLE + 1];
    struct stat status;
    struct dirent *entry;
    unsigned count = 0;
    DIR *entries = opendir(".");
    while (entries && (entry = readdir(entries))) {
        if (strcmp(entry->d_name, "book") == 0 || strcmp(entry->d_name, ".") == 0 || strcmp(entry->d_name, "..") == 0)
            continue;
        count++;
        int found = stat(entry->d_name, &status) == 0;
        int whole = !scalebench_refusal(scalebench_intake(bytes, read_file(entry->d_name, bytes, sizeof bytes)));
        check(found && ((status.st_mode & 0777) == 0600 || whole), "others may read a draft that is not whole");
    }
    if (entries)
        closedir(entries);
    return count;
}

/* A host that is not killed, with one command. */
static int one_command(const char *program, const char *option, const char *command)
{
    int status;
    pid_t process = fork();
    if (process == 0) {
        execl(program, program, "--quiet", option, "book", command, (char *)NULL);
        _exit(127);
    }
    return waitpid(process, &status, 0) == process && WIFEXITED(status) && WEXITSTATUS(status) == 0;
}

int main(int count, char **arguments)
{
    char folder[] = P_tmpdir "/scalebench-kill-XXXXXX";
    unsigned within = 0, ahead = 0, kills = count == 3 ? (unsigned)atoi(arguments[2]) : 0;
    const char *program = arguments[1];
    if (kills == 0 || !mkdtemp(folder) || chdir(folder) != 0)
        return 2;
    alarm(600); /* a host that hangs */
    check(one_command(program, "--new", "(ask (1))") == 0 && chmod("book", 0640) == 0, "no book");
    for (unsigned killed = 0; killed < kills && failed == 0; killed += HOSTS) {
        for (unsigned h = 0; h < HOSTS; h++)
            start(program, h);
        unsigned first = (unsigned)rand() % HOSTS;
        kill_after(&hosts[first], (unsigned)rand() % 5);
        kill_after(&hosts[1 - first], (unsigned)rand() % 5);
        ahead += look();
        unsigned left = drafts();
        check(left <= HOSTS, "drafts are not removed");
        within += left;
    }
    check(one_command(program, "--", "(add (1))") && drafts() == 0, "a later host trips over what is left");
    printf("%u kills: %u within a save, %u between a save and its report\n", kills, within, ahead);
    printf("%u passed, %u failed\n", passed, failed);
    return failed > 0 || unlink("book") != 0 || chdir("/") != 0 || rmdir(folder) != 0;
}
