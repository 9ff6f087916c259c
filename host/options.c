/* See options.h. */
#include "options.h"

#include "message.h"

#include <errno.h>
#include <stddef.h>
#include <stdlib.h>
#include <string.h>

enum { MOST_NAMES = 3 };

/* The options that are only given or not, and where that is noted. */
static const struct {
    const char *name, *letter;
    size_t place;
} flags[] = {
    {"--new", "", offsetof(struct options, begin)},
    {"--batch", "", offsetof(struct options, batch)},
    {"--check", "", offsetof(struct options, check)},
    {"--dry-run", "", offsetof(struct options, dry_run)},
    {"--list", "", offsetof(struct options, list)},
    {"--quiet", "-q", offsetof(struct options, quiet)},
    {"--help", "-h", offsetof(struct options, help)},
    {"--version", "", offsetof(struct options, version)},
};

static int wrong(const char *what, const char *argument)
{
    explain("%s %s", what, shown(argument));
    return 0;
}

static int read_flag(const char *argument, struct options *options)
{
    for (size_t i = 0; i < sizeof flags / sizeof flags[0]; i++)
        if (strcmp(argument, flags[i].name) == 0 || strcmp(argument, flags[i].letter) == 0) {
            *(int *)(void *)((char *)options + flags[i].place) = 1;
            return 1;
        }
    return wrong("unknown option:", argument);
}

/* At most a day, so that no number is too large for anything. */
static int read_seconds(const char *text, unsigned *seconds)
{
    size_t digits = strspn(text, "0123456789");
    if (digits == 0 || digits > 5 || text[digits] || strtoul(text, NULL, 10) > 86400)
        return wrong("not a number of seconds up to 86400:", text);
    *seconds = (unsigned)strtoul(text, NULL, 10);
    return 1;
}

static int read_number(const char *text, uint64_t *number)
{
    size_t digits = strspn(text, "0123456789");
    errno = 0;
    *number = strtoull(text, NULL, 10);
    if (digits == 0 || text[digits] || errno == ERANGE)
        return wrong("not a number up to 18446744073709551615:", text);
    return 1;
}

static int takes_value(const char *option)
{
    static const char *const options[] = {"--wait", "--backup", "--restore", "--number", "--tree", "--widen"};
    for (size_t i = 0; i < sizeof options / sizeof options[0]; i++)
        if (strcmp(option, options[i]) == 0)
            return 1;
    return 0;
}

/* An option with a value, which is the next argument. */
static int read_value(const char *option, const char *value, struct options *options)
{
    if (!value)
        return wrong("a value is missing after", option);
    if (strcmp(option, "--wait") == 0)
        return read_seconds(value, &options->wait);
    if (strcmp(option, "--tree") == 0) {
        options->numbered = 1;
        return read_number(value, &options->number);
    }
    if (strcmp(option, "--backup") == 0)
        options->backup = value;
    else if (strcmp(option, "--restore") == 0)
        options->restore = value;
    else if (strcmp(option, "--widen") == 0)
        options->widen = value;
    else
        options->tree = value;
    return 1;
}

/* What is no option: the book, and a command after it or the numbers to be listed before it. */
static int read_names(int count, const char *const *names, struct options *options)
{
    options->ranged = options->list && count == MOST_NAMES;
    if (count == MOST_NAMES && !options->list)
        return wrong("too many arguments:", names[MOST_NAMES - 1]);
    if (!options->ranged) {
        options->book = names[0];
        options->command = names[1];
        return 1;
    }
    options->book = names[2];
    if (!read_number(names[0], &options->from) || !read_number(names[1], &options->to))
        return 0;
    return options->from <= options->to || wrong("the first number to be listed is above the last:", names[0]);
}

/* Whether what was asked for goes together. */
static int fits(const struct options *options)
{
    int changes = options->begin || options->batch || options->dry_run;
    int looks = options->check + !!options->backup + !!options->tree + options->numbered + options->list +
                !!options->widen;
    if (options->help || options->version)
        return 1;
    if (!options->book)
        explain("no book named");
    else if (looks + !!options->restore > 1)
        explain("--check, --backup, --restore, --number, --tree, --list and --widen do not go together");
    else if (options->list && options->command)
        explain("--list takes FROM and TO or neither, and no COMMAND");
    else if (looks && (changes || options->command))
        explain("--check, --backup, --number, --tree, --list and --widen change nothing and take no COMMAND");
    else if (options->restore && (options->batch || options->dry_run || options->command))
        explain("--restore takes no COMMAND, --batch or --dry-run");
    else if (options->batch && options->command)
        explain("--batch reads standard input and takes no COMMAND");
    else
        return 1;
    return 0;
}

int read_options(int count, char **arguments, struct options *options)
{
    const char *names[MOST_NAMES] = {NULL};
    int ended = 0, named = 0;
    *options = (struct options){.wait = 5};
    for (int i = 1; i < count; i++) {
        const char *argument = arguments[i];
        int fine = 1;
        if (ended || *argument != '-') {
            if (named == MOST_NAMES)
                return wrong("too many arguments:", argument);
            names[named++] = argument;
        } else if (strcmp(argument, "--") == 0)
            ended = 1;
        else if (takes_value(argument))
            fine = read_value(argument, arguments[++i], options);
        else
            fine = read_flag(argument, options);
        if (!fine)
            return 0;
    }
    return read_names(named, names, options) && fits(options);
}
