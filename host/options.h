/* The command line of the host. */
#ifndef OPTIONS_H
#define OPTIONS_H

#include <stdint.h>

struct options {
    const char *book, *command, *backup, *restore, *tree, *widen;
    int begin, batch, check, dry_run, list, numbered, ranged, quiet, help, version;
    unsigned wait;     /* seconds */
    uint64_t number;   /* of the assembly that is asked for, if `numbered` */
    uint64_t from, to; /* the first and the last number to be listed, if `ranged` */
};

/* The text of --help, in parts; NULL ends them. */
extern const char *const help[];

/* Whether the arguments are right; what is wrong is reported on standard error. */
int read_options(int count, char **arguments, struct options *options);

#endif
