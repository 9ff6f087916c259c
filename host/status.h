/* The exit statuses of the host; its help lists them. */
#ifndef STATUS_H
#define STATUS_H

enum status {
    STATUS_FINE = 0,    /* approved, done, sound or found; of standard input: every line was carried out or answered */
    STATUS_NOT = 1,     /* the assembly that was asked for is not approved */
    STATUS_USAGE = 2,   /* the command line is wrong */
    STATUS_BOOK = 3,    /* the book is missing, is damaged, or may not be read or changed */
    STATUS_BUSY = 4,    /* another program has the book */
    STATUS_FAILED = 5,  /* the book could not be saved, or input or output failed */
    STATUS_REFUSED = 6  /* something was refused, malformed or too long */
};

#endif
