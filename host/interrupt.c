/* See interrupt.h. */
#define _XOPEN_SOURCE 700

#include "interrupt.h"

#include <signal.h>
#include <stddef.h>

static sigset_t before;
static int waiting;

void interrupts_wait(void)
{
    sigset_t set;
    sigfillset(&set);
    sigdelset(&set, SIGPIPE);
    if (!waiting)
        sigprocmask(SIG_BLOCK, &set, &before);
    waiting = 1;
}

void interrupts_pass(void)
{
    if (waiting)
        sigprocmask(SIG_SETMASK, &before, NULL);
    waiting = 0;
}
