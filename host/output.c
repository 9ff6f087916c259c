/* See output.h. */
#include "output.h"

#include "message.h"

#include <errno.h>
#include <stdarg.h>
#include <stdio.h>
#include <string.h>

void output(int quiet, const char *format, ...)
{
    va_list values;
    va_start(values, format);
    if (!quiet)
        vprintf(format, values);
    va_end(values);
}

const char *plural(unsigned long count)
{
    return count == 1 ? "" : "s";
}

int written(void)
{
    if (fflush(stdout) == 0 && !ferror(stdout))
        return 1;
    explain("cannot write the output: %s", strerror(errno));
    return 0;
}
