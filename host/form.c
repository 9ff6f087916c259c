/* See form.h. The reader of lines is the library's; this only looks at how the well-formed start of a line ends. */
#include "form.h"

#include <stdio.h>
#include <string.h>

static int is_digit(uint8_t byte)
{
    return byte >= '0' && byte <= '9';
}

/* The commands that begin with these letters, or what follows the command if it is whole. */
static const char *expected_command(const uint8_t *letters, size_t length, char *text)
{
    static const char *const commands[] = {"add", "drop", "ask", "total"};
    size_t used = 0;
    for (size_t i = 0; i < sizeof commands / sizeof commands[0]; i++) {
        if (strncmp(commands[i], (const char *)letters, length) != 0)
            continue;
        if (strlen(commands[i]) == length)
            return strcmp(commands[i], "total") == 0 ? "\")\"" : "a space";
        used += (size_t)sprintf(text + used, "%s%s", used > 0 ? " or " : "", commands[i]);
    }
    return text;
}

/* What follows a label, whose last digit stands before the column; `found` stands there, 0 for the end of the line. */
static const char *expected_after_label(const uint8_t *last, uint8_t found)
{
    if (!is_digit(found))
        return "a digit, a space or \")\"";
    return *last == '0' && !is_digit(last[-1]) ? "no digit after a 0 at the start of a label"
                                               : "a label of at most 65535";
}

const char *expected(const uint8_t *line, size_t length, size_t column, int alone, char *text)
{
    size_t given = column - 1, open = 0, letters = 0;
    if (given == 0)
        return "\"(\"";
    for (size_t i = 0; i < given; i++) {
        open += line[i] == '(';
        open -= line[i] == ')';
    }
    while (1 + letters < given && line[1 + letters] >= 'a' && line[1 + letters] <= 'z')
        letters++;
    if (given == 1 + letters)
        return expected_command(line + 1, letters, text);
    if (is_digit(line[given - 1]))
        return expected_after_label(line + given - 1, given < length ? line[given] : 0);
    if (line[given - 1] == '(')
        return "a label from 1 to 65535";
    if (line[given - 1] == ' ')
        return "an assembly, which begins with \"(\"";
    if (open == 0 || (alone && open == 1))
        return alone ? "nothing more" : "the end of the line";
    return open == 1 ? "\")\"" : "a space or \")\"";
}
