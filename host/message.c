/* See message.h. */
#define _XOPEN_SOURCE 700

#include "message.h"

#include <stdarg.h>
#include <stdio.h>
#include <string.h>
#include <wchar.h>
#include <wctype.h>

enum { ROOM = 8192 };

static unsigned long line;
static int counting, quiet;

void message_quiet(void)
{
    quiet = 1;
}

void message_line(unsigned long number)
{
    line = number;
}

/*
 * Whether the character is seen where it stands, and changes nothing about the others. Those that turn the direction of
 * text or take no room are printable to the C library; those whose width libraries differ about are named.
 */
static int visible(wchar_t wide)
{
    static const struct {
        unsigned long first, last;
    } hidden[] = {{0xad, 0xad},     {0x61c, 0x61c},   {0x115f, 0x1160},   {0x17b4, 0x17b5},   {0x180b, 0x180f},
                  {0x200b, 0x200f}, {0x2028, 0x202e}, {0x2060, 0x206f},   {0x3164, 0x3164},   {0xfe00, 0xfe0f},
                  {0xfeff, 0xfeff}, {0xffa0, 0xffa0}, {0xfff0, 0xfffb},   {0xe0000, 0xe0fff}};
    for (size_t i = 0; i < sizeof hidden / sizeof hidden[0]; i++)
        if ((unsigned long)wide >= hidden[i].first && (unsigned long)wide <= hidden[i].last)
            return 0;
    return iswprint((wint_t)wide) && wcwidth(wide) > 0;
}

const char *shown(const char *name)
{
    static char out[ROOM];
    mbstate_t state = {0};
    size_t used = 0, left = strlen(name);
    if (left == 0)
        return "''";
    while (left > 0 && used + 8 < ROOM) {
        wchar_t wide;
        size_t length = mbrtowc(&wide, name, left, &state);
        if (length <= left && visible(wide) && wide != L'\\' && used + length < ROOM) {
            memcpy(out + used, name, length);
            used += length;
        } else {
            length = 1;
            memset(&state, 0, sizeof state);
            used += (size_t)sprintf(out + used, "\\x%02x", (unsigned char)*name);
        }
        name += length;
        left -= length;
    }
    out[used] = 0;
    return out;
}

/* One write a message, so that those of two hosts at one terminal do not mix. */
static void put(const char *subject, const char *why, va_list values)
{
    char text[2 * ROOM], place[40] = "";
    end_count();
    if (line > 0)
        snprintf(place, sizeof place, "line %lu: ", line);
    int length = snprintf(text, sizeof text, "scalebench: %s%s", place, subject);
    vsnprintf(text + length, sizeof text - (size_t)length, why, values);
    fprintf(stderr, "%s\n", text);
}

void complain(const char *what, const char *name, const char *why, ...)
{
    char subject[ROOM + 64];
    va_list values;
    snprintf(subject, sizeof subject, "%s %s: ", what, shown(name));
    va_start(values, why);
    put(subject, why, values);
    va_end(values);
}

void explain(const char *why, ...)
{
    va_list values;
    va_start(values, why);
    put("", why, values);
    va_end(values);
}

void give_reason(const char *why, ...)
{
    va_list values;
    va_start(values, why);
    if (!quiet)
        put("", why, values);
    va_end(values);
}

void show_count(const char *count, ...)
{
    va_list values;
    fputs("\rscalebench: ", stderr);
    va_start(values, count);
    vfprintf(stderr, count, values);
    va_end(values);
    counting = 1;
}

void end_count(void)
{
    if (counting)
        fputc('\n', stderr);
    counting = 0;
}
