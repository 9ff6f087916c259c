/* See serial.h. */
#define _XOPEN_SOURCE 700

#include "serial.h"

#include "form.h"
#include "message.h"
#include "node.h"
#include "output.h"

#include <inttypes.h>
#include <signal.h>
#include <stdio.h>
#include <string.h>
#include <unistd.h>

enum { SHOWN_EACH = 1000 }; /* so many numbers from one count that is shown to the next */

static enum status answered(enum status status)
{
    return written() ? status : STATUS_FAILED;
}

static enum status refused(unsigned refusal, int quiet)
{
    output(quiet, "refused %u\n", refusal);
    give_reason("%s", scalebench_reason(refusal));
    return answered(STATUS_REFUSED);
}

/* The first bytes of a text, up to the bracket that closes the first one, or all of them. */
static size_t first_closed(const char *text)
{
    size_t length = 0, open = 0;
    while (text[length]) {
        char byte = text[length++];
        open += byte == '(';
        if (byte == ')' && (open == 0 || --open == 0))
            break;
    }
    return length;
}

/* What stands before an assembly in a line that asks for it. */
static const char asking[] = "(ask ";

enum { START = sizeof asking - 1 };

/* Whatever reading the line made of the bracket behind the text: what follows the assembly is wrong in it. */
static enum status malformed(const char *line, const char *text, size_t column, int quiet)
{
    char words[FORM_TEXT];
    size_t last = first_closed(text) + 1, length = START + strlen(text);
    if (column > last)
        column = last;
    output(quiet, "form %zu\n", column);
    give_reason("not an assembly in brackets from column %zu on: expected %s", column,
                expected((const uint8_t *)line, length, START + column, 1, words));
    return STATUS_REFUSED;
}

/* The listing of an assembly in brackets, read as a line that asks for it. A text that is none is reported. */
static enum status read_tree(const char *text, uint8_t *listing, size_t *length, int quiet)
{
    char line[SCALEBENCH_LINE_BYTES + 2]; /* one more, so that a longer line is noticed, and the end of the text */
    size_t whole = START + strlen(text) + 1;
    snprintf(line, sizeof line, "%s%s)", asking, text);
    if (whole > sizeof line - 1)
        whole = sizeof line - 1;
    uint64_t read = scalebench_read((const uint8_t *)line, whole, listing, SCALEBENCH_READ_BYTES);
    *length = scalebench_length(read);
    if (scalebench_kind(read) == SCALEBENCH_ASK)
        return STATUS_FINE;
    if (scalebench_kind(read) == SCALEBENCH_FORM)
        return malformed(line, text, scalebench_column(read) - START, quiet);
    output(quiet, "long\n");
    give_reason("above %zu bytes", SCALEBENCH_LINE_BYTES - sizeof asking);
    return STATUS_REFUSED;
}

enum status print_number(struct book *book, const char *path, const char *tree, int quiet)
{
    uint8_t listing[SCALEBENCH_READ_BYTES];
    uint64_t number = 0;
    size_t length;
    enum status status = book_open(book, path, 0, 0);
    if (status != STATUS_FINE)
        return status;
    status = read_tree(tree, listing, &length, quiet);
    if (status != STATUS_FINE)
        return answered(status);
    uint64_t answer = scalebench_rank(listing, length, book->table, sizeof book->table, &number);
    if (scalebench_refusal(answer))
        return refused(scalebench_refusal(answer), quiet);
    if (!scalebench_approved(answer)) {
        char text[NOT_TEXT];
        output(quiet, "%s\n", not_text(answer, text));
        explain_not(listing, answer);
        return answered(STATUS_NOT);
    }
    output(quiet, "%" PRIu64 "\n", number);
    return answered(STATUS_FINE);
}

/* The assembly that has a number, in brackets; the refusal. */
static unsigned tree_of(const struct book *book, uint64_t number, char *text)
{
    uint8_t listing[SCALEBENCH_LISTING_BYTES];
    uint64_t answer = scalebench_unrank(number, book->table, sizeof book->table, listing, sizeof listing);
    if (!scalebench_refusal(answer))
        tree_text(listing, text);
    return scalebench_refusal(answer);
}

enum status print_tree(struct book *book, const char *path, uint64_t number, int quiet)
{
    char text[TREE_TEXT];
    enum status status = book_open(book, path, 0, 0);
    if (status != STATUS_FINE)
        return status;
    unsigned refusal = tree_of(book, number, text);
    if (refusal)
        return refused(refusal, quiet);
    output(quiet, "%s\n", text);
    return answered(STATUS_FINE);
}

/* Numbers one after another that are refused alike; it is reported when they have become so many, and at their end. */
struct gap {
    uint64_t first, count, report_at;
    unsigned refusal;
};

static void report_numbers(uint64_t first, uint64_t last, const char *so_far, unsigned refusal)
{
    if (first == last)
        give_reason("number %" PRIu64 "%s: %s", first, so_far, scalebench_reason(refusal));
    else
        give_reason("numbers %" PRIu64 " to %" PRIu64 "%s: %s", first, last, so_far, scalebench_reason(refusal));
}

static void report_gap(const struct gap *gap, const char *so_far)
{
    if (gap->count > 0)
        report_numbers(gap->first, gap->first + gap->count - 1, so_far, gap->refusal);
}

/* A gap may have more numbers than anyone waits for. */
static void lengthen(struct gap *gap, uint64_t number, unsigned refusal)
{
    if (gap->count == 0)
        *gap = (struct gap){.first = number, .report_at = SHOWN_EACH};
    gap->refusal = refusal;
    if (++gap->count < gap->report_at)
        return;
    report_gap(gap, " so far");
    gap->report_at *= 10;
}

/* Prints the assembly that has a number, or makes the gap longer by it; whether it is printed. */
static int list_one(const struct book *book, uint64_t number, struct gap *gap, int quiet)
{
    char text[TREE_TEXT];
    unsigned refusal = tree_of(book, number, text);
    if (refusal) {
        lengthen(gap, number, refusal);
        return 0;
    }
    report_gap(gap, "");
    gap->count = 0;
    output(quiet, "(add %s)\n", text);
    return 1;
}

static volatile sig_atomic_t interrupt; /* the signal that ends the list */

static void note_interrupt(int number)
{
    interrupt = number;
}

/* A second interrupt does not wait for the line that is written. */
static void catch_interrupts(void)
{
    static const int signals[] = {SIGINT, SIGTERM, SIGHUP};
    struct sigaction action = {.sa_handler = note_interrupt, .sa_flags = (int)(SA_RESTART | SA_RESETHAND)}, before;
    sigemptyset(&action.sa_mask);
    for (size_t i = 0; i < sizeof signals / sizeof signals[0]; i++)
        if (sigaction(signals[i], NULL, &before) == 0 && before.sa_handler != SIG_IGN)
            sigaction(signals[i], &action, NULL);
}

/* Ends the host as the signal would have ended it. */
static enum status interrupted(uint64_t number)
{
    explain("interrupted before number %" PRIu64, number);
    written();
    signal(interrupt, SIG_DFL);
    raise(interrupt);
    return STATUS_FAILED;
}

/* Lists the numbers from one on, before the end; whether all are listed. */
static enum status list_numbers(const struct book *book, uint64_t from, uint64_t end, int quiet)
{
    struct gap gap = {0};
    uint64_t listed = 0, number = from;
    int counted = !quiet && isatty(STDERR_FILENO) && !isatty(STDOUT_FILENO);
    for (; number < end && !interrupt; number++) {
        listed += (uint64_t)list_one(book, number, &gap, quiet);
        if ((number + 1 - from) % SHOWN_EACH != 0)
            continue;
        if (counted)
            show_count("%" PRIu64 " of %" PRIu64 " assemblies", number + 1 - from, end - from);
        if (!written())
            return STATUS_FAILED;
    }
    if (counted)
        show_count("%" PRIu64 " of %" PRIu64 " assemblies", number - from, end - from);
    report_gap(&gap, "");
    end_count();
    if (number < end)
        return interrupted(number);
    if (listed < end - from)
        give_reason("%" PRIu64 " of %" PRIu64 " assemblies %s not listed", end - from - listed, end - from,
                    end - from - listed == 1 ? "is" : "are");
    return answered(listed < end - from ? STATUS_REFUSED : STATUS_FINE);
}

enum status list_book(struct book *book, const char *path, const struct range *range, int quiet)
{
    const unsigned no_numbers = 18, no_such_number = 19;
    uint64_t total = 0;
    enum status status = book_open(book, path, 0, 0);
    if (status != STATUS_FINE)
        return status;
    uint64_t answer = scalebench_total(book->table, sizeof book->table, &total);
    if (scalebench_over(answer))
        return refused(no_numbers, quiet);
    catch_interrupts();
    if (range->from < total)
        status = list_numbers(book, range->from, range->to < total ? range->to + 1 : total, quiet);
    if (range->whole || range->to < total || status == STATUS_FAILED)
        return status;
    report_numbers(range->from < total ? total : range->from, range->to, "", no_such_number);
    return STATUS_REFUSED;
}
