/* See commands.h. */
#define _XOPEN_SOURCE 700

#include "commands.h"

#include "form.h"
#include "input.h"
#include "interrupt.h"
#include "message.h"
#include "node.h"
#include "output.h"

#include <inttypes.h>
#include <string.h>
#include <unistd.h>

static enum status refused(const struct session *session, unsigned long number, unsigned refusal)
{
    output(session->quiet, "%lu refused %u\n", number, refusal);
    give_reason("%s", scalebench_reason(refusal));
    return STATUS_REFUSED;
}

static enum status not_approved(const struct session *session, unsigned long number, const uint8_t *tree,
                                uint64_t answer)
{
    char text[NOT_TEXT];
    output(session->quiet, "%lu %s\n", number, not_text(answer, text));
    explain_not(tree, answer);
    return STATUS_NOT;
}

/* What is only answered counts what other hosts have saved. */
static enum status refresh(const struct session *session)
{
    return session->dry_run || session->batch ? STATUS_FINE : book_refresh(session->book);
}

static enum status ask(const struct session *session, unsigned long number, const uint8_t *tree, size_t length)
{
    struct book *book = session->book;
    enum status status = refresh(session);
    if (status != STATUS_FINE)
        return status;
    uint64_t answer = scalebench_ask(tree, length, book->table, sizeof book->table);
    if (scalebench_refusal(answer))
        return refused(session, number, scalebench_refusal(answer));
    if (!scalebench_approved(answer))
        return not_approved(session, number, tree, answer);
    output(session->quiet, "%lu approved\n", number);
    return STATUS_FINE;
}

static enum status total(const struct session *session, unsigned long number)
{
    const struct book *book = session->book;
    enum status status = refresh(session);
    if (status != STATUS_FINE)
        return status;
    uint64_t trees = 0;
    uint64_t answer = scalebench_total(book->table, sizeof book->table, &trees);
    if (scalebench_refusal(answer))
        return refused(session, number, scalebench_refusal(answer));
    if (scalebench_over(answer)) {
        output(session->quiet, "%lu total over\n", number);
        give_reason("more than %" PRIu64 " assemblies are approved", UINT64_MAX);
    } else
        output(session->quiet, "%lu total %" PRIu64 "\n", number, trees);
    return STATUS_FINE;
}

/* The change in memory alone. */
static uint64_t apply(struct book *book, unsigned kind, const uint8_t *tree, size_t length)
{
    static uint8_t scratch[SCALEBENCH_SCRATCH_BYTES];
    return kind == SCALEBENCH_ADD
               ? scalebench_add(tree, length, book->table, sizeof book->table, scratch, sizeof scratch)
               : scalebench_remove(tree, length, book->table, sizeof book->table, scratch, sizeof scratch);
}

/* The lock is held for one change, so that two people may have one book open. */
static enum status change(const struct session *session, unsigned long number, unsigned kind, const uint8_t *tree,
                          size_t length)
{
    struct book *book = session->book;
    int alone = !session->dry_run && !session->batch;
    enum status status = alone ? book_lock(book) : STATUS_FINE;
    if (status != STATUS_FINE)
        return status;
    uint64_t answer = apply(book, kind, tree, length);
    unsigned refusal = scalebench_refusal(answer);
    if (alone && !refusal)
        status = book_save(book);
    if (alone)
        book_release(book);
    if (refusal)
        return refused(session, number, refusal);
    if (status == STATUS_FINE)
        output(session->quiet || session->batch, "%lu done %u %u\n", number, scalebench_states(answer),
               scalebench_transitions(answer));
    return status;
}

static enum status malformed(const struct session *session, unsigned long number, const uint8_t *line, size_t length,
                             unsigned column)
{
    char text[FORM_TEXT];
    output(session->quiet, "%lu form %u\n", number, column);
    give_reason("not (add TREE), (drop TREE), (ask TREE) or (total) from column %u on: expected %s", column,
                expected(line, length, column, 0, text));
    return STATUS_REFUSED;
}

static enum status carry_out(const struct session *session, unsigned long number, const uint8_t *line, size_t length)
{
    uint8_t tree[SCALEBENCH_READ_BYTES];
    uint64_t read = scalebench_read(line, length, tree, sizeof tree);
    message_line(number);
    switch (scalebench_kind(read)) {
    case SCALEBENCH_ADD:
    case SCALEBENCH_DROP:
        return change(session, number, scalebench_kind(read), tree, scalebench_length(read));
    case SCALEBENCH_ASK:
        return ask(session, number, tree, scalebench_length(read));
    case SCALEBENCH_TOTAL:
        return total(session, number);
    case SCALEBENCH_FORM:
        return malformed(session, number, line, length, scalebench_column(read));
    default:
        output(session->quiet, "%lu long\n", number);
        give_reason("above %d bytes", SCALEBENCH_LINE_BYTES);
        return STATUS_REFUSED;
    }
}

static int stops(enum status status)
{
    return status == STATUS_BOOK || status == STATUS_BUSY || status == STATUS_FAILED;
}

/*
 * The end line, and the status in which nothing that went wrong is forgotten. What is saved is reported then, but by a
 * quiet host only by its exit status.
 */
static enum status finish(const struct session *session, unsigned long lines, enum status worst)
{
    uint64_t answer = scalebench_intake(session->book->table, sizeof session->book->table);
    output(session->quiet, "end %lu %u %u\n", lines, scalebench_states(answer), scalebench_transitions(answer));
    if (!written())
        return STATUS_FAILED;
    if (!session->quiet)
        interrupts_pass();
    return worst;
}

enum status carry_out_line(const struct session *session, const char *line)
{
    enum status status = carry_out(session, 1, (const uint8_t *)line, strlen(line));
    return stops(status) ? status : finish(session, 1, status);
}

/* What came of an input. */
struct tally {
    unsigned long lines, refused;
    int unread; /* errno if reading failed before its end */
};

/* Carries out every line. A status other than fine ends the host at that line. */
static enum status each_line(const struct session *session, struct input *input, struct tally *tally)
{
    uint8_t line[SCALEBENCH_LINE_BYTES + 1];
    size_t length;
    int counted = session->batch && !session->quiet && isatty(STDERR_FILENO);
    while (input_line(input, line, &length)) {
        enum status status = carry_out(session, ++tally->lines, line, length);
        if (stops(status))
            return status;
        /* Whoever waits for a line's answer has it before the next line is read. */
        if (!session->batch && !written())
            return STATUS_FAILED;
        interrupts_pass();
        tally->refused += status == STATUS_REFUSED;
        if (counted && tally->lines % 100 == 0)
            show_count("%lu line%s", tally->lines, plural(tally->lines));
    }
    message_line(0);
    tally->unread = input->error;
    if (tally->unread)
        explain("cannot read the input: %s", strerror(tally->unread));
    if (counted)
        show_count("%lu line%s", tally->lines, plural(tally->lines));
    end_count();
    return STATUS_FINE;
}

static enum status worst(const struct tally *tally)
{
    return tally->unread ? STATUS_FAILED : tally->refused > 0 ? STATUS_REFUSED : STATUS_FINE;
}

enum status carry_out_all(const struct session *session, FILE *input)
{
    struct tally tally = {0};
    struct input lines = {.file = input};
    enum status status = each_line(session, &lines, &tally);
    return status != STATUS_FINE ? status : finish(session, tally.lines, worst(&tally));
}

/* Saves what the lines have made of the book, if none was refused. */
static enum status save_batch(const struct session *session, const uint8_t *before, const struct tally *tally)
{
    struct book *book = session->book;
    if (worst(tally) != STATUS_FINE) {
        explain("nothing is saved: %lu of %lu lines refused", tally->refused, tally->lines);
        memcpy(book->table, before, sizeof book->table);
        return STATUS_FINE;
    }
    if (session->dry_run || memcmp(before, book->table, sizeof book->table) == 0)
        return STATUS_FINE;
    message_line(tally->lines);
    return book_save(book);
}

/* The input is read before the lock is taken: it may take any time to come. */
enum status carry_out_batch(const struct session *session, FILE *input)
{
    static uint8_t before[SCALEBENCH_TABLE_BYTES];
    struct book *book = session->book;
    struct tally tally = {0};
    struct input lines = {.file = input};
    input_read_ahead(&lines);
    enum status status = session->dry_run ? STATUS_FINE : book_lock(book);
    memcpy(before, book->table, sizeof before);
    if (status == STATUS_FINE)
        status = each_line(session, &lines, &tally);
    input_close(&lines);
    if (status == STATUS_FINE && !written())
        status = STATUS_FAILED;
    if (status == STATUS_FINE)
        status = save_batch(session, before, &tally);
    return status != STATUS_FINE ? status : finish(session, tally.lines, worst(&tally));
}
