/* The host: a book, and commands carried out on it. */
#define _GNU_SOURCE

#include "commands.h"
#include "message.h"
#include "options.h"
#include "output.h"
#include "serial.h"
#include "upkeep.h"
#include "widen.h"

#include <errno.h>
#include <fcntl.h>
#include <locale.h>
#include <signal.h>
#include <string.h>

/*
 * A closed descriptor 0, 1 or 2 would be the next file that is opened, and answers would go into it. What stands there
 * instead can be neither read nor written, so that its use fails as that of a closed one does.
 */
static int fill_descriptors(void)
{
    for (int descriptor = 0; descriptor <= 2; descriptor++)
        if (fcntl(descriptor, F_GETFD) < 0 && open("/", O_PATH) != descriptor)
            return 0;
    return 1;
}

static enum status carry_out_commands(struct book *book, const struct options *options)
{
    const struct session session = {book, options->dry_run, options->batch, options->quiet};
    int how = (options->begin ? BOOK_NEW : BOOK_ADVISE) | (options->dry_run ? BOOK_TRY : 0);
    enum status status = book_open(book, options->book, how, options->wait);
    if (status != STATUS_FINE)
        return status;
    if (options->command)
        return carry_out_line(&session, options->command);
    return options->batch ? carry_out_batch(&session, stdin) : carry_out_all(&session, stdin);
}

static enum status carry_out_options(struct book *book, const struct options *options)
{
    const struct range range = {options->from, options->ranged ? options->to : UINT64_MAX, !options->ranged};
    if (options->check)
        return check_book(book, options->book, options->quiet);
    if (options->backup)
        return back_up(book, options->book, options->backup);
    if (options->restore)
        return restore(book, options->book, options->restore, options->begin ? BOOK_NEW : BOOK_ADVISE, options->wait);
    if (options->tree)
        return print_number(book, options->book, options->tree, options->quiet);
    if (options->numbered)
        return print_tree(book, options->book, options->number, options->quiet);
    if (options->list)
        return list_book(book, options->book, &range, options->quiet);
    if (options->widen)
        return widen_book(options->widen, options->book);
    return carry_out_commands(book, options);
}

int main(int count, char **arguments)
{
    struct options options;
    static struct book book = {.file = -1, .place = {.folder = -1}};
    enum status status = STATUS_FINE;
    if (!fill_descriptors())
        return STATUS_FAILED;
    setlocale(LC_CTYPE, ""); /* which characters of a name can be printed */
    signal(SIGXFSZ, SIG_IGN); /* a limit on the size of files is an error of the save and does not end the host */
    if (!read_options(count, arguments, &options)) {
        explain("--help shows how to use it");
        return STATUS_USAGE;
    }
    if (options.quiet)
        message_quiet();
    if (options.help || options.version) {
        for (size_t i = 0; options.help && help[i]; i++)
            output(0, "%s", help[i]);
        if (!options.help)
            output(0, "scalebench " SCALEBENCH_VERSION "\n");
        status = written() ? STATUS_FINE : STATUS_FAILED;
    } else
        status = carry_out_options(&book, &options);
    book_close(&book);
    return (int)status;
}
