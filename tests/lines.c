/* Lines of text through the C interface: kinds, listings with zeros behind them, columns, and lengths of both. */
#include "tables.h"

enum { READ = SCALEBENCH_READ_BYTES, GUARD = 8 };

static uint8_t room[READ + GUARD];

static uint64_t read_into(const char *line, size_t length, size_t lent)
{
    memset(room, 0xa5, sizeof room);
    return scalebench_read((const uint8_t *)line, length, lent ? room : NULL, lent);
}

static int filled(const uint8_t *bytes, size_t length, uint8_t with)
{
    for (size_t i = 0; i < length; i++)
        if (bytes[i] != with)
            return 0;
    return 1;
}

static void command(const char *line, unsigned kind, const char *tree)
{
    uint8_t listing[READ];
    size_t length = list(tree, listing);
    uint64_t answer = read_into(line, strlen(line), READ);
    expect(line, answer, 256 * kind + 65536 * (uint64_t)length);
    expect(line, scalebench_kind(answer), kind);
    expect(line, scalebench_length(answer), length);
    expect(line, memcmp(room, listing, length) == 0 && filled(room + length, READ - length, 0), 1);
    expect("bytes behind the listing", (uint64_t)filled(room + READ, GUARD, 0xa5), 1);
}

/* The line that asks for the total has a kind and nothing else. */
static void total(void)
{
    uint64_t answer = read_into("(total)", 7, READ);
    expect("(total)", answer, 256 * SCALEBENCH_TOTAL);
    expect("(total)", scalebench_kind(answer), 6);
    expect("(total)", scalebench_length(answer), 0);
    expect("(total)", (uint64_t)filled(room, READ, 0), 1);
    expect("bytes behind the listing", (uint64_t)filled(room + READ, GUARD, 0xa5), 1);
}

static void malformed(const char *line, size_t length, unsigned column)
{
    uint64_t answer = read_into(line, length, READ);
    expect(line, answer, 256 * SCALEBENCH_FORM + 65536 * (uint64_t)column);
    expect(line, scalebench_column(answer), column);
    expect(line, (uint64_t)filled(room, READ, 0), 1);
}

static void lengths(void)
{
    static char line[514];
    memset(line, '(', sizeof line);
    malformed(line, 512, 2);
    expect("513 bytes", read_into(line, 513, READ), 256 * SCALEBENCH_LONG);
    expect("513 bytes", (uint64_t)filled(room, READ, 0), 1);
    for (size_t lent = 0; lent <= READ + GUARD; lent++) {
        if (lent == READ)
            continue;
        expect("a listing of another length", read_into("(ask (1))", 9, lent), SCALEBENCH_NO_ROOM);
        expect("a listing of another length", (uint64_t)filled(room, sizeof room, 0xa5), 1);
    }
    expect("no line", read_into(NULL, 0, READ), 256 * SCALEBENCH_FORM + 65536);
    expect("nothing at all", read_into(NULL, 0, 0), SCALEBENCH_NO_ROOM);
}

int main(void)
{
    command("(add (1 (1) (2)))", SCALEBENCH_ADD, "(1 (1) (2))");
    command("(drop (255 (10 (7)) (4)))", SCALEBENCH_DROP, "(255 (10 (7)) (4))");
    command("(add (65535 (256 (9999)) (10000)))", SCALEBENCH_ADD, "(65535 (256 (9999)) (10000))");
    command("(ask (65529))", SCALEBENCH_ASK, "(65529)");
    command("(ask (0))", SCALEBENCH_ASK, "(0)");
    command("(ask (1 (1) (1) (1) (1) (1) (1) (1) (1) (1)))", SCALEBENCH_ASK,
            "(1 (1) (1) (1) (1) (1) (1) (1) (1) (1))");
    const char *const lines[] = {"", "(add", "(ask (65536))", "(ask (01))", "(ask (1)", "(ask (1)))", "(ask  (1))",
                                 "(asc (1))", "(ask (1(2)))", "(ask (1 (2) ))", "(ask ())", "(add (1 (2)) (3))",
                                 "(t", "(tadd", "(tota", "(total", "(total )", "(totals)", "(total))", "(total) ",
                                 "(ask (65540))", "(ask (70000))", "(ask (655350))", "(ask (6553x))", "(ask (00))"};
    const unsigned columns[] = {1, 5, 11, 8, 9, 10, 6, 4, 8, 13, 7, 13, 3, 3, 6, 7, 7, 7, 8, 8, 11, 11, 12, 11, 8};
    for (size_t i = 0; i < sizeof columns / sizeof *columns; i++)
        malformed(lines[i], strlen(lines[i]), columns[i]);
    malformed("(ask (1\0))", 10, 8);
    malformed("(total)\0", 8, 8);
    total();
    lengths();
    return finished();
}
