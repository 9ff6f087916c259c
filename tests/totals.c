/*
 * Order 2, the total, through the C interface: document 01's samples, numbers up to 2^64 - 1 and over from 2^64 on, and
 * a lent number that refusals and over leave as it was.
 */
#include "tables.h"

enum { OVER = 256, POWERS = 64 };

static const uint64_t untouched = 0x5ca1eb0a7ab1e000;

static void total_of(const char *what, const uint8_t *table, size_t length, uint64_t answer, uint64_t number)
{
    uint64_t around[3] = {untouched, untouched, untouched};
    expect(what, scalebench_total(table, length, &around[1]), answer);
    expect(what, around[1], number);
    expect("the numbers beside it", around[0] == untouched && around[2] == untouched, 1);
}

static void total(const char *what, const uint8_t *table, uint64_t number)
{
    total_of(what, table, TABLE, 0, number);
}

static void over(const char *what, const uint8_t *table)
{
    total_of(what, table, TABLE, OVER, untouched);
    expect(what, (uint64_t)scalebench_over(OVER), 1);
}

static void refused(const char *what, const uint8_t *table, size_t length, unsigned refusal)
{
    total_of(what, table, length, refusal, untouched);
}

static void change(const char *tree, int in, uint8_t *table)
{
    static uint8_t scratch[SCRATCH];
    uint8_t listing[SCALEBENCH_LISTING_BYTES];
    size_t length = list(tree, listing);
    uint64_t answer = (in ? scalebench_add : scalebench_remove)(listing, length, table, TABLE, scratch, SCRATCH);
    expect(tree, scalebench_refusal(answer), 0);
}

/* The tree put in or taken out, and the total after it. */
static void changed(const char *tree, int in, uint8_t *table, uint64_t number)
{
    change(tree, in, table);
    total(tree, table, number);
}

static void samples(void)
{
    const char *const forks[] = {"(1 (1) (1))", "(1 (1) (2))", "(1 (2) (1))", "(1 (2) (2))"};
    uint8_t table[TABLE] = {0}, copy[TABLE];
    total("the empty set", table, 0);
    for (unsigned i = 0; i < 4; i++)
        changed(forks[i], 1, table, i + 1);
    changed("(1)", 1, table, 5);
    changed("(1)", 0, table, 4);
    changed("(1 (1) (1))", 0, table, 3);
    build(table, "001", example, 7);
    memcpy(copy, table, TABLE);
    total("the example", table, 5);
    expect("nothing is written", (uint64_t)memcmp(copy, table, TABLE), 0);
    families(table, 1);
    total("one family", table, 256);
    families(table, 11);
    total("eleven families", table, 2816);
}

/* State k has 2^(k - 1) trees, from 1 to 64. Label 4 has one line over each of the states from `first` on. */
static void powers(uint8_t *table, unsigned first)
{
    char classes[POWERS + 2];
    memset(classes, '0', POWERS);
    classes[POWERS] = '1';
    classes[POWERS + 1] = 0;
    begin(table, classes);
    append(table, 1, 0, NULL, 1);
    for (unsigned label = 2; label <= 3; label++)
        for (unsigned q = 1; q < POWERS; q++)
            append(table, label, 1, (const uint8_t[]){(uint8_t)q}, q + 1);
    for (unsigned q = first; q <= POWERS; q++)
        append(table, 4, 1, (const uint8_t[]){(uint8_t)q}, POWERS + 1);
}

/* Two leaves, and label 3 over as many equal states as it has places, again and again. */
static void levels(uint8_t *table, unsigned states, unsigned places)
{
    begin_full(table);
    memset(table + 1, 0, STATES);
    table[0] = (uint8_t)states;
    table[states] = 1;
    append(table, 1, 0, NULL, 1);
    append(table, 2, 0, NULL, 1);
    for (unsigned q = 1; q < states; q++) {
        uint8_t args[8];
        memset(args, (int)q, sizeof args);
        append(table, 3, places, args, q + 1);
    }
}

static void limit(void)
{
    static uint8_t table[TABLE];
    powers(table, POWERS);
    total("2^63", table, UINT64_C(1) << 63);
    powers(table, 2);
    total("2^64 - 2", table, UINT64_MAX - 1);
    changed("(9)", 1, table, UINT64_MAX);
    powers(table, 1);
    total("2^64 - 1", table, UINT64_MAX);
    table[1] = 1;
    over("a leaf more, 2^64", table);
    table[1] = 0;
    levels(table, 6, 2);
    total("five squares of 2", table, UINT64_C(1) << 32);
    levels(table, 7, 2);
    over("six squares of 2, 2^64", table);
    change("(9)", 1, table);
    over("2^64 + 1", table);
    levels(table, STATES, 1);
    total("a chain over two leaves", table, 2);
    levels(table, STATES, 2);
    over("199 squares of 2", table);
    levels(table, STATES, 8);
    over("199 times the eighth power", table);
    levels(table, 3, 8);
    over("2^64 by eight equal places twice", table);
    levels(table, 2, 8);
    total("2^8", table, 256);
}

static void built(const char *what, const char *classes, const struct line *lines, unsigned count, unsigned refusal)
{
    uint8_t table[TABLE];
    build(table, classes, lines, count);
    refused(what, table, TABLE, refusal);
}

static void refusals(void)
{
    const struct line alone[] = {{1, 0, {0}, 1}, {3, 1, {2}, 2}};
    const struct line two[] = {{1, 0, {0}, 1}, {2, 0, {0}, 2}};
    const struct line loop[] = {{1, 0, {0}, 1}, {2, 1, {1}, 2}, {2, 1, {2}, 2}};
    const struct line turned[] = {{1, 0, {0}, 2}, {2, 0, {0}, 1}, {3, 1, {1}, 2}};
    uint8_t table[TABLE] = {0};
    refused("no table", NULL, 0, 5);
    refused("a short table", table, TABLE - 1, 5);
    table[0] = 201;
    refused("201 states", table, TABLE, 7);
    build(table, "001", example, 7);
    table[HEAD + 1] = 3;
    refused("falling labels", table, TABLE, 8);
    built("no tree leads to state 2", "11", alone, 2, 9);
    built("state 2 leads nowhere", "10", two, 2, 10);
    built("state 2 comes back", "01", loop, 3, 11);
    built("two alike", "11", two, 2, 12);
    built("state 2 first", "01", turned, 3, 13);
}

int main(void)
{
    samples();
    limit();
    refusals();
    return finished();
}
