/*
 * Order 4, serial numbers, through the C interface: every number of small sets to its tree and back, numbers up to
 * 2^64 - 2, trees up to 48 nodes and above, each refusal in its order, and what is lent left as it was by each.
 */
#include "tables.h"

enum { LISTING = SCALEBENCH_LISTING_BYTES, GUARD = 16, FILLED = 0xa5, APPROVED = 256 };

static const uint64_t untouched = 0x5ca1eb0a7ab1e000;

static int filled(const uint8_t *bytes, size_t length, uint8_t with)
{
    for (size_t i = 0; i < length; i++)
        if (bytes[i] != with)
            return 0;
    return 1;
}

static void rank_of(const char *what, const uint8_t *tree, size_t length, const uint8_t *table, size_t table_len,
                    uint64_t answer, uint64_t number)
{
    uint64_t around[3] = {untouched, untouched, untouched};
    expect(what, scalebench_rank(tree, length, table, table_len, &around[1]), answer);
    expect(what, around[1], number);
    expect("the numbers beside it", around[0] == untouched && around[2] == untouched, 1);
}

/* The tree, in brackets, gets this answer and no number. */
static void unnumbered(const char *tree, const uint8_t *table, uint64_t answer)
{
    uint8_t listing[LISTING];
    rank_of(tree, listing, list(tree, listing), table, TABLE, answer, untouched);
}

/* A listing of this length is lent, with bytes around it that stay; the refusal leaves all of it. */
static void refused(const char *what, uint64_t number, const uint8_t *table, size_t table_len, size_t length,
                    unsigned refusal)
{
    static uint8_t room[GUARD + 512 + GUARD];
    memset(room, FILLED, sizeof room);
    expect(what, scalebench_unrank(number, table, table_len, length ? room + GUARD : NULL, length), refusal);
    expect("a listing that is left", (uint64_t)filled(room, sizeof room, FILLED), 1);
}

static void none(const char *what, uint64_t number, const uint8_t *table, unsigned refusal)
{
    refused(what, number, table, TABLE, LISTING, refusal);
}

/* The number has this listing, and the listing this number. */
static void both_listed(const char *what, uint64_t number, const uint8_t *tree, size_t length, const uint8_t *table)
{
    uint8_t room[GUARD + LISTING + GUARD];
    memset(room, FILLED, sizeof room);
    expect(what, scalebench_unrank(number, table, TABLE, room + GUARD, LISTING), 0);
    expect(what, (uint64_t)memcmp(room + GUARD, tree, length), 0);
    expect("zeros behind the tree", (uint64_t)filled(room + GUARD + length, LISTING - length, 0), 1);
    expect("the length without them", scalebench_listed(room + GUARD, LISTING), length);
    expect("bytes before the listing", (uint64_t)filled(room, GUARD, FILLED), 1);
    expect("bytes behind the listing", (uint64_t)filled(room + GUARD + LISTING, GUARD, FILLED), 1);
    rank_of(what, tree, length, table, TABLE, APPROVED, number);
}

/* Where the child counts end, also if bytes are missing or follow. */
static void lengths(void)
{
    const uint8_t bytes[] = {0, 1, 2, 0, 1, 0, 0, 1, 0, 0, 9, 0, 0};
    expect("a tree with bytes after it", scalebench_listed(bytes, sizeof bytes), 9);
    expect("a child that is missing", scalebench_listed(bytes, 8), 6);
    expect("a part of a node", scalebench_listed(bytes, 2), 0);
    expect("no bytes", scalebench_listed(NULL, 0), 0);
}

static void both(uint64_t number, const char *tree, const uint8_t *table)
{
    uint8_t listing[LISTING];
    both_listed(tree, number, listing, list(tree, listing), table);
}

/* States 1 and 3 are approved. By state, by the transition at the top, by the first child and by the second. */
static void order(void)
{
    const struct line lines[] = {{1, 0, {0}, 1}, {2, 0, {0}, 2},    {3, 0, {0}, 2},
                                 {4, 0, {0}, 1}, {1, 2, {2, 2}, 3}, {2, 2, {2, 1}, 3}};
    const char *const trees[] = {"(1)",         "(4)",         "(1 (2) (2))", "(1 (2) (3))", "(1 (3) (2))",
                                 "(1 (3) (3))", "(2 (2) (1))", "(2 (2) (4))", "(2 (3) (1))", "(2 (3) (4))"};
    uint8_t table[TABLE], copy[TABLE];
    build(table, "101", lines, 6);
    memcpy(copy, table, TABLE);
    for (uint64_t number = 0; number < 10; number++)
        both(number, trees[number], table);
    none("the total", 10, table, 19);
    none("the greatest number", UINT64_MAX, table, 19);
    unnumbered("(2)", table, PART);
    unnumbered("(5)", table, stopped_at(1));
    unnumbered("(1 (2) (1))", table, stopped_at(1));
    unnumbered("(1 (2) (5))", table, stopped_at(3));
    expect("nothing is written", (uint64_t)memcmp(copy, table, TABLE), 0);
}

/* The samples of order 4: (1) and (2) are no more than parts, states 2 and 3 are approved. */
static void twelve(void)
{
    const struct line lines[] = {{1, 0, {0}, 1}, {2, 0, {0}, 1}, {3, 0, {0}, 2},
                                 {4, 1, {1}, 3}, {4, 1, {2}, 3}, {5, 2, {1, 1}, 2}};
    const char *const trees[] = {"(3)",         "(5 (1) (1))",     "(5 (1) (2))",     "(5 (2) (1))",
                                 "(5 (2) (2))", "(4 (1))",         "(4 (2))",         "(4 (3))",
                                 "(4 (5 (1) (1)))", "(4 (5 (1) (2)))", "(4 (5 (2) (1)))", "(4 (5 (2) (2)))"};
    uint8_t table[TABLE];
    build(table, "011", lines, 6);
    for (uint64_t number = 0; number < 12; number++)
        both(number, trees[number], table);
    none("twelve", 12, table, 19);
}

static void samples(void)
{
    const char *const forks[] = {"(1 (1) (1))", "(1 (1) (2))", "(1 (2) (1))", "(1 (2) (2))", "(2 (1) (2))"};
    uint8_t table[TABLE] = {0}, tree[LISTING] = {0};
    none("the empty set", 0, table, 19);
    unnumbered("(1)", table, stopped_at(1));
    build(table, "001", example, 7);
    for (uint64_t number = 0; number < 5; number++)
        both(number, forks[number], table);
    families(table, 11);
    for (uint64_t number = 0; number < 2816; number++) {
        put_node(tree, 0, 3 + (unsigned)number / 256, 8);
        for (unsigned k = 0; k < 8; k++)
            put_node(tree, 1 + k, 1 + (number >> (7 - k) & 1), 0);
        both_listed("eleven families", number, tree, 9 * NODE, table);
    }
    none("eleven families", 2816, table, 19);
}

/* 255 leaves, and over k of them as many labels as 8 choose k, for k from 1 to 8: 2^64 - 1 trees. */
static void greatest(uint8_t *table)
{
    const uint8_t args[] = {1, 1, 1, 1, 1, 1, 1, 1}, labels[] = {8, 28, 56, 70, 56, 28, 8, 1};
    begin(table, "01");
    for (unsigned label = 1; label <= 255; label++)
        append(table, label, 0, NULL, 1);
    for (unsigned places = 1; places <= 8; places++)
        for (unsigned label = 1; label <= labels[places - 1]; label++)
            append(table, label, places, args, 2);
}

static void limit(void)
{
    static uint8_t table[TABLE];
    greatest(table);
    both(0, "(1 (1))", table);
    both(254, "(1 (255))", table);
    both(255, "(2 (1))", table);
    both(UINT64_MAX - 2, "(1 (255) (255) (255) (255) (255) (255) (255) (254))", table);
    both(UINT64_MAX - 1, "(1 (255) (255) (255) (255) (255) (255) (255) (255))", table);
    both(UINT64_C(568640725896660990), "(1 (1) (1) (1) (1) (1) (1) (1) (1))", table);
    none("2^64 - 1", UINT64_MAX, table, 19);
    unnumbered("(1)", table, PART);
    table[1] = 1;
    none("over: the first", 0, table, 18);
    none("over: the greatest number", UINT64_MAX, table, 18);
    unnumbered("(1)", table, 18);
    unnumbered("(1 (1))", table, 18);
    unnumbered("(9 (9))", table, stopped_at(1));
    table[0] = 1;
    none("fields before over", 0, table, 7);
}

/* Each state under the next at so many places, all of them approved or only the last. */
static void levels(uint8_t *table, unsigned states, unsigned places, int all)
{
    begin_full(table);
    table[0] = (uint8_t)states;
    for (unsigned q = 1; q <= STATES; q++)
        table[q] = q == states || (all && q < states);
    append(table, 1, 0, NULL, 1);
    for (unsigned q = 1; q < states; q++) {
        uint8_t args[8];
        memset(args, (int)q, sizeof args);
        append(table, 1, places, args, q + 1);
    }
}

static void sizes(void)
{
    static uint8_t table[TABLE];
    uint8_t tree[LISTING];
    levels(table, STATES, 1, 1);
    for (unsigned nodes = 1; nodes <= 48; nodes++) {
        size_t length = list_chain(tree, nodes, 1, 0);
        both_listed("a chain", nodes - 1, tree, length, table);
    }
    for (unsigned number = 48; number < STATES; number++)
        none("49 nodes and more", number, table, 20);
    none("no such chain", STATES, table, 19);
    levels(table, 5, 2, 0);
    expect("31 nodes", scalebench_unrank(0, table, TABLE, tree, LISTING), 0);
    levels(table, 6, 2, 0);
    none("63 nodes", 0, table, 20);
    for (unsigned places = 1; places <= 8; places++) {
        levels(table, STATES, places, 0);
        none("one tree of 200 levels", 0, table, 20);
        none("one tree of 200 levels", 1, table, 19);
    }
}

static void built(const char *what, const char *classes, const struct line *lines, unsigned count, unsigned refusal)
{
    uint8_t table[TABLE];
    build(table, classes, lines, count);
    none(what, 0, table, refusal);
    unnumbered("(1)", table, refusal);
}

static void refusals(void)
{
    const struct line alone[] = {{1, 0, {0}, 1}, {3, 1, {2}, 2}};
    const struct line two[] = {{1, 0, {0}, 1}, {2, 0, {0}, 2}};
    const struct line loop[] = {{1, 0, {0}, 1}, {2, 1, {1}, 2}, {2, 1, {2}, 2}};
    const struct line turned[] = {{1, 0, {0}, 2}, {2, 0, {0}, 1}, {3, 1, {1}, 2}};
    const uint8_t leaf[] = {0, 1, 0}, zero[] = {0, 0, 9}, wide[] = {0, 1, 9}, half[] = {0, 1, 1};
    uint8_t table[TABLE] = {0};
    rank_of("no listing", NULL, 0, NULL, 0, 1, untouched);
    rank_of("label 0", zero, NODE, NULL, 0, 2, untouched);
    rank_of("nine children", wide, NODE, NULL, 0, 3, untouched);
    rank_of("a child missing", half, NODE, NULL, 0, 4, untouched);
    rank_of("no table", leaf, NODE, NULL, 0, 5, untouched);
    refused("no table", 0, NULL, 0, LISTING, 5);
    refused("no table and no listing", 0, NULL, 0, 0, 5);
    refused("a short table", 0, table, TABLE - 1, LISTING - 1, 5);
    table[0] = 201;
    for (size_t length = 0; length <= 400; length++)
        refused("a listing of some length", 0, table, TABLE, length, length == LISTING ? 7 : 6);
    unnumbered("(1)", table, 7);
    build(table, "001", example, 7);
    table[HEAD + 1] = 3;
    none("falling labels", 0, table, 8);
    unnumbered("(1)", table, 8);
    built("no tree leads to state 2", "11", alone, 2, 9);
    built("state 2 leads nowhere", "10", two, 2, 10);
    built("state 2 comes back", "01", loop, 3, 11);
    built("two alike", "11", two, 2, 12);
    built("state 2 first", "01", turned, 3, 13);
    expect("a reason", (uint64_t)strcmp(scalebench_reason(20), "the tree has more than 48 nodes"), 0);
}

int main(void)
{
    order();
    twelve();
    samples();
    limit();
    sizes();
    refusals();
    lengths();
    return finished();
}
