/* Every refusal of add and remove through the C interface, in document 01's order, and every kind of wrong length. */
#include "calling.h"

/* Both calls refuse alike. */
static void both(const char *what, const uint8_t *tree, size_t tree_len, size_t table_len, size_t scratch_len,
                 uint64_t want)
{
    call(what, scalebench_add, tree, tree_len, table_len, scratch_len, want);
    call(what, scalebench_remove, tree, tree_len, table_len, scratch_len, want);
}

static void listings(void)
{
    enum { MOST = 48 * NODE };
    uint8_t nodes[52 * NODE];
    build(table, "001", example, 7);
    for (size_t i = 0; i < 52; i++)
        put_node(nodes, i, 1, 0);
    both("no listing", NULL, 0, TABLE, SCRATCH, 1);
    for (size_t length = 1; length < sizeof nodes; length++) {
        uint64_t first = length % NODE || length > MOST ? 1 : 4;
        if (length != NODE)
            both("bytes behind the tree", nodes, length, TABLE, SCRATCH, first);
    }
    for (size_t i = 0; i < 48; i++)
        put_node(nodes, i, 1, 1);
    both("48 nodes, one child missing", nodes, MOST, TABLE, SCRATCH, 4);
    put_node(nodes, 47, 0, 1);
    both("a label 0 at the end", nodes, MOST, TABLE, SCRATCH, 2);
    put_node(nodes, 47, 0, 9);
    both("label 0 before nine children", nodes, MOST, TABLE, SCRATCH, 2);
    put_node(nodes, 47, 1, 9);
    both("nine children at the end", nodes, MOST, TABLE, SCRATCH, 3);
    put_node(nodes, 47, 1, 0);
    call("48 nodes", scalebench_remove, nodes, MOST, TABLE, SCRATCH, 15);
}

static void lengths(void)
{
    const uint8_t leaf[] = {0, 7, 0}, half[] = {0, 7, 1};
    const size_t tables[] = {0, 1, HEAD - 1, HEAD, TABLE - 1, TABLE + 1, TABLE + WIDTH, 11467};
    const size_t scratches[] = {0, 1, WIDTH, SCRATCH - WIDTH, SCRATCH - 1, SCRATCH + 1, SCRATCH + WIDTH, 33792};
    build(table, "001", example, 7);
    for (size_t i = 0; i < sizeof tables / sizeof *tables; i++) {
        both("a table of another length", leaf, NODE, tables[i], SCRATCH, 5);
        both("the table before the scratch", leaf, NODE, tables[i], scratches[i], 5);
        both("the listing before the table", half, NODE, tables[i], scratches[i], 4);
    }
    for (size_t i = 0; i < sizeof scratches / sizeof *scratches; i++)
        both("a scratch of another length", leaf, NODE, TABLE, scratches[i], 6);
    table[200] = 1;
    both("a class beyond the states", leaf, NODE, TABLE, SCRATCH, 7);
    both("the scratch before the fields", leaf, NODE, TABLE, 0, 6);
    both("the length before the fields", leaf, NODE, TABLE - 1, SCRATCH, 5);
}

static void tables(void)
{
    const uint8_t leaf[] = {0, 1, 0};
    build(table, "001", example, 7);
    table[HEAD + WIDTH * 3 + ARGS_AT] = 2;
    both("falling arguments", leaf, NODE, TABLE, SCRATCH, 8);
    build(table, "11", (const struct line[]){{1, 0, {0}, 1}, {3, 1, {2}, 2}}, 2);
    both("no tree leads to state 2", leaf, NODE, TABLE, SCRATCH, 9);
    const struct line leaves[] = {{1, 0, {0}, 1}, {2, 0, {0}, 2}};
    build(table, "10", leaves, 2);
    both("state 2 leads nowhere", leaf, NODE, TABLE, SCRATCH, 10);
    build(table, "01", (const struct line[]){{1, 0, {0}, 1}, {2, 1, {1}, 2}, {2, 1, {2}, 2}}, 3);
    both("state 2 comes back", leaf, NODE, TABLE, SCRATCH, 11);
    build(table, "11", leaves, 2);
    both("two alike", leaf, NODE, TABLE, SCRATCH, 12);
    build(table, "01", (const struct line[]){{1, 0, {0}, 2}, {2, 0, {0}, 1}, {3, 1, {1}, 2}}, 3);
    both("state 2 first", leaf, NODE, TABLE, SCRATCH, 13);
}

/* Both leaves of state 1 as arguments: a label of arity k has 2^k transitions in the product with (20 (1)). */
static void near_3072(int extra)
{
    const uint8_t args[] = {1, 1, 1, 1, 1, 1, 1, 1};
    begin(table, "01");
    append(table, 1, 0, NULL, 1);
    append(table, 2, 0, NULL, 1);
    append(table, 9, 0, NULL, 2);
    if (extra)
        append(table, 10, 0, NULL, 2);
    for (unsigned arity = 2; arity < 8; arity++)
        append(table, 3, arity, args, 2);
    for (unsigned label = 3; label < 14; label++)
        append(table, label, 8, args, 2);
}

static void limits(void)
{
    near_3072(0);
    add("(20 (1))", 17);
    near_3072(1);
    add("(20 (1))", 16);
    chain(table, 0, 1, 1);
    add("(255 (254))", 17);
    add("(255)", counts(200, 201));
    drop("(255 (254))", 15);
    drop("(255)", counts(200, 200));
}

int main(void)
{
    listings();
    lengths();
    tables();
    limits();
    return finished();
}
