/*
 * Ask and intake through the C interface: document 01's listings, every answer of ask, and a damaged table for each of
 * 5 and 7 to 13.
 */
#include "tables.h"

static void listings(void)
{
    uint8_t table[TABLE] = {0}, chain[49 * NODE];
    list_chain(chain, 49, 1, 0);
    expect("0 1 1", scalebench_ask((const uint8_t[]){0, 1, 1}, 3, table, TABLE), 4);
    expect("0 1 0 0 1 0", scalebench_ask((const uint8_t[]){0, 1, 0, 0, 1, 0}, 6, table, TABLE), 4);
    expect("0 0 9", scalebench_ask((const uint8_t[]){0, 0, 9}, 3, table, TABLE), 2);
    expect("0 1 9", scalebench_ask((const uint8_t[]){0, 1, 9}, 3, table, TABLE), 3);
    expect("label 0 behind the tree", scalebench_ask((const uint8_t[]){0, 1, 0, 0, 0, 9}, 6, table, TABLE), 2);
    expect("four bytes", scalebench_ask(chain, 4, table, TABLE), 1);
    expect("no bytes", scalebench_ask(NULL, 0, table, TABLE), 1);
    expect("49 nodes", scalebench_ask(chain, 49 * NODE, table, TABLE), 1);
    list_chain(chain, 48, 1, 0);
    expect("48 nodes", scalebench_ask(chain, 48 * NODE, table, TABLE), stopped_at(48));
    expect("48 nodes, no table", scalebench_ask(chain, 48 * NODE, NULL, 0), 5);
    expect("a short table", scalebench_ask(chain, 48 * NODE, table, TABLE - 1), 5);
    expect("the listing comes first", scalebench_ask(chain, 48 * NODE - 1, table, 0), 1);
}

static void approved(void)
{
    uint8_t table[TABLE];
    build(table, "001", example, 7);
    expect("the example", scalebench_intake(table, TABLE), counts(3, 7));
    expect("(1 (1) (1))", scalebench_ask((const uint8_t[]){0, 1, 2, 0, 1, 0, 0, 1, 0}, 9, table, TABLE), 256);
    expect("(2 (1) (2))", scalebench_ask((const uint8_t[]){0, 2, 2, 0, 1, 0, 0, 2, 0}, 9, table, TABLE), 256);
    expect("(2 (2) (1))", scalebench_ask((const uint8_t[]){0, 2, 2, 0, 2, 0, 0, 1, 0}, 9, table, TABLE), stopped_at(1));
    expect("(1)", scalebench_ask((const uint8_t[]){0, 1, 0}, 3, table, TABLE), PART);
    expect("(7)", scalebench_ask((const uint8_t[]){0, 7, 0}, 3, table, TABLE), stopped_at(1));
    memset(table, 0, TABLE);
    expect("the empty set", scalebench_intake(table, TABLE), 0);
}

/* Order 1, on the set of (10 (20 (30)) (21 (31))). */
static void not_approved(void)
{
    const struct line lines[] = {{30, 0, {0}, 1}, {31, 0, {0}, 2}, {20, 1, {1}, 3}, {21, 1, {2}, 4},
                                 {10, 2, {3, 4}, 5}};
    const struct {
        const char *tree;
        uint64_t answer;
    } asked[] = {
        {"(10 (20 (30)) (21 (31)))", 256},
        {"(20 (30))", PART},
        {"(31)", PART},
        {"(10 (21 (31)) (20 (30)))", stopped_at(1)},
        {"(10)", stopped_at(1)},
        {"(10 (20 (31)) (21 (31)))", stopped_at(2)},
        {"(10 (20 (30) (30)) (21 (31)))", stopped_at(2)},
        {"(10 (20 (30)) (21 (30)))", stopped_at(4)},
        {"(10 (20 (30)) (21 (9)))", stopped_at(5)},
        {"(10 (20 (9)) (21 (9)))", stopped_at(3)},
        {"(10 (20 (31)) (21 (9)))", stopped_at(2)},
        {"(9 (9 (9)))", stopped_at(3)},
    };
    uint8_t table[TABLE], listing[SCALEBENCH_LISTING_BYTES];
    build(table, "00001", lines, 5);
    expect("the table", scalebench_intake(table, TABLE), counts(5, 5));
    for (size_t i = 0; i < sizeof asked / sizeof asked[0]; i++) {
        size_t length = list(asked[i].tree, listing);
        uint64_t answer = scalebench_ask(listing, length, table, TABLE);
        expect(asked[i].tree, answer, asked[i].answer);
        expect("approved", (uint64_t)scalebench_approved(answer), asked[i].answer == 256);
        expect("part", (uint64_t)scalebench_part(answer), asked[i].answer == PART);
        expect("place", scalebench_place(answer), asked[i].answer >> 16);
    }
}

/* A chain of 48 nodes is in the set; at each place in turn a label that the set does not have. */
static void every_place(void)
{
    static uint8_t table[TABLE], scratch[SCRATCH];
    uint8_t nodes[48 * NODE];
    size_t length = list_chain(nodes, 48, 1, 0);
    uint8_t *last = nodes + length - NODE;
    memset(table, 0, TABLE);
    expect("48 nodes in the set", scalebench_add(nodes, length, table, TABLE, scratch, SCRATCH), counts(48, 48));
    for (unsigned place = 1; place <= 48; place++) {
        uint8_t *node = nodes + NODE * (place - 1);
        put_label(node, 2);
        expect("one node of 48", scalebench_ask(nodes, length, table, TABLE), stopped_at(place));
        put_label(last, 2);
        expect("the deepest of two", scalebench_ask(nodes, length, table, TABLE), stopped_at(48));
        put_label(last, 1);
        put_label(node, 1);
    }
    for (unsigned place = 2; place <= 48; place++)
        expect("a part", scalebench_ask(nodes + NODE * (place - 1), NODE * (49 - place), table, TABLE), PART);
}

static void one_byte(const char *what, unsigned at, uint8_t byte, uint64_t want)
{
    uint8_t table[TABLE], copy[TABLE];
    build(table, "001", example, 7);
    table[at] = byte;
    memcpy(copy, table, TABLE);
    expect(what, scalebench_intake(table, TABLE), want);
    expect(what, scalebench_ask((const uint8_t[]){0, 1, 0}, 3, table, TABLE), want);
    expect("nothing is written", (uint64_t)memcmp(copy, table, TABLE), 0);
}

static void fields(void)
{
    one_byte("201 states", 0, 201, 7);
    one_byte("fewer states than are used", 0, 2, 7);
    one_byte("class 2", 1, 2, 7);
    one_byte("a class beyond the states", 4, 1, 7);
    one_byte("the last class", 200, 1, 7);
    one_byte("1,031 transitions", 201, 4, 7);
    one_byte("a transition too few", 202, 6, 7);
    one_byte("a transition too many", 202, 8, 7);
    one_byte("label 0", HEAD + 1, 0, 7);
    one_byte("nine arguments", HEAD + WIDTH * 2 + ARITY_AT, 9, 7);
    one_byte("argument 0", HEAD + WIDTH * 2 + ARGS_AT, 0, 7);
    one_byte("argument 4", HEAD + WIDTH * 2 + ARGS_AT + 1, 4, 7);
    one_byte("an argument beyond the count", HEAD + WIDTH * 2 + ARGS_AT + 2, 1, 7);
    one_byte("an argument of a leaf", HEAD + ARGS_AT + 7, 1, 7);
    one_byte("output 0", HEAD + OUT_AT, 0, 7);
    one_byte("output 4", HEAD + OUT_AT, 4, 7);
    one_byte("the last byte", TABLE - 1, 1, 7);
    one_byte("two equal transitions", HEAD + WIDTH + 1, 1, 8);
    one_byte("falling labels", HEAD + 1, 3, 8);
    one_byte("falling labels by the high byte", HEAD, 1, 8);
    one_byte("falling arguments", HEAD + WIDTH * 3 + ARGS_AT, 2, 8);
}

static void refused(const char *what, const char *classes, const struct line *lines, unsigned count, uint64_t want)
{
    uint8_t table[TABLE];
    build(table, classes, lines, count);
    expect(what, scalebench_intake(table, TABLE), want);
    expect(what, scalebench_ask((const uint8_t[]){0, 1, 0}, 3, table, TABLE), want);
}

static void automata(void)
{
    const struct line alone[] = {{1, 0, {0}, 1}, {3, 1, {2}, 2}};
    refused("no tree leads to state 2", "11", alone, 2, 9);
    refused("nor in a loop that is used", "10", alone, 2, 9);
    const struct line useless[] = {{1, 0, {0}, 1}, {2, 0, {0}, 2}};
    refused("state 2 leads nowhere", "10", useless, 2, 10);
    refused("states 1 and 2 lead nowhere", "00", useless, 2, 10);
    const struct line loop[] = {{1, 0, {0}, 1}, {2, 1, {1}, 2}, {2, 1, {2}, 2}};
    refused("state 2 comes back", "01", loop, 3, 11);
    const struct line circle[] = {{1, 0, {0}, 1}, {2, 1, {1}, 2}, {2, 1, {2}, 3}, {2, 1, {3}, 2}};
    refused("states 2 and 3 come back", "010", circle, 4, 11);
    refused("two alike", "11", useless, 2, 12);
    const struct line uses[] = {{1, 0, {0}, 1}, {2, 0, {0}, 2}, {5, 2, {1, 1}, 3}, {5, 2, {1, 2}, 3}, {5, 2, {2, 1}, 3},
                                {5, 2, {2, 2}, 3}};
    refused("two alike in every use", "001", uses, 6, 12);
    uint8_t table[TABLE];
    build(table, "001", uses, 5);
    expect("told apart by the second place", scalebench_intake(table, TABLE), counts(3, 5));
    const struct line turned[] = {{1, 0, {0}, 2}, {2, 0, {0}, 1}, {3, 1, {1}, 2}};
    refused("state 2 first", "01", turned, 3, 13);
    const struct line late[] = {{1, 0, {0}, 1}, {3, 1, {1}, 3}, {4, 1, {1}, 2}, {5, 1, {2}, 3}};
    refused("state 3 before state 2", "001", late, 4, 13);
    const struct line both[] = {{1, 0, {0}, 2}, {2, 0, {0}, 1}};
    refused("alike and misnumbered", "11", both, 2, 12);
}

int main(void)
{
    listings();
    approved();
    not_approved();
    every_place();
    fields();
    automata();
    return finished();
}
