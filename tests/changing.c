/* Add and remove through the C interface: document 01's samples from P5 on, and a sample for each of its traps. */
#include "calling.h"

#define HOLDS(what, classes, ...) \
    holds(what, classes, (const struct line[]){__VA_ARGS__}, \
          sizeof((const struct line[]){__VA_ARGS__}) / sizeof(struct line))

static void clear(void) { memset(table, 0, TABLE); }

/* The table is, byte for byte, the one with these classes and transitions. */
static void holds(const char *what, const char *classes, const struct line *lines, size_t count)
{
    static uint8_t want[TABLE];
    build(want, classes, lines, (unsigned)count);
    expect(what, (uint64_t)(memcmp(table, want, TABLE) != 0), 0);
}

/* Adds trees to the empty table, whatever the numbers on the way. */
static void start(const char *const *trees, size_t count)
{
    clear();
    for (size_t i = 0; i < count; i++) {
        uint8_t listing[SCALEBENCH_LISTING_BYTES];
        size_t length = list(trees[i], listing);
        uint64_t answer = scalebench_add(listing, length, table, TABLE, scratch, SCRATCH);
        expect(trees[i], scalebench_refusal(answer), 0);
    }
}

#define START(...) \
    start((const char *const[]){__VA_ARGS__}, sizeof((const char *const[]){__VA_ARGS__}) / sizeof(char *))

static void p6(void) { START("(1 (1) (1))", "(1 (1) (2))", "(1 (2) (1))", "(1 (2) (2))"); }

static void samples(void)
{
    clear();
    add("(1)", counts(1, 1));
    HOLDS("P5", "1", {1, 0, {0}, 1});
    add("(1)", 14);
    drop("(2)", 15);
    drop("(1)", 0);
    expect("P10", (uint64_t)is_zero(table, TABLE), 1);
    p6();
    expect("P6", scalebench_intake(table, TABLE), counts(2, 3));
    HOLDS("P6", "01", {1, 0, {0}, 1}, {2, 0, {0}, 1}, {1, 2, {1, 1}, 2});
    add("(2 (1) (2))", counts(3, 7));
    holds("P7, by section 3.4 of the paper", "001", example, 7);
    drop("(2 (1) (2))", counts(2, 3));
    HOLDS("P8", "01", {1, 0, {0}, 1}, {2, 0, {0}, 1}, {1, 2, {1, 1}, 2});
    drop("(1 (1) (1))", counts(3, 5));
    HOLDS("P9", "001", {1, 0, {0}, 1}, {2, 0, {0}, 2}, {1, 2, {1, 2}, 3}, {1, 2, {2, 1}, 3}, {1, 2, {2, 2}, 3});
    p6();
    add("(1)", counts(3, 6));
    HOLDS("P11", "101", {1, 0, {0}, 1}, {2, 0, {0}, 2}, {1, 2, {1, 1}, 3}, {1, 2, {1, 2}, 3}, {1, 2, {2, 1}, 3},
          {1, 2, {2, 2}, 3});
}

/* Adds all trees with this label and eight children from (1) and (2). */
static void add_family(unsigned label)
{
    for (unsigned bits = 0; bits < 256; bits++) {
        uint8_t listing[9 * NODE];
        put_node(listing, 0, label, 8);
        for (unsigned k = 0; k < 8; k++)
            put_node(listing, 1 + k, 1 + (bits >> k & 1), 0);
        uint64_t answer = scalebench_add(listing, sizeof listing, table, TABLE, scratch, SCRATCH);
        expect("a tree of a family", scalebench_refusal(answer), 0);
    }
}

/* The table of m families and (20 (1)), all transitions of them. */
static void families_split(uint8_t *want, unsigned labels)
{
    begin(want, "001");
    append(want, 1, 0, NULL, 1);
    append(want, 2, 0, NULL, 2);
    append(want, 20, 1, (const uint8_t[]){1}, 3);
    for (unsigned label = 3; label < 3 + labels; label++)
        for (unsigned bits = 0; bits < 256; bits++) {
            uint8_t args[8];
            for (unsigned k = 0; k < 8; k++)
                args[k] = (uint8_t)(1 + (bits >> (7 - k) & 1));
            append(want, label, 8, args, 3);
        }
}

static void of_256(void)
{
    static uint8_t want[TABLE];
    clear();
    for (unsigned labels = 1; labels <= 3; labels++) {
        add_family(2 + labels);
        families(want, labels);
        expect("families", (uint64_t)(memcmp(table, want, TABLE) != 0), 0);
        add("(20 (1))", counts(3, 256 * labels + 3));
        families_split(want, labels);
        expect("families split", (uint64_t)(memcmp(table, want, TABLE) != 0), 0);
        drop("(20 (1))", counts(2, 2 + labels));
    }
    families(table, 4);
    add("(20 (1))", 17);
    drop("(3 (1) (1) (1) (1) (1) (1) (1) (1))", 17);
    families(table, 11);
    add("(20 (1))", 17);
    families(table, 12);
    add("(20 (1))", 16);
    drop("(3 (1) (1) (1) (1) (1) (1) (1) (1))", 16);
}

static void cloning_traps(void)
{
    START("(5 (1) (1))", "(5 (1) (2))", "(5 (2) (1))", "(5 (2) (2))");
    add("(6 (1))", counts(3, 7));
    HOLDS("a state twice in the arguments: three new transitions", "001", {1, 0, {0}, 1}, {2, 0, {0}, 2},
          {6, 1, {1}, 3}, {5, 2, {1, 1}, 3}, {5, 2, {1, 2}, 3}, {5, 2, {2, 1}, 3}, {5, 2, {2, 2}, 3});
    START("(1)", "(2)", "(5 (1))", "(5 (2))");
    HOLDS("two approved leaves alike", "11", {1, 0, {0}, 1}, {2, 0, {0}, 1}, {5, 1, {1}, 2});
    add("(6 (1))", counts(3, 5));
    HOLDS("a split state keeps its class", "111", {1, 0, {0}, 1}, {2, 0, {0}, 2}, {5, 1, {1}, 3}, {5, 1, {2}, 3},
          {6, 1, {1}, 3});
    START("(7 (5 (1)))", "(7 (5 (2)))");
    add("(8 (5 (1)))", counts(5, 7));
    HOLDS("one transition carries many trees", "00001", {1, 0, {0}, 1}, {2, 0, {0}, 2}, {5, 1, {1}, 3}, {5, 1, {2}, 4},
          {7, 1, {3}, 5}, {7, 1, {4}, 5}, {8, 1, {3}, 5});
    START("(7 (5 (1)))", "(7 (5 (2)))");
    drop("(7 (5 (1)))", counts(3, 3));
    HOLDS("and a removal takes one of them", "001", {2, 0, {0}, 1}, {5, 1, {1}, 2}, {7, 1, {2}, 3});
    START("(5 (1))", "(5 (2))");
    add("(6 (1) (2))", counts(3, 5));
    HOLDS("all trees of a state are parts of the tree", "001", {1, 0, {0}, 1}, {2, 0, {0}, 2}, {5, 1, {1}, 3},
          {5, 1, {2}, 3}, {6, 2, {1, 2}, 3});
}

static void merging_traps(void)
{
    START("(1)", "(2 (3))");
    drop("(2 (3))", counts(1, 1));
    HOLDS("no part that leads nowhere is left", "1", {1, 0, {0}, 1});
    START("(1 (2) (3))", "(1 (2) (4))", "(6 (2))");
    drop("(6 (2))", counts(3, 4));
    HOLDS("a part used elsewhere stays", "001", {2, 0, {0}, 1}, {3, 0, {0}, 2}, {4, 0, {0}, 2}, {1, 2, {1, 2}, 3});
    drop("(1 (2) (4))", counts(3, 3));
    HOLDS("and the other part goes", "001", {2, 0, {0}, 1}, {3, 0, {0}, 2}, {1, 2, {1, 2}, 3});
    START("(5 (3) (1))", "(5 (3) (2))");
    HOLDS("alike in the second place", "001", {1, 0, {0}, 1}, {2, 0, {0}, 1}, {3, 0, {0}, 2}, {5, 2, {2, 1}, 3});
    add("(6 (3) (1))", counts(4, 6));
    HOLDS("told apart by the second place", "0001", {1, 0, {0}, 1}, {2, 0, {0}, 2}, {3, 0, {0}, 3}, {5, 2, {3, 1}, 4},
          {5, 2, {3, 2}, 4}, {6, 2, {3, 1}, 4});
    START("(5 (3) (3) (3) (3) (3) (3) (3) (1))", "(5 (3) (3) (3) (3) (3) (3) (3) (2))");
    add("(6 (3) (3) (3) (3) (3) (3) (3) (1))", counts(4, 6));
    HOLDS("told apart by the eighth place", "0001", {1, 0, {0}, 1}, {2, 0, {0}, 2}, {3, 0, {0}, 3},
          {5, 8, {3, 3, 3, 3, 3, 3, 3, 1}, 4}, {5, 8, {3, 3, 3, 3, 3, 3, 3, 2}, 4},
          {6, 8, {3, 3, 3, 3, 3, 3, 3, 1}, 4});
    drop("(6 (3) (3) (3) (3) (3) (3) (3) (1))", counts(3, 4));
}

int main(void)
{
    samples();
    of_256();
    cloning_traps();
    merging_traps();
    return finished();
}
