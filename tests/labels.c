/*
 * Order 5, labels of two bytes, through the C interface: both bytes count, the high one first, in listings, in the
 * order of transitions and in numbers; a label is 0 only if both are; what has the old lengths is refused.
 */
#include "calling.h"

/* By rising number. By the low byte first, or by one byte alone, they have another order or are not all different. */
static const unsigned labels[] = {1,   2,   255, 256,   257,   258,   511,   512,
                                  513, 768, 32767, 32768, 65280, 65281, 65534, 65535};
enum { LABELS = sizeof labels / sizeof *labels, LISTING = SCALEBENCH_LISTING_BYTES };

static void clear(void) { memset(table, 0, TABLE); }

static void same_table(const char *what, const uint8_t *want)
{
    expect(what, (uint64_t)(memcmp(table, want, TABLE) != 0), 0);
}

/* Each label alone in a table; every other one is not approved. */
static void each_alone(void)
{
    static uint8_t want[TABLE];
    for (unsigned i = 0; i < LABELS; i++) {
        uint8_t leaf[NODE], listing[LISTING];
        uint64_t number = 9;
        clear();
        begin(want, "1");
        append(want, labels[i], 0, NULL, 1);
        put_leaf(leaf, labels[i]);
        call("a label alone", scalebench_add, leaf, NODE, TABLE, SCRATCH, counts(1, 1));
        same_table("a label alone", want);
        expect("both bytes in the table", 256u * table[HEAD] + table[HEAD + 1], labels[i]);
        expect("its number", scalebench_rank(leaf, NODE, table, TABLE, &number), 256);
        expect("its number", number, 0);
        expect("its tree", scalebench_unrank(0, table, TABLE, listing, LISTING), 0);
        expect("its tree", memcmp(listing, leaf, NODE) == 0 && is_zero(listing + NODE, LISTING - NODE), 1);
        for (unsigned k = 0; k < LABELS; k++) {
            put_leaf(leaf, labels[k]);
            expect("asked", scalebench_ask(leaf, NODE, table, TABLE), k == i ? 256 : stopped_at(1));
        }
    }
}

/* All labels as leaves, put in from any of them on, seven further each time: one table, in the order of the labels as
   numbers. */
static void all_together(void)
{
    static uint8_t want[TABLE];
    begin(want, "1");
    for (unsigned i = 0; i < LABELS; i++)
        append(want, labels[i], 0, NULL, 1);
    for (unsigned start = 0; start < LABELS; start++) {
        clear();
        for (unsigned i = 0; i < LABELS; i++) {
            uint8_t leaf[NODE];
            put_leaf(leaf, labels[(start + 7 * i) % LABELS]);
            call("one label more", scalebench_add, leaf, NODE, TABLE, SCRATCH, counts(1, i + 1));
        }
        same_table("all labels", want);
    }
    for (unsigned i = 0; i < LABELS; i++) {
        uint8_t leaf[NODE], listing[LISTING];
        put_leaf(leaf, labels[i]);
        expect("numbers rise with labels", scalebench_unrank(i, table, TABLE, listing, LISTING), 0);
        expect("numbers rise with labels", (uint64_t)memcmp(listing, leaf, NODE), 0);
    }
}

/* Two transitions with these labels are in order exactly if the first is the lower number. */
static void order(void)
{
    for (unsigned i = 0; i < LABELS; i++)
        for (unsigned k = 0; k < LABELS; k++) {
            begin(table, "1");
            append(table, labels[i], 0, NULL, 1);
            append(table, labels[k], 0, NULL, 1);
            expect("two labels", scalebench_intake(table, TABLE), i < k ? counts(1, 2) : 8);
        }
    /* The child count comes before the label, and the label before the arguments. */
    begin(table, "11");
    append(table, 65535, 0, NULL, 1);
    append(table, 256, 1, (const uint8_t[]){1}, 2);
    append(table, 1, 2, (const uint8_t[]){2, 1}, 2);
    append(table, 256, 2, (const uint8_t[]){1, 1}, 2);
    expect("count, label, arguments", scalebench_intake(table, TABLE), 11);
    table[HEAD + 2 * WIDTH + ARGS_AT] = 1;
    expect("count, label, arguments", scalebench_intake(table, TABLE), counts(2, 4));
}

/* Labels in the middle of a tree, and the place of one that differs in one byte only. */
static void within_trees(void)
{
    const char *const others[] = {"(255 (256 (65535)) (1))", "(511 (256 (65535)) (1))", "(256 (0 (65535)) (1))",
                                  "(256 (257 (65535)) (1))", "(256 (256 (255)) (1))",   "(256 (256 (65280)) (1))",
                                  "(256 (256 (65535)) (257))"};
    const uint64_t answers[] = {stopped_at(1), stopped_at(1), 2,
                                stopped_at(2), stopped_at(3), stopped_at(3),
                                stopped_at(4)};
    clear();
    add("(256 (256 (65535)) (1))", counts(4, 4));
    for (unsigned i = 0; i < sizeof others / sizeof *others; i++) {
        uint8_t listing[LISTING];
        size_t length = list(others[i], listing);
        expect(others[i], scalebench_ask(listing, length, table, TABLE), answers[i]);
    }
    add("(256 (256 (255)) (1))", counts(4, 5));
    add("(1 (256 (65535)) (1))", counts(6, 8));
    drop("(256 (256 (65535)) (1))", counts(6, 7));
}

/* Refusals 1 and 2 in a listing, 7 for a label in a table. */
static void zeros(void)
{
    const struct {
        uint8_t bytes[6];
        size_t length;
        uint64_t answer;
    } asked[] = {
        {{0, 0, 0}, 3, 2}, {{1, 0, 0}, 3, stopped_at(1)},      {{0, 1, 0}, 3, stopped_at(1)}, {{0, 0, 9}, 3, 2},
        {{1, 0, 9}, 3, 3}, {{1, 0, 1, 0, 0, 0}, 6, 2},         {{0, 0, 1, 1, 0, 0}, 6, 2},    {{1, 0, 1}, 3, 4},
        {{1, 0}, 2, 1},    {{1, 0, 1, 1, 0, 0}, 6, stopped_at(2)}, {{1, 0, 1, 1}, 4, 1},      {{1, 0, 1, 1, 0}, 5, 1},
    };
    clear();
    for (unsigned i = 0; i < sizeof asked / sizeof *asked; i++)
        expect("a listing", scalebench_ask(asked[i].bytes, asked[i].length, table, TABLE), asked[i].answer);
    add("(256)", counts(1, 1));
    table[HEAD] = 0;
    expect("a label 0 in the table", scalebench_intake(table, TABLE), 7);
    table[HEAD + 1] = 1;
    expect("a label without a high byte", scalebench_intake(table, TABLE), counts(1, 1));
}

/* What was right before order 5. */
static void old_lengths(void)
{
    enum { OLD_TABLE = 11467, OLD_SCRATCH = 33792, OLD_LISTING = 96, OLD_READ = 252 };
    const uint8_t leaf[] = {0, 1, 0}, old_leaf[] = {1, 0};
    uint8_t listing[LISTING], line[SCALEBENCH_READ_BYTES];
    uint64_t number = 9;
    clear();
    expect("old: ask", scalebench_ask(leaf, NODE, table, OLD_TABLE), 5);
    expect("old: intake", scalebench_intake(table, OLD_TABLE), 5);
    expect("old: total", scalebench_total(table, OLD_TABLE, &number), 5);
    expect("old: rank", scalebench_rank(leaf, NODE, table, OLD_TABLE, &number), 5);
    expect("old: unrank", scalebench_unrank(0, table, OLD_TABLE, listing, LISTING), 5);
    expect("old: unrank's listing", scalebench_unrank(0, table, TABLE, listing, OLD_LISTING), 6);
    expect("old: the number", number, 9);
    call("old: add", scalebench_add, leaf, NODE, OLD_TABLE, OLD_SCRATCH, 5);
    call("old: remove", scalebench_remove, leaf, NODE, OLD_TABLE, OLD_SCRATCH, 5);
    call("old: the scratch of add", scalebench_add, leaf, NODE, TABLE, OLD_SCRATCH, 6);
    call("old: the scratch of remove", scalebench_remove, leaf, NODE, TABLE, OLD_SCRATCH, 6);
    call("old: a listing", scalebench_add, old_leaf, 2, TABLE, SCRATCH, 1);
    expect("old: read", scalebench_read((const uint8_t *)"(ask (1))", 9, line, OLD_READ), SCALEBENCH_NO_ROOM);
}

int main(void)
{
    each_alone();
    all_together();
    order();
    within_trees();
    zeros();
    old_lengths();
    return finished();
}
