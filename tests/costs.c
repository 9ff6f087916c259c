/* What calls cost on tables that are large or in a bad order for marks that spread: no call takes a second. */
#include "tables.h"

#include <time.h>

static uint8_t table[TABLE], before[TABLE], scratch[SCRATCH];
static double worst;
static char worst_call[128];

static double seconds(void)
{
    struct timespec now;
    timespec_get(&now, TIME_UTC);
    return (double)now.tv_sec + 1e-9 * (double)now.tv_nsec;
}

static void note(const char *what, const char *call, double took)
{
    printf("%s, %s: %.3f ms\n", what, call, 1e3 * took);
    expect(what, took < 1, 1);
    if (took > worst) {
        worst = took;
        snprintf(worst_call, sizeof worst_call, "%s, %s", what, call);
    }
}

static void cost_of_total(const char *what)
{
    uint64_t number = 0;
    double began = seconds();
    uint64_t answer = scalebench_total(table, TABLE, &number);
    note(what, "total", seconds() - began);
    expect(what, scalebench_refusal(answer), 0);
}

/* The first tree, if it fits a listing, and its number. */
static void cost_of_numbers(const char *what)
{
    uint8_t listing[SCALEBENCH_LISTING_BYTES] = {0};
    uint64_t number = UINT64_MAX;
    size_t nodes = 1;
    double began = seconds();
    uint64_t answer = scalebench_unrank(0, table, TABLE, listing, sizeof listing);
    note(what, "unrank", seconds() - began);
    expect(what, answer == 0 || (answer >= 18 && answer <= 20), 1);
    if (answer != 0)
        return;
    while (nodes < 48 && (listing[NODE * nodes] || listing[NODE * nodes + 1]))
        nodes++;
    began = seconds();
    answer = scalebench_rank(listing, NODE * nodes, table, TABLE, &number);
    note(what, "rank", seconds() - began);
    expect(what, scalebench_approved(answer) && number == 0, 1);
}

/* The table passes; ask on it is repeated, so that a small cost shows. */
static void cost_of_ask(const char *what)
{
    const uint8_t leaf[] = {0, 255, 0};
    unsigned asks = 0;
    uint64_t refusals = 0;
    double began = seconds(), each;
    do {
        refusals += scalebench_refusal(scalebench_ask(leaf, sizeof leaf, table, TABLE));
        each = (seconds() - began) / ++asks;
    } while (each * asks < 0.05);
    expect(what, refusals, 0);
    expect(what, scalebench_intake(table, TABLE), counts(table[0], 256u * table[201] + table[202]));
    note(what, "ask", each);
    cost_of_total(what);
    cost_of_numbers(what);
}

/* The tree added to the table, and removed where it was added, which gives the first bytes back. */
static void cost_of_change(const char *what, const uint8_t *tree, size_t length, uint64_t want)
{
    memcpy(before, table, TABLE);
    double began = seconds();
    uint64_t answer = scalebench_add(tree, length, table, TABLE, scratch, SCRATCH);
    note(what, "add", seconds() - began);
    expect(what, answer, want);
    if (scalebench_refusal(answer) == 0) {
        began = seconds();
        answer = scalebench_remove(tree, length, table, TABLE, scratch, SCRATCH);
        note(what, "remove", seconds() - began);
        expect(what, scalebench_refusal(answer), 0);
    }
    expect(what, (uint64_t)(memcmp(before, table, TABLE) != 0), 0);
}

/* The chain of 48 nodes, labels rising from the leaf up: 48 distinct subtrees. */
static void cost_of_48(const char *what, unsigned leaf, uint64_t want)
{
    uint8_t tree[48 * NODE];
    cost_of_change(what, tree, list_chain(tree, 48, leaf, 1), want);
}

/* Four chains of 48 nodes in one table, which share but the approved state. */
static void cost_of_four(void)
{
    memset(table, 0, TABLE);
    for (unsigned leaf = 1, states = 48; leaf <= 101; leaf += 50, states += 47) {
        uint8_t tree[48 * NODE];
        size_t length = list_chain(tree, 48, leaf, 1);
        expect("a chain more", scalebench_add(tree, length, table, TABLE, scratch, SCRATCH),
               counts(states, 48 * (states / 47)));
    }
    cost_of_ask("three chains of 48");
    cost_of_48("three chains of 48, one more", 151, counts(189, 192));
}

/* 199 leaves, each beside itself and its next three in pairs that lead to one state; 1,024 transitions. */
static void star(void)
{
    unsigned count = STATES - 1;
    begin_full(table);
    for (unsigned q = 1; q < STATES; q++)
        append(table, q, 0, NULL, q);
    for (unsigned q = 1; q < STATES; q++)
        for (unsigned p = q; p < q + 4 && p < STATES; p++, count++)
            append(table, 1, 2, (const uint8_t[]){(uint8_t)q, (uint8_t)p}, STATES);
    for (uint8_t q = 1; count < 1024; q++, count++)
        append(table, 2, 2, (const uint8_t[]){q, q}, STATES);
}

/* A chain over two leaves in one state, and this many labels that have each of its first 47 states in all places. A
   chain of 48 nodes over one leaf takes a state of its own at each step: as many pairs as there can be. */
static void ladder(unsigned states, unsigned places, unsigned labels)
{
    memset(table, 0, TABLE);
    table[0] = (uint8_t)states;
    table[states] = 1;
    append(table, 1, 0, NULL, 1);
    append(table, 255, 0, NULL, 1);
    for (unsigned q = 1; q < states; q++)
        append(table, 1 + q, 1, (const uint8_t[]){(uint8_t)q}, q + 1);
    for (unsigned label = 1; label <= labels; label++)
        for (unsigned q = 1; q < 48; q++) {
            uint8_t args[8];
            memset(args, (int)q, sizeof args);
            append(table, label, places, args, states);
        }
}

/* All transitions of these labels and arities from states 1, of (1) and (2), and 2, of (3) and (4); (20 (1)) and (20
   (2)) tell them apart. Adding (20 (3)) makes a product of 3,072 transitions, and (3) joins state 1. */
static void fork_of_3072(void)
{
    const uint8_t arities[] = {2, 3, 3, 4, 6, 7};
    begin(table, "001");
    for (unsigned label = 1; label <= 10; label++)
        append(table, label, 0, NULL, label < 3 ? 1 : label < 5 ? 2 : 3);
    append(table, 20, 1, (const uint8_t[]){1}, 3);
    for (unsigned i = 0; i < sizeof arities; i++)
        for (unsigned bits = 0; bits < 1u << arities[i]; bits++) {
            uint8_t args[8];
            for (unsigned k = 0; k < arities[i]; k++)
                args[k] = (uint8_t)(1 + (bits >> (arities[i] - 1 - k) & 1));
            append(table, 30 + i, arities[i], args, 3);
        }
}

static void chains(const char *what, int falling, unsigned places, unsigned each)
{
    const uint8_t leaf[] = {0, 255, 0};
    chain(table, falling, places, each);
    cost_of_ask(what);
    cost_of_change(what, leaf, sizeof leaf, counts(200, 256u * table[201] + table[202] + 1));
    cost_of_48(what, 201, 17);
}

int main(void)
{
    const uint8_t split[] = {0, 20, 1, 0, 1, 0}, joined[] = {0, 20, 1, 0, 3, 0};
    memset(table, 0, TABLE);
    cost_of_ask("the empty set");
    cost_of_48("the empty set, 48 subtrees", 201, counts(48, 48));
    build(table, "001", example, 7);
    cost_of_ask("the example");
    families(table, 11);
    cost_of_ask("eleven families");
    cost_of_change("eleven families", split, sizeof split, 17);
    cost_of_48("eleven families, 48 subtrees", 201, counts(49, 61));
    fork_of_3072();
    cost_of_ask("a fork");
    cost_of_change("a fork of 3,072", joined, sizeof joined, counts(3, 239));
    cost_of_four();
    ladder(150, 2, 3);
    cost_of_ask("a ladder");
    cost_of_48("a ladder, 198 states", 1, counts(198, 763));
    ladder(200, 3, 7);
    cost_of_48("a ladder, 248 pairs", 1, 17);
    star();
    cost_of_ask("a star");
    cost_of_48("a star, 48 subtrees", 201, 17);
    chains("a chain, labels rising", 0, 1, 1);
    chains("a chain, labels falling", 1, 1, 1);
    chains("a chain of eight places", 1, 8, 1);
    chains("a chain of eight places, five transitions a state", 1, 8, 5);
    printf("worst: %s, %.3f ms\n", worst_call, 1e3 * worst);
    return finished();
}
