/* What the test programs share: expectations, trees from their brackets, and tables built by hand. */
#ifndef TABLES_H
#define TABLES_H

#include "scalebench.h"

#include <stdio.h>
#include <stdlib.h>
#include <string.h>

enum { TABLE = SCALEBENCH_TABLE_BYTES, SCRATCH = SCALEBENCH_SCRATCH_BYTES, HEAD = 203, STATES = 200 };

/* The bytes of a node in a listing and of a transition in a table, and where the fields behind the label are. */
enum { NODE = 3, COUNT_AT = 2, WIDTH = 12, ARITY_AT = 2, ARGS_AT = 3, OUT_AT = 11 };

static int passed, failed;

static inline void expect(const char *what, uint64_t got, uint64_t want)
{
    if (got == want) {
        passed++;
        return;
    }
    failed++;
    printf("%s: got %llu, want %llu\n", what, (unsigned long long)got, (unsigned long long)want);
}

/* The last line of a test program, and its exit status. */
static inline int finished(void)
{
    printf("%d passed, %d failed\n", passed, failed);
    return failed != 0;
}

/* What ask answers for a tree that is part of an approved one, and for one that the node at this place stops. */
enum { PART = 512 };
static inline uint64_t stopped_at(uint64_t place) { return place << 16; }

/* What intake, add and remove answer that are not refused. */
static inline uint64_t counts(uint64_t states, uint64_t transitions) { return states << 16 | transitions << 32; }

/* A label in bytes: the high one first. */
static inline void put_label(uint8_t *bytes, unsigned label)
{
    bytes[0] = (uint8_t)(label / 256);
    bytes[1] = (uint8_t)(label % 256);
}

/* A node of a listing, by its place from 0 on. */
static inline void put_node(uint8_t *listing, size_t node, unsigned label, unsigned count)
{
    put_label(listing + NODE * node, label);
    listing[NODE * node + COUNT_AT] = (uint8_t)count;
}

/* The listing of a leaf. */
static inline void put_leaf(uint8_t *listing, unsigned label) { put_node(listing, 0, label, 0); }

/* The listing of a chain of so many nodes, labels rising by `step` from the leaf up; its length. */
static inline size_t list_chain(uint8_t *listing, unsigned nodes, unsigned leaf, unsigned step)
{
    for (unsigned i = 0; i < nodes; i++)
        put_node(listing, i, leaf + step * (nodes - 1 - i), i + 1 < nodes);
    return NODE * (size_t)nodes;
}

/* The listing of a tree written in brackets; its length. */
static inline size_t list(const char *text, uint8_t *listing)
{
    size_t open[64], depth = 0, length = 0;
    for (const char *s = text; *s;) {
        if (*s == '(') {
            if (depth)
                listing[open[depth - 1] + COUNT_AT]++;
            open[depth++] = length;
            put_leaf(listing + length, (unsigned)strtoul(s + 1, (char **)&s, 10));
            length += NODE;
        } else {
            depth -= *s++ == ')';
        }
    }
    return length;
}

struct line {
    uint16_t label;
    uint8_t arity, args[8], out;
};

/* The paper's example. */
static const struct line example[] = {
    {1, 0, {0}, 1},    {2, 0, {0}, 2},    {1, 2, {1, 1}, 3}, {1, 2, {1, 2}, 3},
    {1, 2, {2, 1}, 3}, {1, 2, {2, 2}, 3}, {2, 2, {1, 2}, 3},
};

/* One transition more, behind those that a table has; the caller keeps the order. */
static inline void append(uint8_t *table, unsigned label, unsigned arity, const uint8_t *args, unsigned out)
{
    unsigned count = 256u * table[201] + table[202];
    uint8_t *line = table + HEAD + WIDTH * count++;
    put_label(line, label);
    line[ARITY_AT] = (uint8_t)arity;
    for (unsigned k = 0; k < arity; k++)
        line[ARGS_AT + k] = args[k];
    line[OUT_AT] = (uint8_t)out;
    table[201] = (uint8_t)(count / 256);
    table[202] = (uint8_t)(count % 256);
}

/* No transitions yet, and the classes of these states, '1' for approved. */
static inline void begin(uint8_t *table, const char *classes)
{
    memset(table, 0, TABLE);
    table[0] = (uint8_t)strlen(classes);
    for (unsigned q = 0; classes[q]; q++)
        table[1 + q] = classes[q] == '1';
}

static inline void build(uint8_t *table, const char *classes, const struct line *lines, unsigned count)
{
    begin(table, classes);
    for (unsigned i = 0; i < count; i++)
        append(table, lines[i].label, lines[i].arity, lines[i].args, lines[i].out);
}

/* Labels 3 and on, each over all 256 choices of eight children from (1) and (2): both leaves run to state 1. */
static inline void families(uint8_t *table, unsigned labels)
{
    begin(table, "01");
    append(table, 1, 0, NULL, 1);
    append(table, 2, 0, NULL, 1);
    for (unsigned label = 3; label < 3 + labels; label++)
        append(table, label, 8, (const uint8_t[]){1, 1, 1, 1, 1, 1, 1, 1}, 2);
}

/* 200 states, the last approved. */
static inline void begin_full(uint8_t *table)
{
    char classes[STATES + 1];
    memset(classes, '0', STATES);
    classes[STATES - 1] = '1';
    classes[STATES] = 0;
    begin(table, classes);
}

/* Each state under the next, the labels rising or falling along the chain; `places` arguments, `each` of them a state
   where there is room. */
static inline void chain(uint8_t *table, int falling, unsigned places, unsigned each)
{
    begin_full(table);
    append(table, 1, 0, NULL, 1);
    for (unsigned label = 1, count = 1; label < STATES; label++) {
        unsigned q = falling ? STATES - label : label;
        for (unsigned j = q < each ? q : each; j-- > 0 && count < 1024; count++) {
            uint8_t args[8];
            memset(args, (int)q, sizeof args);
            args[places - 1] = (uint8_t)(q - j);
            append(table, label, places, args, q + 1);
        }
    }
}

#endif
