/* See node.h. */
#include "node.h"

#include "message.h"
#include "scalebench.h"

#include <stdio.h>

/* A node has two bytes of label, the high one first, and its child count. */
enum { NODE = 3, COUNT_AT = 2, NODES = SCALEBENCH_LISTING_BYTES / NODE };

static unsigned label(const uint8_t *node)
{
    return 256u * node[0] + node[1];
}

void node_text(const uint8_t *tree, unsigned place, char *text)
{
    unsigned above[NODES], children[NODES], depth = 0; /* the nodes above the next, and their children still to come */
    for (unsigned node = 0; node + 1 < place; node++) {
        if (depth > 0)
            children[depth - 1]--;
        above[depth] = node;
        children[depth++] = tree[NODE * node + COUNT_AT];
        while (depth > 0 && children[depth - 1] == 0)
            depth--;
    }
    text += sprintf(text, "node %u, label %u, %s", place, label(tree + NODE * (place - 1)),
                    depth > 0 ? "under" : "the top");
    for (unsigned i = 0; i < depth; i++)
        text += sprintf(text, "%s %u", i > 0 ? " >" : "", label(tree + NODE * above[i]));
}

void tree_text(const uint8_t *tree, char *text)
{
    unsigned children[NODES], depth = 0; /* of the node and those above it: how many are still to come */
    for (const uint8_t *node = tree;; node += NODE) {
        text += sprintf(text, "(%u", label(node));
        children[depth++] = node[COUNT_AT];
        for (; depth > 0 && children[depth - 1] == 0; depth--)
            *text++ = ')';
        if (depth == 0)
            break;
        children[depth - 1]--;
        *text++ = ' ';
    }
    *text = 0;
}

const char *not_text(uint64_t answer, char *text)
{
    if (scalebench_part(answer))
        return "not part";
    sprintf(text, "not %u", scalebench_place(answer));
    return text;
}

void explain_not(const uint8_t *tree, uint64_t answer)
{
    char node[NODE_TEXT];
    if (scalebench_part(answer)) {
        give_reason("not approved: part of an approved assembly");
        return;
    }
    node_text(tree, scalebench_place(answer), node);
    give_reason("not approved: %s", node);
}
