/* Listings in words. */
#ifndef NODE_H
#define NODE_H

#include <stddef.h>
#include <stdint.h>

/*
 * The most bytes of a node in words, of a tree in brackets and of what is printed of a tree that is not approved, with
 * the byte that ends them.
 */
enum { NODE_TEXT = 512, TREE_TEXT = 512, NOT_TEXT = 16 };

/*
 * The node at a place, counted from 1, of a listing that no call refuses: its label and the labels above it, from the
 * top on, as in "node 4, label 31, under 10 > 20".
 */
void node_text(const uint8_t *tree, unsigned place, char *text);

/* The tree of such a listing in brackets, as in "(1 (1) (2))". */
void tree_text(const uint8_t *tree, char *text);

/* What is printed of a tree that is not approved, by the answer of ask: "not part" or "not" and the place. */
const char *not_text(uint64_t answer, char *text);

/* Gives the reason why the tree is not approved. */
void explain_not(const uint8_t *tree, uint64_t answer);

#endif
