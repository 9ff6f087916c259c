/*
 * Scalebench: approved weighing assemblies as a minimal tree automaton in a table of bytes.
 *
 * A tree is handed in as its listing: three bytes a node, label (1 to 65535, high byte first) and child count (0 to 8),
 * node first, then its children's listings in order; 1 to 48 nodes. A table holds the set of the approved trees; the
 * table of the empty set is all zeros. The same set always has the same table, byte for byte.
 *
 * Every call may be handed any bytes of any length: it checks all that it is given and answers with the first
 * condition that is broken. A pointer may be NULL if its length is 0.
 *
 * Aliasing. What a call writes (table and scratch of add and remove, the number of total and rank, the listing of
 * unrank and read) shares no byte with anything else that the call gets, and nobody else writes to what a call is given
 * while it runs. Two things that a call only reads may overlap.
 *
 * Threads. The library has no state of its own, calls nothing of its host but memcpy and memset, and takes no memory
 * but stack; SCALEBENCH_CHANGE_STACK_BYTES and the like below say how much. Calls on different tables may run at the same time; so may ask, intake, total, rank and
 * unrank on one table while nobody changes it.
 *
 * A whole program. It prints "approved, 2 states, 2 transitions".
 *
 *     #include <scalebench.h>
 *     #include <stdio.h>
 *
 *     static uint8_t table[SCALEBENCH_TABLE_BYTES], scratch[SCALEBENCH_SCRATCH_BYTES];
 *
 *     int main(void)
 *     {
 *         const uint8_t tree[] = {0, 1, 2, 0, 1, 0, 0, 1, 0};
 *         uint64_t added = scalebench_add(tree, sizeof tree, table, sizeof table, scratch, sizeof scratch);
 *         if (scalebench_refusal(added)) {
 *             fprintf(stderr, "refused: %s\n", scalebench_reason(scalebench_refusal(added)));
 *             return 1;
 *         }
 *         uint64_t asked = scalebench_ask(tree, sizeof tree, table, sizeof table);
 *         printf("%s, %u states, %u transitions\n", scalebench_approved(asked) ? "approved" : "not approved",
 *                scalebench_states(added), scalebench_transitions(added));
 *         return 0;
 *     }
 */
#ifndef SCALEBENCH_H
#define SCALEBENCH_H

#include <stddef.h>
#include <stdint.h>

#ifdef __cplusplus
extern "C" {
#define SCALEBENCH_AS(type, number) static_cast<type>(number)
#else
#define SCALEBENCH_AS(type, number) ((type)(number))
#endif

/* The version of the library, of this header and of the host. */
#define SCALEBENCH_VERSION "0.7.0"

/*
 * The lengths that a table and a scratch must have. The greatest length of a listing for ask, rank, add and remove is
 * the length that the listing lent to unrank must have.
 */
#define SCALEBENCH_TABLE_BYTES 12491
#define SCALEBENCH_SCRATCH_BYTES 36864
#define SCALEBENCH_LISTING_BYTES 144

/* The length that the listing lent to read must have, and the greatest length of a line. */
#define SCALEBENCH_READ_BYTES 378
#define SCALEBENCH_LINE_BYTES 512

/*
 * The stack that a call takes at most: add and remove; ask and intake; total, rank and unrank; read. Measured on x86-64
 * (59, 11, 24 and 33 KiB) and rounded up. tests/stack.c makes the calls on stacks of these sizes.
 */
#define SCALEBENCH_CHANGE_STACK_BYTES 81920
#define SCALEBENCH_ASK_STACK_BYTES 16384
#define SCALEBENCH_TOTAL_STACK_BYTES 36864
#define SCALEBENCH_READ_STACK_BYTES 49152

/*
 * Whether the tree is approved. If it is not, whether it is part of an approved tree: a node of one with all that is
 * below it. If it is no part, the answer has the place of the node that stops it. That is the first node in the listing
 * that is not part of an approved tree, with all that is below it, while each of its children is. Refuses by 1 to 5 and
 * 7 to 13. Writes nothing.
 */
uint64_t scalebench_ask(const uint8_t *tree, size_t tree_len, const uint8_t *table, size_t table_len);

/*
 * Whether the table is one that these calls leave, with its numbers of states and transitions. Refuses by 5 and 7 to
 * 13. Writes nothing. A host takes in every table that comes from outside; the other calls check it again.
 */
uint64_t scalebench_intake(const uint8_t *table, size_t table_len);

/*
 * How many trees are approved. Not refused: `*number` is that many, from 0 for the empty set on, or the answer is over
 * (scalebench_over) because they are more than 18446744073709551615. Refuses by 5 and 7 to 13. A refusal and over leave
 * `*number` as it was; `number` is not NULL. Writes nothing else.
 */
uint64_t scalebench_total(const uint8_t *table, size_t table_len, uint64_t *number);

/*
 * The serial number of an approved tree, from 0 to the total less one. Trees are ordered by the state that they lead
 * to, then by the transition used at the top node, in the order of the table, then by their children, the first that
 * differ deciding. So the number is how many approved trees come before it, and a change of the set may give the tree
 * another one. First does all that ask does: refuses by 1 to 5 and 7 to 13, and a tree that is not approved gets ask's
 * answer. Then refuses by 18. Else the answer is approved, and `*number` is the tree's. Any other answer leaves
 * `*number` as it was; `number` is not NULL. Writes nothing else.
 */
uint64_t scalebench_rank(const uint8_t *tree, size_t tree_len, const uint8_t *table, size_t table_len,
                         uint64_t *number);

/*
 * The approved tree that has a serial number. Not refused: returns 0, the listing of the tree stands at the start of
 * `listing`, and zeros follow. Cut them off before the listing goes to ask, rank, add or remove, which refuse what
 * follows a tree: scalebench_listed is the length of the listing. Then rank gives the number back, and unrank of the
 * number that rank gave writes that tree. Refuses by 5, by 6 if the listing is not SCALEBENCH_LISTING_BYTES long, by 7
 * to 13 and by 18 to 20. A table can approve trees of any size, so some numbers may be refused by 20. A refusal leaves
 * every byte of the listing as it was. Writes nothing else.
 */
uint64_t scalebench_unrank(uint64_t number, const uint8_t *table, size_t table_len, uint8_t *listing,
                           size_t listing_len);

/*
 * Puts the tree into the set, or takes it out. Not refused: the table is that of the new set, and the answer has its
 * numbers of states and transitions. Add refuses by 1 to 14, 16 and 17, remove by 1 to 13 and 15 to 17; a refusal
 * leaves every byte of the table as it was.
 *
 * The scratch is memory to work in; what it holds before the call does not matter. After refusals 1 to 15 it is as it
 * was, after 16, 17 and a change it is all zeros.
 */
uint64_t scalebench_add(const uint8_t *tree, size_t tree_len, uint8_t *table, size_t table_len, uint8_t *scratch,
                        size_t scratch_len);
uint64_t scalebench_remove(const uint8_t *tree, size_t tree_len, uint8_t *table, size_t table_len, uint8_t *scratch,
                           size_t scratch_len);

/*
 * Reads one line of text, without its end: (add TREE), (drop TREE), (ask TREE) or (total). TREE is a label in decimal
 * with its child trees after it, in brackets, as in (1 (1) (2)). The kind of the answer is one of those below. The
 * listing of the line's tree goes to the start of `listing`, with zeros after it; all zeros if the line has no listing.
 * It may break the conditions of the calls (label 0, nine children, more than 48 nodes), which then refuse it.
 */
uint64_t scalebench_read(const uint8_t *line, size_t line_len, uint8_t *listing, size_t listing_len);

enum {
    SCALEBENCH_NO_ROOM = 0, /* the listing is not SCALEBENCH_READ_BYTES long; nothing was read or written */
    SCALEBENCH_ADD = 1,     /* put in, take out or ask for the tree listed */
    SCALEBENCH_DROP = 2,
    SCALEBENCH_ASK = 3,
    SCALEBENCH_FORM = 4, /* malformed; the answer has the column */
    SCALEBENCH_LONG = 5, /* above SCALEBENCH_LINE_BYTES */
    SCALEBENCH_TOTAL = 6 /* count the approved trees */
};

/*
 * The number that a call returns is refusal + 256 * kind + 65536 * first + 4294967296 * second. A refused call returns
 * the number of the refusal and nothing else; 0 is no refusal.
 */
static inline unsigned scalebench_refusal(uint64_t answer) { return SCALEBENCH_AS(unsigned, answer & 255); }
static inline unsigned scalebench_kind(uint64_t answer) { return SCALEBENCH_AS(unsigned, answer >> 8 & 255); }

/*
 * Of ask and rank: whether the tree is approved; whether it is not, but part of an approved tree; the place of the
 * node that stops it, counted in nodes of the listing from 1, else 0.
 */
static inline int scalebench_approved(uint64_t answer) { return scalebench_kind(answer) == 1; }
static inline int scalebench_part(uint64_t answer) { return scalebench_kind(answer) == 2; }
static inline unsigned scalebench_place(uint64_t answer) { return SCALEBENCH_AS(unsigned, answer >> 16 & 65535); }

/* Of total: whether the trees are too many for the number. */
static inline int scalebench_over(uint64_t answer) { return scalebench_kind(answer) == 1; }

/* Of intake, add and remove, not refused: the numbers of states and of transitions that the table has now. */
static inline unsigned scalebench_states(uint64_t answer) { return SCALEBENCH_AS(unsigned, answer >> 16 & 65535); }
static inline unsigned scalebench_transitions(uint64_t answer) { return SCALEBENCH_AS(unsigned, answer >> 32); }

/* Of read: the length of the listing; the column, from 1, of the first byte that no well-formed line has there. */
static inline size_t scalebench_length(uint64_t answer) { return SCALEBENCH_AS(unsigned, answer >> 16 & 65535); }
static inline unsigned scalebench_column(uint64_t answer) { return SCALEBENCH_AS(unsigned, answer >> 16 & 65535); }

/*
 * The length of the listing that stands at the start of these bytes: three a node, as many nodes as the child counts
 * ask for. Never more than `len`, whatever the bytes are.
 */
static inline size_t scalebench_listed(const uint8_t *listing, size_t len)
{
    size_t at = 0;
    size_t trees = 1; /* still to come */
    while (trees > 0 && len - at >= 3) {
        trees += listing[at + 2];
        trees--;
        at += 3;
    }
    return at;
}

/*
 * A refusal in words. Each condition is checked over its whole input before the next, so that the number returned is
 * that of the first one broken.
 */
static inline const char *scalebench_reason(unsigned refusal)
{
    static const char *const reasons[] = {
        /*  0 */ "not refused",
        /*  1 */ "the listing is shorter than 3 bytes, longer than 144, or no multiple of 3",
        /*  2 */ "both bytes of a label are 0",
        /*  3 */ "a child count is above 8",
        /*  4 */ "the child counts do not make exactly one tree",
        /*  5 */ "the table is not 12491 bytes long",
        /*  6 */ "the scratch is not 36864 bytes long, or the listing to be written not 144",
        /*  7 */ "a field of the table is out of its range, or a byte that must be 0 is not",
        /*  8 */ "the transitions of the table are not in strictly rising order",
        /*  9 */ "some state of the table has no tree that leads to it",
        /* 10 */ "some state of the table has no approved tree with a part that leads to it",
        /* 11 */ "some state of the table comes back to itself, going from arguments to outputs",
        /* 12 */ "two different states of the table are alike",
        /* 13 */ "the states of the table are not numbered by the rule",
        /* 14 */ "the tree is approved already",
        /* 15 */ "the tree is not approved",
        /* 16 */ "the product of the table and the tree has more than 3072 transitions",
        /* 17 */ "the new table needs more than 200 states or 1024 transitions",
        /* 18 */ "more than 18446744073709551615 trees are approved, so they have no numbers",
        /* 19 */ "the number is not below the number of approved trees",
        /* 20 */ "the tree has more than 48 nodes",
    };
    return refusal < sizeof reasons / sizeof reasons[0] ? reasons[refusal] : "no such refusal";
}

#undef SCALEBENCH_AS
#ifdef __cplusplus
}
#endif

#endif
