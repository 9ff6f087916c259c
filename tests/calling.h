/*
 * Add and remove called with all that they may touch watched: after every call each byte of table and scratch, and the
 * bytes around both, are what document 01 says.
 */
#ifndef CALLING_H
#define CALLING_H

#include "tables.h"

enum { GUARD = 64 };

static uint8_t table_room[GUARD + TABLE + GUARD], scratch_room[GUARD + SCRATCH + GUARD];
static uint8_t *const table = table_room + GUARD, *const scratch = scratch_room + GUARD;

typedef uint64_t change(const uint8_t *, size_t, uint8_t *, size_t, uint8_t *, size_t);

static inline uint8_t noise(size_t i) { return (uint8_t)(i * 7 + i / 256 + 1); }

static inline int is_noise(const uint8_t *bytes, size_t from, size_t to)
{
    for (size_t i = from; i < to; i++)
        if (bytes[i] != noise(i))
            return 0;
    return 1;
}

static inline int is_zero(const uint8_t *bytes, size_t length)
{
    for (size_t i = 0; i < length; i++)
        if (bytes[i])
            return 0;
    return 1;
}

static inline void watch(const char *what, const char *where, int fine)
{
    passed += fine;
    failed += !fine;
    if (!fine)
        printf("%s: %s\n", what, where);
}

/* One call with these lengths. The scratch is handed over full of noise, and there is noise around both tables. */
static inline void call(const char *what, change *op, const uint8_t *tree, size_t tree_len, size_t table_len,
                        size_t scratch_len, uint64_t want)
{
    static uint8_t before[sizeof table_room];
    size_t end = GUARD + scratch_len;
    for (size_t i = 0; i < GUARD; i++) {
        table_room[i] = noise(i);
        table_room[GUARD + TABLE + i] = noise(GUARD + TABLE + i);
    }
    for (size_t i = 0; i < sizeof scratch_room; i++)
        scratch_room[i] = noise(i);
    memcpy(before, table_room, sizeof before);
    uint64_t answer =
        op(tree, tree_len, table_len ? table : NULL, table_len, scratch_len ? scratch : NULL, scratch_len);
    unsigned refusal = scalebench_refusal(answer);
    int untouched = refusal >= 1 && refusal <= 15;
    expect(what, answer, want);
    watch(what, "the table after a refusal", !refusal || !memcmp(before, table_room, sizeof before));
    watch(what, "intake after a change", refusal || answer == scalebench_intake(table, TABLE));
    watch(what, "bytes before the table", is_noise(table_room, 0, GUARD));
    watch(what, "bytes behind the table", is_noise(table_room, GUARD + TABLE, sizeof table_room));
    watch(what, "bytes before the scratch", is_noise(scratch_room, 0, GUARD));
    watch(what, "bytes behind the scratch", is_noise(scratch_room, end, sizeof scratch_room));
    watch(what, "the scratch", untouched ? is_noise(scratch_room, GUARD, end) : is_zero(scratch, scratch_len));
}

/* The same of a tree in brackets, all lengths right. */
static inline void change_by(change *op, const char *tree, uint64_t want)
{
    uint8_t listing[SCALEBENCH_LISTING_BYTES];
    size_t length = list(tree, listing);
    call(tree, op, listing, length, TABLE, SCRATCH, want);
}

static inline void add(const char *tree, uint64_t want) { change_by(scalebench_add, tree, want); }
static inline void drop(const char *tree, uint64_t want) { change_by(scalebench_remove, tree, want); }

#endif
