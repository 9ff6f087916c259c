/*
 * What the header says of threads: four at once, each with a table and a scratch of its own and a stack of 256 KiB,
 * leave what one alone leaves; and all ask of one table, for its total and for serial numbers, meanwhile.
 */
#define _XOPEN_SOURCE 700

#include "tables.h"

#include <pthread.h>

enum { THREADS = 4, CHANGES = 120, STACK = 256 << 10 };

struct work {
    unsigned seed;
    uint64_t answers[CHANGES], deepest;
    uint8_t table[TABLE], scratch[SCRATCH];
};

static uint8_t shared[TABLE];
static struct work alone[THREADS], together[THREADS];

/* Trees with three levels, drawn from few; every third call takes one out. */
static void *work_through(void *given)
{
    const uint8_t known[] = {0, 1, 2, 0, 1, 0, 0, 2, 0};
    struct work *work = given;
    for (unsigned i = 0; i < CHANGES; i++) {
        unsigned x = (i * 7 + work->seed * 13) * 2654435761u >> 16;
        uint8_t tree[4 * NODE];
        put_node(tree, 0, 1 + x % 5, 2);
        put_node(tree, 1, 1 + x / 5 % 3, 1);
        put_node(tree, 2, 1 + x / 15 % 4, 0);
        put_node(tree, 3, 1 + x / 60 % 5, 0);
        work->answers[i] = (i % 3 == 2 ? scalebench_remove : scalebench_add)(tree, sizeof tree, work->table, TABLE,
                                                                           work->scratch, SCRATCH);
        uint64_t trees = 0, number = 0;
        uint8_t listing[SCALEBENCH_LISTING_BYTES];
        if (!scalebench_approved(scalebench_ask(known, sizeof known, shared, TABLE)) ||
            scalebench_total(shared, TABLE, &trees) != 0 || trees != 5 ||
            !scalebench_approved(scalebench_rank(known, sizeof known, shared, TABLE, &number)) || number != 1 ||
            scalebench_unrank(1, shared, TABLE, listing, sizeof listing) != 0 || memcmp(listing, known, sizeof known))
            work->answers[i] = UINT64_MAX;
    }
    uint8_t deep[48 * NODE];
    size_t length = list_chain(deep, 48, 10, 2);
    work->deepest = scalebench_add(deep, length, work->table, TABLE, work->scratch, SCRATCH);
    return NULL;
}

static void start_all(pthread_t *threads)
{
    pthread_attr_t attributes;
    pthread_attr_init(&attributes);
    expect("a small stack", (uint64_t)pthread_attr_setstacksize(&attributes, STACK), 0);
    for (unsigned i = 0; i < THREADS; i++)
        expect("a thread", (uint64_t)pthread_create(&threads[i], &attributes, work_through, &together[i]), 0);
    pthread_attr_destroy(&attributes);
}

int main(void)
{
    pthread_t threads[THREADS];
    build(shared, "001", example, 7);
    for (unsigned i = 0; i < THREADS; i++) {
        alone[i].seed = together[i].seed = i;
        work_through(&alone[i]);
        expect("48 nodes deep", scalebench_refusal(alone[i].deepest), 0);
    }
    start_all(threads);
    for (unsigned i = 0; i < THREADS; i++) {
        expect("the thread ends", (uint64_t)pthread_join(threads[i], NULL), 0);
        expect("answers and tables", (uint64_t)(memcmp(&alone[i], &together[i], sizeof alone[i]) != 0), 0);
        for (unsigned k = 0; k < CHANGES; k++)
            expect("ask of the shared table", together[i].answers[k] == UINT64_MAX, 0);
    }
    return finished();
}
