/*
 * The stack that each call takes: no more than include/scalebench.h says. Each call is made on a stack of just that
 * size, with a page before it that nobody may touch, on tables and trees that lead it everywhere.
 */
#define _GNU_SOURCE

#include "tables.h"

#include <signal.h>
#include <sys/mman.h>
#include <sys/wait.h>
#include <ucontext.h>
#include <unistd.h>

enum { PAGE = 4096, PAINT = 0xa5 };

struct kind {
    const char *name;
    size_t room;    /* what the header says */
    size_t deepest; /* what was seen */
    void (*call)(void);
};

static uint8_t table[TABLE], scratch[SCRATCH], tree[SCALEBENCH_LISTING_BYTES];
static size_t tree_length;
static char line[SCALEBENCH_LINE_BYTES];
static ucontext_t here, there;

static void ask(void) { scalebench_ask(tree, tree_length, table, TABLE); }
static void intake(void) { scalebench_intake(table, TABLE); }
static void total(void)
{
    uint64_t number;
    scalebench_total(table, TABLE, &number);
}
static void rank(void)
{
    uint64_t number;
    scalebench_rank(tree, tree_length, table, TABLE, &number);
}
static void unrank(void)
{
    uint8_t listing[SCALEBENCH_LISTING_BYTES];
    scalebench_unrank(0, table, TABLE, listing, sizeof listing);
}
static void add(void) { scalebench_add(tree, tree_length, table, TABLE, scratch, SCRATCH); }
static void take_out(void) { scalebench_remove(tree, tree_length, table, TABLE, scratch, SCRATCH); }
static void read_line(void)
{
    uint8_t listing[SCALEBENCH_READ_BYTES];
    scalebench_read((const uint8_t *)line, sizeof line, listing, sizeof listing);
}

static struct kind kinds[] = {
    {"ask", SCALEBENCH_ASK_STACK_BYTES, 0, ask},
    {"intake", SCALEBENCH_ASK_STACK_BYTES, 0, intake},
    {"total", SCALEBENCH_TOTAL_STACK_BYTES, 0, total},
    {"rank", SCALEBENCH_TOTAL_STACK_BYTES, 0, rank},
    {"unrank", SCALEBENCH_TOTAL_STACK_BYTES, 0, unrank},
    {"add", SCALEBENCH_CHANGE_STACK_BYTES, 0, add},
    {"remove", SCALEBENCH_CHANGE_STACK_BYTES, 0, take_out},
    {"read", SCALEBENCH_READ_STACK_BYTES, 0, read_line},
};

static void call_on(uint8_t *stack, size_t room, void (*call)(void))
{
    if (getcontext(&there) != 0)
        exit(2);
    there.uc_stack.ss_sp = stack;
    there.uc_stack.ss_size = room;
    there.uc_link = &here;
    makecontext(&there, call, 0);
    swapcontext(&here, &there);
}

/* How deep the call went, by the bytes that are no longer painted. A call that goes deeper than the room is killed. */
static size_t depth_of(const struct kind *kind)
{
    size_t room = (kind->room + PAGE - 1) / PAGE * PAGE, untouched = 0;
    uint8_t *memory = mmap(NULL, PAGE + room, PROT_READ | PROT_WRITE, MAP_PRIVATE | MAP_ANONYMOUS, -1, 0);
    if (memory == MAP_FAILED || mprotect(memory, PAGE, PROT_NONE) != 0)
        exit(2);
    uint8_t *stack = memory + PAGE;
    memset(stack, PAINT, room);
    call_on(stack, room, kind->call);
    while (untouched < room && stack[untouched] == PAINT)
        untouched++;
    munmap(memory, PAGE + room);
    return room - untouched;
}

/* In a process of its own, because a call that goes too deep ends it. */
static void measure(struct kind *kind, const char *what)
{
    int result[2], status;
    size_t depth = 0;
    if (pipe(result) != 0)
        exit(2);
    fflush(stdout);
    pid_t process = fork();
    if (process == 0) {
        depth = depth_of(kind);
        _exit(write(result[1], &depth, sizeof depth) != (ssize_t)sizeof depth);
    }
    close(result[1]);
    ssize_t length = read(result[0], &depth, sizeof depth);
    close(result[0]);
    waitpid(process, &status, 0);
    int fine = length == (ssize_t)sizeof depth && depth <= kind->room && WIFEXITED(status);
    expect(what, (uint64_t)fine, 1);
    if (!fine)
        printf("%s takes more than %zu bytes\n", kind->name, kind->room);
    if (depth > kind->deepest)
        kind->deepest = depth;
}

static void all_calls(const char *what)
{
    for (size_t i = 0; i < sizeof kinds / sizeof kinds[0]; i++)
        measure(&kinds[i], what);
}

/* Every call with a leaf and with two chains of 48 nodes. */
static void all_trees(const char *what)
{
    put_leaf(tree, 255);
    tree_length = NODE;
    all_calls(what);
    for (unsigned leaf = 1; leaf <= 201; leaf += 200) {
        tree_length = list_chain(tree, 48, leaf, 1);
        all_calls(what);
    }
}

/* A chain of 48 nodes, labels rising from the leaf up, and all that stand below it: approved trees of every depth. */
static void deep_trees(void)
{
    memset(table, 0, TABLE);
    table[0] = 48;
    memset(table + 1, 1, 48);
    append(table, 1, 0, NULL, 1);
    for (unsigned q = 1; q < 48; q++)
        append(table, q + 1, 1, (const uint8_t[]){(uint8_t)q}, q + 1);
}

/* Two states that are alike, so that no fingerprints distinguish them. */
static void alike(void)
{
    begin(table, "001");
    append(table, 1, 0, NULL, 1);
    append(table, 2, 0, NULL, 2);
    append(table, 3, 1, (const uint8_t[]){1}, 3);
    append(table, 3, 1, (const uint8_t[]){2}, 3);
}

int main(void)
{
    for (unsigned i = 0; i < sizeof line; i++) /* as deep as a line can go: (ask (1 (1 (1 .. */
        line[i] = i < 5 ? "(ask "[i] : "(1 "[(i - 5) % 3];
    memset(table, 0, TABLE);
    all_trees("the empty set");
    build(table, "001", example, 7);
    all_trees("the example");
    families(table, 11);
    all_trees("eleven families");
    for (int falling = 0; falling < 2; falling++) {
        chain(table, falling, 1, 1);
        all_trees("a chain");
        chain(table, falling, 8, 5);
        all_trees("a chain of eight places");
    }
    deep_trees();
    all_trees("48 levels, all approved");
    memset(table + 1, 0, 47);
    all_trees("48 levels");
    alike();
    all_trees("two states alike");
    for (size_t i = 0; i < sizeof kinds / sizeof kinds[0]; i++)
        printf("%s: %zu bytes of %zu\n", kinds[i].name, kinds[i].deepest, kinds[i].room);
    return finished();
}
