/* What calls take of a stack, each on a thread whose stack is as small as the system gives and is
 * painted before: so that nothing but depth can use it, and none takes more than LEMBORAW_STACK. Those
 * without recursion take less than LEMBORAW_STACK_FLAT, and no more for 16 levels than for 2. */
#define _GNU_SOURCE
#include <limits.h>
#include <pthread.h>
#include <stdio.h>
#include <string.h>
#include <sys/mman.h>
#include <unistd.h>

#include "lemboraw.h"

enum { PAINT = 0xa5 };

static uint8_t kinds[LEMBORAW_MOST_NODES];
static uint16_t ns[LEMBORAW_MOST_NODES];
static double limits[LEMBORAW_MOST_NODES];
static struct lemboraw_room room;
static struct lemboraw_levels lent;
static const struct lemboraw_answers none = {NULL, NULL, 0};

static struct lemboraw_tree tree_of(size_t nodes) {
    return lemboraw_tree_new(kinds, ns, limits, nodes, &room);
}

/* All calls that carry out a tick. */
typedef struct lemboraw_said carry_out(struct lemboraw_tree *tree, double dt, uint32_t fuel);

static struct lemboraw_said tick(struct lemboraw_tree *tree, double dt, uint32_t fuel) {
    return lemboraw_tree_tick(tree, true, dt, fuel, none);
}

static struct lemboraw_said restart(struct lemboraw_tree *tree, double dt, uint32_t fuel) {
    return lemboraw_tree_restart(tree, true, dt, fuel, none);
}

static struct lemboraw_said tick_flat(struct lemboraw_tree *tree, double dt, uint32_t fuel) {
    return lemboraw_tree_tick_flat(tree, true, dt, fuel, none, &lent);
}

static struct lemboraw_said restart_flat(struct lemboraw_tree *tree, double dt, uint32_t fuel) {
    return lemboraw_tree_restart_flat(tree, true, dt, fuel, none, &lent);
}

/* `levels` nodes of a kind that has children above a Wait; where it wants more children, those wait
 * forever. Such a chain begins at `from`; what stands behind it is told. */
static size_t chain(size_t from, uint8_t kind, int levels) {
    size_t len = from, before = kind == LEMBORAW_WHILE || kind == LEMBORAW_WHILE_ALL, behind = kind == LEMBORAW_IF ? 2 : 0;
    memset(limits, 0, sizeof limits);
    for (int level = 0; level < levels; level++) {
        kinds[len] = kind, ns[len] = (uint16_t)(1 + before + behind);
        if (kind == LEMBORAW_TIMEOUT) limits[len] = 1e6;
        len++;
        if (before) kinds[len] = LEMBORAW_WAIT_FOREVER, ns[len] = 0, len++;
    }
    kinds[len] = LEMBORAW_WAIT, ns[len] = 0, limits[len] = 1e6, len++;
    for (size_t i = 0; i < behind * (size_t)levels; i++) kinds[len] = LEMBORAW_WAIT_FOREVER, ns[len] = 0, len++;
    return len;
}

static bool each_kind(bool (*deep)(struct lemboraw_tree *), int levels) {
    bool all = true;
    for (uint8_t kind = LEMBORAW_INVERT; kind <= LEMBORAW_RACE; kind++) {
        struct lemboraw_tree tree = tree_of(chain(0, kind, levels - 1));
        all = all && deep(&tree);
    }
    return all;
}

static bool ticked(struct lemboraw_tree *tree) { return tick(tree, 1.0, LEMBORAW_MOST_NODES).no == LEMBORAW_DONE; }
static bool restarted(struct lemboraw_tree *tree) { return restart(tree, 1.0, LEMBORAW_MOST_NODES).no == LEMBORAW_DONE; }
static bool ticked_flat(struct lemboraw_tree *tree) { return tick_flat(tree, 1.0, LEMBORAW_MOST_NODES).no == LEMBORAW_DONE; }
static bool restarted_flat(struct lemboraw_tree *tree) { return restart_flat(tree, 1.0, LEMBORAW_MOST_NODES).no == LEMBORAW_DONE; }
static bool bounded(struct lemboraw_tree *tree) { return lemboraw_tree_bound(tree, 1.0).no == LEMBORAW_DONE; }
/* The fuel is used up before the root is visited: what is left is the checks and making all cells fresh. */
static bool made_fresh(struct lemboraw_tree *tree) { return restart(tree, 1.0, 0).no == LEMBORAW_OUT_OF_FUEL; }

static bool deep_tick(void) { return each_kind(ticked, LEMBORAW_MOST_DEPTH); }
static bool deep_restart(void) { return each_kind(restarted, LEMBORAW_MOST_DEPTH); }
static bool deep_bound(void) { return each_kind(bounded, LEMBORAW_MOST_DEPTH); }
static bool whole_tree(void) { return each_kind(made_fresh, LEMBORAW_MOST_DEPTH); }
static bool deep_tick_flat(void) { return each_kind(ticked_flat, LEMBORAW_MOST_DEPTH); }
static bool deep_restart_flat(void) { return each_kind(restarted_flat, LEMBORAW_MOST_DEPTH); }
static bool low_tick_flat(void) { return each_kind(ticked_flat, 2); }
static bool low_restart_flat(void) { return each_kind(restarted_flat, 2); }

/* A MemorylessSequence makes its child fresh before it visits it, and there the fuel is used up. */
static bool branch(int levels) {
    size_t len = chain(1, LEMBORAW_SEQUENCE, levels);
    kinds[0] = LEMBORAW_MEMORYLESS_SEQUENCE, ns[0] = 1;
    struct lemboraw_tree tree = tree_of(len);
    return tick(&tree, 1.0, 1).no == LEMBORAW_OUT_OF_FUEL;
}

static bool two_levels(void) { return branch(1); }
static bool all_levels(void) { return branch(LEMBORAW_MOST_DEPTH - 2); }

/* While(WaitForever, [Wait 1]) by 50 million: as many turns, and the last body child is left Running. */
static bool turns(carry_out *call) {
    kinds[0] = LEMBORAW_WHILE, ns[0] = 2, kinds[1] = LEMBORAW_WAIT_FOREVER, kinds[2] = LEMBORAW_WAIT;
    ns[1] = ns[2] = 0, limits[0] = limits[1] = 0, limits[2] = 1;
    struct lemboraw_tree tree = tree_of(3);
    struct lemboraw_said said = call(&tree, 50e6, 60000000);
    return said.no == LEMBORAW_DONE && said.status == LEMBORAW_RUNNING && said.visits == 50000003;
}

static bool many_turns(void) { return turns(tick); }
static bool many_turns_flat(void) { return turns(tick_flat); }

/* A Sequence of 255 Waits of no time, which all end in one tick. */
static bool children(carry_out *call) {
    memset(kinds, LEMBORAW_WAIT, sizeof kinds), memset(ns, 0, sizeof ns), memset(limits, 0, sizeof limits);
    kinds[0] = LEMBORAW_SEQUENCE, ns[0] = 255;
    struct lemboraw_tree tree = tree_of(LEMBORAW_MOST_NODES);
    struct lemboraw_said said = call(&tree, 1.0, LEMBORAW_MOST_NODES);
    return said.no == LEMBORAW_DONE && said.status == LEMBORAW_SUCCESS && said.visits == LEMBORAW_MOST_NODES;
}

static bool many_children(void) { return children(tick); }
static bool many_children_flat(void) { return children(tick_flat); }
static bool many_children_again(void) { return children(restart_flat); }

/* 15 WhenAlls, one below the other, the last above 200 Waits that stay Running. */
static bool waits(carry_out *call) {
    size_t len = chain(0, LEMBORAW_WHEN_ALL, LEMBORAW_MOST_DEPTH - 1), last = len - 2;
    ns[last] = 200;
    for (; len < last + 201; len++) kinds[len] = LEMBORAW_WAIT, ns[len] = 0, limits[len] = 1e6;
    struct lemboraw_tree tree = tree_of(len);
    struct lemboraw_said said = call(&tree, 1.0, LEMBORAW_MOST_NODES);
    return said.no == LEMBORAW_DONE && said.status == LEMBORAW_RUNNING && said.visits == len;
}

static bool many_waits(void) { return waits(tick); }
static bool many_waits_flat(void) { return waits(tick_flat); }

/* The deepest node of a tree of 16 levels, in a branch that has not been started. */
static bool deep_exchange(void) {
    static struct lemboraw_room other_room;
    static struct lemboraw_table other_table;
    bool all = true;
    for (uint8_t kind = LEMBORAW_INVERT; kind <= LEMBORAW_RACE; kind++) {
        size_t len = chain(2, kind, LEMBORAW_MOST_DEPTH - 2);
        kinds[0] = LEMBORAW_SEQUENCE, ns[0] = 2, kinds[1] = LEMBORAW_WAIT_FOREVER, ns[1] = 0;
        struct lemboraw_tree tree = tree_of(len);
        const size_t leaf = 1;
        all = all && lemboraw_tree_exchange(&tree, len - 1, kinds + 1, ns + 1, limits + 1, leaf, &other_table, &other_room).nodes == len;
    }
    return all;
}

static bool (*now)(void);
static bool done;
static char *top;

static void *run(void *unused) {
    top = (char *)__builtin_frame_address(0);
    done = now();
    return unused;
}

static bool right = true;

/* What a call took of the stack, in bytes; so many are allowed. */
static size_t measured_of(size_t most, const char *what, bool (*call)(void)) {
    size_t page = (size_t)sysconf(_SC_PAGESIZE), size = (size_t)PTHREAD_STACK_MIN;
    char *all = mmap(NULL, page + size, PROT_READ | PROT_WRITE, MAP_PRIVATE | MAP_ANONYMOUS, -1, 0), *stack = all + page;
    pthread_t thread;
    pthread_attr_t attributes;
    now = call, done = false;
    pthread_attr_init(&attributes);
    if (all == MAP_FAILED || mprotect(all, page, PROT_NONE)) return right = false;
    memset(stack, PAINT, size);
    if (pthread_attr_setstack(&attributes, stack, size) || pthread_create(&thread, &attributes, run, NULL)) return right = false;
    pthread_join(thread, NULL);
    size_t left = 0;
    while ((unsigned char)stack[left] == PAINT) left++;
    size_t used = (size_t)(top - (stack + left));
    munmap(all, page + size);
    printf("%6zu  %s%s\n", used, what, done ? "" : ": NOT DONE");
    right = right && done && used <= most;
    return used;
}

static size_t measured(const char *what, bool (*call)(void)) { return measured_of(LEMBORAW_STACK, what, call); }
static size_t measured_flat(const char *what, bool (*call)(void)) { return measured_of(LEMBORAW_STACK_FLAT - 1, what, call); }

int main(void) {
    printf("bytes of stack, of %d that the header names and %zu that the thread has\n", LEMBORAW_STACK, (size_t)PTHREAD_STACK_MIN);
    measured("a tick, 16 levels of each kind", deep_tick);
    measured("a restart, 16 levels of each kind", deep_restart);
    measured("a restart without fuel, 16 levels of each kind: the whole tree is made fresh", whole_tree);
    size_t two = measured("a tick that makes a branch of 2 levels fresh", two_levels);
    size_t fifteen = measured("a tick that makes a branch of 15 levels fresh", all_levels);
    measured("a bound, 16 levels of each kind", deep_bound);
    measured("an exchange, 16 levels of each kind", deep_exchange);
    measured("a tick of a While with fifty million turns", many_turns);
    measured("a tick of a Sequence of 255 children", many_children);
    measured("a tick of 15 WhenAlls, the last above 200 Waits", many_waits);
    if (fifteen != two) printf("more levels to make fresh take more stack\n");

    printf("without recursion, less than %d\n", LEMBORAW_STACK_FLAT);
    size_t low = measured_flat("a tick, 2 levels of each kind", low_tick_flat);
    size_t deep = measured_flat("a tick, 16 levels of each kind", deep_tick_flat);
    size_t low_again = measured_flat("a restart, 2 levels of each kind", low_restart_flat);
    size_t deep_again = measured_flat("a restart, 16 levels of each kind", deep_restart_flat);
    measured_flat("a tick of a While with fifty million turns", many_turns_flat);
    measured_flat("a tick of a Sequence of 255 children", many_children_flat);
    measured_flat("a restart of a Sequence of 255 children", many_children_again);
    measured_flat("a tick of 15 WhenAlls, the last above 200 Waits", many_waits_flat);
    bool flat = low == deep && low_again == deep_again;
    if (!flat) printf("more levels take more stack\n");
    return !(right && fifteen == two && flat);
}
