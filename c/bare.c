/* A host without a C library: memcpy and memset of its own are all that the archive needs. */
#include "lemboraw.h"

void *memcpy(void *to, const void *from, size_t n) {
    for (size_t i = 0; i < n; i++) ((volatile unsigned char *)to)[i] = ((const unsigned char *)from)[i];
    return to;
}

void *memset(void *to, int byte, size_t n) {
    for (size_t i = 0; i < n; i++) ((volatile unsigned char *)to)[i] = (unsigned char)byte;
    return to;
}

static const uint8_t kinds[] = {LEMBORAW_SEQUENCE, LEMBORAW_WAIT, LEMBORAW_WAIT};
static const uint16_t ns[] = {2, 0, 0};
static const double limits[] = {0, 2, 1};
static struct lemboraw_room room, other_room;
static struct lemboraw_table other_table;
static struct lemboraw_levels levels;

static int run(void) {
    struct lemboraw_answers none = {NULL, NULL, 0};
    struct lemboraw_tree tree = lemboraw_tree_new(kinds, ns, limits, 3, &room);
    struct lemboraw_said first = lemboraw_tree_tick(&tree, true, 1, 3, none);
    bool as_it_must = first.no == LEMBORAW_DONE && first.status == LEMBORAW_RUNNING && room.board[1] == LEMBORAW_RUNNING;
    /* The second wait by one as long: nothing else changes. */
    as_it_must = as_it_must && lemboraw_tree_exchange(&tree, 2, kinds + 2, ns + 2, limits + 2, 1, &other_table, &other_room).nodes == 3;
    struct lemboraw_said second = lemboraw_tree_tick(&tree, true, 3, 3, none);
    as_it_must = as_it_must && second.no == LEMBORAW_DONE && second.status == LEMBORAW_SUCCESS && second.time == 1;
    as_it_must = as_it_must && lemboraw_tree_age(&tree, 0) == 2 && lemboraw_tree_age(&tree, 2) == 0;
    as_it_must = as_it_must && tree.record.finished && lemboraw_tree_bound(&tree, 1).ticks == 3;
    struct lemboraw_said again = lemboraw_tree_restart(&tree, true, 1, 3, none);
    as_it_must = as_it_must && again.no == LEMBORAW_DONE && again.status == LEMBORAW_RUNNING;
    struct lemboraw_said flat = lemboraw_tree_tick_flat(&tree, true, 3, 3, none, &levels);
    return as_it_must && flat.no == LEMBORAW_DONE && flat.status == LEMBORAW_SUCCESS && flat.time == 1 ? 0 : 1;
}

/* Called by _start below, and ends by the system's own call. */
void begin(void) {
    long result = run();
    __asm__ volatile("syscall" : : "a"(60L), "D"(result) : "rcx", "r11", "memory");
    for (;;) {}
}

__asm__(".globl _start\n_start: andq $-16, %rsp\n call begin\n");
