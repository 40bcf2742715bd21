/* What the header says of memory and settings, tried: each run ends at a page that can't be touched and
 * starts where its type may, the table and the answers can't be written to, empty runs are null. */
#define _DEFAULT_SOURCE
#include "lemboraw.h"
#include <stdio.h>
#include <string.h>
#include <sys/mman.h>
#include <unistd.h>

static int wrong;

#define CHECK(what) do { if (!(what)) { printf("line %d: %s\n", __LINE__, #what); wrong = 1; } } while (0)

/* Room for `bytes` that ends where a page begins that can't be touched. */
static void *lend(size_t bytes) {
    size_t page = (size_t)sysconf(_SC_PAGESIZE), room = (bytes + page - 1) / page * page;
    char *from = (char *)mmap(NULL, room + page, PROT_READ | PROT_WRITE, MAP_PRIVATE | MAP_ANONYMOUS, -1, 0);
    if (from == MAP_FAILED || mprotect(from + room, page, PROT_NONE)) _exit(1);
    return from + room - bytes;
}

/* The same with contents, and only to be read. */
static const void *lend_const(const void *what, size_t bytes) {
    size_t page = (size_t)sysconf(_SC_PAGESIZE), room = (bytes + page - 1) / page * page;
    char *at = (char *)lend(bytes);
    memcpy(at, what, bytes);
    if (mprotect(at + bytes - room, room, PROT_READ)) _exit(1);
    return at;
}

/* WhenAll of an action, a wait and a Sequence of one wait. */
enum { NODES = 5 };
static const uint8_t kinds[] = {LEMBORAW_WHEN_ALL, LEMBORAW_ACTION, LEMBORAW_WAIT, LEMBORAW_SEQUENCE, LEMBORAW_WAIT};
static const uint16_t ns[] = {3, 40000, 0, 1, 0};
static const double limits[] = {0, 0, 2, 0, 9};
static const uint8_t statuses[] = {LEMBORAW_SUCCESS};
static const double leftovers[] = {0.25};
static const struct lemboraw_answers none = {NULL, NULL, 0};

static struct lemboraw_tree lent_tree(void) {
    struct lemboraw_tree tree;
    tree.record.finished = false;
    tree.record.ticks = 0;
    tree.len = NODES;
    tree.kinds = (const uint8_t *)lend_const(kinds, sizeof kinds);
    tree.ns = (const uint16_t *)lend_const(ns, sizeof ns);
    tree.limits = (const double *)lend_const(limits, sizeof limits);
    tree.times = (double *)lend(NODES * sizeof(double));
    tree.places = (uint16_t *)lend(NODES * sizeof(uint16_t));
    tree.marks = (uint8_t *)lend(NODES);
    tree.sinces = (uint64_t *)lend(NODES * sizeof(uint64_t));
    tree.spare_times = (double *)lend(NODES * sizeof(double));
    tree.spare_places = (uint16_t *)lend(NODES * sizeof(uint16_t));
    tree.spare_marks = (uint8_t *)lend(NODES);
    tree.spare_sinces = (uint64_t *)lend(NODES * sizeof(uint64_t));
    tree.board = (uint8_t *)lend(NODES);
    return tree;
}

static void memory(void) {
    struct lemboraw_tree tree = lent_tree();
    struct lemboraw_answers one = {
        (const uint8_t *)lend_const(statuses, sizeof statuses), (const double *)lend_const(leftovers, sizeof leftovers), 1};
    /* An odd number of bytes and of pairs puts bytes and places where nothing wider could stand. */
    CHECK((uintptr_t)tree.marks % 2 == 1 && (uintptr_t)tree.places % 4 == 2);

    struct lemboraw_said said = lemboraw_tree_tick(&tree, true, 3, NODES, none);
    CHECK(said.no == LEMBORAW_ASKS && said.extra == 40000 && said.time == 3 && tree.record.ticks == 0 && tree.times[2] == 0);
    said = lemboraw_tree_tick(&tree, true, 3, NODES - 1, one);
    CHECK(said.no == LEMBORAW_OUT_OF_FUEL && tree.times[2] == 0 && tree.marks[1] == 0 && tree.board[0] == 0);
    said = lemboraw_tree_tick(&tree, true, 3, NODES, one);
    CHECK(said.no == LEMBORAW_DONE && said.status == LEMBORAW_RUNNING && said.visits == NODES && said.used == 1);
    CHECK(tree.record.ticks == 1 && tree.marks[1] == 1 && tree.marks[2] == 1 && tree.times[4] == 3);
    CHECK(tree.sinces[1] == 1 && tree.sinces[2] == 1 && tree.sinces[3] == 0 && lemboraw_tree_age(&tree, 4) == 1);
    CHECK(tree.board[2] == LEMBORAW_SUCCESS && tree.spare_times[4] == 0);
    said = lemboraw_tree_tick(&tree, true, -1, NODES, none);
    CHECK(said.no == LEMBORAW_BAD_TIME && tree.times[4] == 3 && tree.board[2] == LEMBORAW_SUCCESS);
    CHECK(lemboraw_tree_bound(&tree, 1).kind == LEMBORAW_UNBOUNDED);
    said = lemboraw_tree_restart(&tree, true, 1, NODES, none);
    CHECK(said.no == LEMBORAW_ASKS && tree.marks[2] == 1 && tree.times[4] == 3 && tree.spare_times[4] == 3);
    said = lemboraw_tree_restart(&tree, true, 1, NODES, one);
    CHECK(said.no == LEMBORAW_DONE && tree.marks[2] == 0 && tree.times[4] == 1 && tree.record.ticks == 2);
    CHECK(tree.sinces[0] == 2 && tree.sinces[4] == 2 && tree.spare_sinces[1] == 1 && tree.spare_sinces[4] == 0);
}

/* Levels that are just long enough, and each of their runs null and empty. */
static void levels(void) {
    enum { ALL = LEMBORAW_LEVELS };
    for (int run = -1; run < 4; run++) {
        struct lemboraw_tree t = lent_tree();
        uint64_t *opens = (uint64_t *)lend(ALL * sizeof(uint64_t));
        uint32_t *counts = (uint32_t *)lend(ALL * sizeof(uint32_t));
        double *wholes = (double *)lend(ALL * sizeof(double)), *rests = (double *)lend(ALL * sizeof(double));
        opens[0] = 7, counts[ALL - 1] = 7, wholes[0] = 7, rests[ALL - 1] = -0.0;
#define RUN(i, pointer) (run == i ? NULL : pointer), (run == i ? 0 : (size_t)ALL)
#define LENT \
    &t.record, t.kinds, NODES, t.ns, NODES, t.limits, NODES, t.times, NODES, t.places, NODES, t.marks, NODES, t.sinces, NODES, \
    t.spare_times, NODES, t.spare_places, NODES, t.spare_marks, NODES, t.spare_sinces, NODES, t.board, NODES, \
    true, 1.0, NODES, statuses, 1, leftovers, 1, RUN(0, opens), RUN(1, counts), RUN(2, wholes), RUN(3, rests)
        struct lemboraw_said said = lemboraw_tick_flat(LENT);
        CHECK(said.no == (run < 0 ? LEMBORAW_DONE : LEMBORAW_NO_ROOM) && t.times[4] == (run < 0) && t.record.ticks == (run < 0));
        CHECK(opens[0] == (run < 0 ? 0u : 7u) && counts[ALL - 1] == (run < 0 ? 0u : 7u) && wholes[0] == (run < 0 ? 0 : 7));
        CHECK((1 / rests[ALL - 1] > 0) == (run < 0));
        said = lemboraw_restart_flat(LENT);
        CHECK(said.no == (run < 0 ? LEMBORAW_DONE : LEMBORAW_NO_ROOM) && t.times[4] == (run < 0) && t.record.ticks == (run < 0 ? 2u : 0));
#undef LENT
#undef RUN
    }
}

/* One tree ticked with recursion and one without. */
static void tree_levels(void) {
    static struct lemboraw_room rooms[2];
    static struct lemboraw_levels lent;
    struct lemboraw_answers one = {statuses, leftovers, 1};
    struct lemboraw_tree tree = lemboraw_tree_new(kinds, ns, limits, NODES, &rooms[0]);
    struct lemboraw_tree flat = lemboraw_tree_new(kinds, ns, limits, NODES, &rooms[1]);
    for (int tick = 0; tick < 4; tick++) {
        struct lemboraw_said must = tick == 2 ? lemboraw_tree_restart(&tree, true, 1.5, NODES, one) : lemboraw_tree_tick(&tree, true, 1.5, NODES, one);
        struct lemboraw_said said =
            tick == 2 ? lemboraw_tree_restart_flat(&flat, true, 1.5, NODES, one, &lent) : lemboraw_tree_tick_flat(&flat, true, 1.5, NODES, one, &lent);
        CHECK(said.no == must.no && said.status == must.status && said.visits == must.visits && said.used == must.used && said.time == must.time);
        CHECK(flat.record.ticks == tree.record.ticks && flat.record.finished == tree.record.finished);
        CHECK(memcmp(&rooms[0], &rooms[1], sizeof rooms[0]) == 0);
    }
}

/* All that an exchange is given can't be written to, the record neither, and its room is as long as the result. */
static void exchange(void) {
    static const uint8_t new_kinds[] = {LEMBORAW_INVERT, LEMBORAW_SEQUENCE, LEMBORAW_WAIT, LEMBORAW_ACTION};
    static const uint16_t new_ns[] = {1, 2, 0, 9};
    static const double new_limits[] = {0, 0, 2, 0};
    static const double times[NODES] = {0, 0, 1, 0, 0};
    static const uint16_t places[NODES] = {0};
    static const uint8_t marks[NODES] = {0};
    static const uint64_t sinces[NODES] = {1, 2, 3, 4, 5};
    static const struct lemboraw_record record = {false, 77};
    /* A Select of the tree's nodes: its last child is due only when the others have failed. */
    static const uint8_t select[NODES] = {LEMBORAW_SELECT, LEMBORAW_ACTION, LEMBORAW_WAIT, LEMBORAW_SEQUENCE, LEMBORAW_WAIT};
    enum { NEW = 4, RESULT = NODES - 2 + NEW };
    for (int run = -1; run < 17; run++) {
        size_t len[17];
        for (int i = 0; i < 17; i++) len[i] = i == run ? 0 : i < 7 ? (size_t)NODES : i < 10 ? (size_t)NEW : (size_t)RESULT;
#define IN(i, type, what) (run == i ? NULL : (const type *)lend_const(what, sizeof what)), len[i]
#define OUT(i, type) (type *)(run == i ? NULL : lend(RESULT * sizeof(type))), len[i]
        double *out_times = (double *)lend(RESULT * sizeof(double));
        uint64_t *out_sinces = (uint64_t *)lend(RESULT * sizeof(uint64_t));
        struct lemboraw_exchange_said said = lemboraw_exchange(
            record,
            IN(0, uint8_t, select), IN(1, uint16_t, ns), IN(2, double, limits), IN(3, double, times), IN(4, uint16_t, places),
            IN(5, uint8_t, marks), IN(6, uint64_t, sinces), 3, IN(7, uint8_t, new_kinds), IN(8, uint16_t, new_ns),
            IN(9, double, new_limits), OUT(10, uint8_t), OUT(11, uint16_t), OUT(12, double), (run == 13 ? NULL : out_times), len[13],
            OUT(14, uint16_t), OUT(15, uint8_t), (run == 16 ? NULL : out_sinces), len[16]);
#undef OUT
#undef IN
        uint8_t must = run < 0 ? LEMBORAW_DONE : run < 3 ? LEMBORAW_BAD_TABLE : run < 7 ? LEMBORAW_TOO_SHORT
                     : run < 10 ? LEMBORAW_BAD_TABLE : LEMBORAW_SHORT_ROOM;
        CHECK(said.no == must && said.table == (run >= 7 && run < 10) && said.place == 0 && said.nodes == (run < 0 ? RESULT : 0));
        CHECK(out_times[2] == (run < 0 ? 1 : 0) && out_sinces[2] == (run < 0 ? 3u : 0) && out_sinces[RESULT - 1] == (run < 0 ? 77u : 0));
    }
}

/* A tree that is exchanged back and forth between two rooms. */
static void tree_exchange(void) {
    static struct lemboraw_room rooms[2];
    static struct lemboraw_table tables[2];
    static const uint8_t both[] = {LEMBORAW_SEQUENCE, LEMBORAW_WAIT, LEMBORAW_WAIT, LEMBORAW_WAIT};
    static const uint16_t counts[] = {3, 0, 0, 0};
    static const double waits[] = {0, 1, 5, 9};
    static const uint8_t inverts[] = {LEMBORAW_INVERT, LEMBORAW_WAIT};
    static const uint16_t one[] = {1, 0};
    static const double soon[] = {0, 2};
    struct lemboraw_tree tree = lemboraw_tree_new(both, counts, waits, 4, &rooms[0]);
    CHECK(lemboraw_tree_tick(&tree, true, 2, 4, none).status == LEMBORAW_RUNNING && tree.places[0] == 1 && tree.times[2] == 1);
    struct lemboraw_exchange_said said = lemboraw_tree_exchange(&tree, 2, inverts, one, soon, 2, &tables[1], &rooms[1]);
    CHECK(said.no == LEMBORAW_STATE_HELD && tree.len == 4 && tree.kinds == both && tree.times == rooms[0].times);
    /* The first child is done, and is replaced by two nodes: all that is behind moves. */
    said = lemboraw_tree_exchange(&tree, 1, inverts, one, soon, 2, &tables[1], &rooms[1]);
    CHECK(said.no == LEMBORAW_DONE && tree.len == 5 && tree.kinds == tables[1].kinds && tree.times == rooms[1].times);
    CHECK(tree.times[3] == 1 && tree.limits[2] == 2 && tree.limits[3] == 5 && lemboraw_tree_age(&tree, 1) == 0);
    CHECK(tree.board[0] == LEMBORAW_RUNNING && tree.board[1] == 0 && tree.board[2] == 0 && tree.board[3] == LEMBORAW_RUNNING);
    /* And back by a branch of one node. */
    said = lemboraw_tree_exchange(&tree, 1, inverts + 1, one + 1, soon + 1, 1, &tables[0], &rooms[0]);
    CHECK(said.no == LEMBORAW_DONE && tree.len == 4 && tree.times == rooms[0].times && tree.times[2] == 1);
    CHECK(tree.board[1] == 0 && tree.board[2] == LEMBORAW_RUNNING && tree.board[3] == 0);
    CHECK(lemboraw_tree_tick(&tree, true, 4, 4, none).status == LEMBORAW_RUNNING && tree.places[0] == 2 && tree.record.ticks == 2);
    CHECK(lemboraw_tree_restart(&tree, true, 1, 4, none).no == LEMBORAW_DONE && tree.times[1] == 1 && tree.limits[1] == 2);
}

/* Each of the runs, null and empty, in place of one that is long enough. */
static void empty_runs(void) {
    for (int run = 0; run <= 14; run++) {
        struct lemboraw_tree t = lent_tree();
        t.times[4] = 7;
        size_t len[15];
        for (int i = 0; i < 15; i++) len[i] = i == run ? 0 : i < 12 ? NODES : 1;
#define RUN(i, pointer) (run == i ? NULL : pointer), len[i]
#define ALL \
    &t.record, RUN(0, t.kinds), RUN(1, t.ns), RUN(2, t.limits), RUN(3, t.times), RUN(4, t.places), RUN(5, t.marks), \
    RUN(6, t.sinces), RUN(7, t.spare_times), RUN(8, t.spare_places), RUN(9, t.spare_marks), RUN(10, t.spare_sinces), \
    RUN(11, t.board), true, 1.0, NODES, RUN(12, statuses), RUN(13, leftovers)
        struct lemboraw_said said = lemboraw_tick(ALL);
        uint8_t must = run < 3 ? LEMBORAW_BAD_TABLE : run < 12 ? LEMBORAW_TOO_SHORT : run < 14 ? LEMBORAW_ASKS : LEMBORAW_DONE;
        CHECK(said.no == must);
        CHECK(t.times[4] == (must == LEMBORAW_DONE ? 8 : 7) && t.record.ticks == (must == LEMBORAW_DONE));
        said = lemboraw_restart(ALL);
        CHECK(said.no == must && t.times[4] == (must == LEMBORAW_DONE ? 1 : 7));
        if (run < 3) CHECK(lemboraw_bound(RUN(0, t.kinds), RUN(1, t.ns), RUN(2, t.limits), 1.0).no == LEMBORAW_BAD_TABLE);
#undef ALL
#undef RUN
    }
    struct lemboraw_record record = {true, 9};
    struct lemboraw_said said = lemboraw_tick(
        &record, NULL, 0, NULL, 0, NULL, 0, NULL, 0, NULL, 0, NULL, 0, NULL, 0, NULL, 0, NULL, 0, NULL, 0, NULL, 0, NULL, 0,
        true, 1.0, 1, NULL, 0, NULL, 0);
    CHECK(said.no == LEMBORAW_BAD_TABLE && said.extra == 0 && record.finished && record.ticks == 9);
}

/* The place that a table is refused with. */
static void places_of_bad_tables(void) {
    static uint8_t many[300];
    static uint16_t counts[300];
    static double zeros[300];
    static struct lemboraw_room room;
    memset(many, LEMBORAW_WAIT_FOREVER, sizeof many);
    struct lemboraw_tree tree = lemboraw_tree_new(many, counts, zeros, 300, &room);
    /* It goes on behind its tree. */
    many[0] = LEMBORAW_WHEN_ALL, counts[0] = 2;
    struct lemboraw_said said = lemboraw_tree_tick(&tree, true, 1, 9, none);
    CHECK(said.no == LEMBORAW_BAD_TABLE && said.extra == 3);
    /* The tree itself is too large, and its 257th node is there. */
    counts[0] = 299;
    said = lemboraw_tree_restart(&tree, true, 1, 9, none);
    CHECK(said.no == LEMBORAW_BAD_TABLE && said.extra == 256);
    /* It ends too early. */
    tree.len = 200;
    struct lemboraw_bound_said bound = lemboraw_tree_bound(&tree, 1);
    CHECK(bound.no == LEMBORAW_BAD_TABLE && bound.place == 200);
    /* The largest tree there is. */
    counts[0] = 255, tree.len = 256;
    said = lemboraw_tree_tick(&tree, true, 1, 256, none);
    CHECK(said.no == LEMBORAW_DONE && said.visits == 256 && room.board[255] == LEMBORAW_RUNNING);
}

/* Only under the usual settings is Wait 5e-324 still running after an update by 0. */
static void settings(void) {
    static const uint8_t wait[] = {LEMBORAW_WAIT};
    static const uint16_t zero[] = {0};
    static const double smallest[] = {5e-324};
    static struct lemboraw_room room;
    struct lemboraw_tree tree = lemboraw_tree_new(wait, zero, smallest, 1, &room);
    CHECK(lemboraw_floats_are_usual());
    CHECK(lemboraw_tree_tick(&tree, true, 0, 1, none).status == LEMBORAW_RUNNING);
    unsigned found = __builtin_ia32_stmxcsr();
    __builtin_ia32_ldmxcsr(found | 0x8040u);
    bool told = lemboraw_floats_are_usual();
    uint8_t status = lemboraw_tree_tick(&tree, true, 0, 1, none).status;
    __builtin_ia32_ldmxcsr(found);
    CHECK(!told && status == LEMBORAW_SUCCESS);
    for (unsigned bit = 0x40u; bit <= 0x8000u; bit <<= 1) {
        __builtin_ia32_ldmxcsr(found ^ bit);
        told = lemboraw_floats_are_usual();
        __builtin_ia32_ldmxcsr(found);
        CHECK(!told);
    }
    /* What has happened is no setting. */
    __builtin_ia32_ldmxcsr(found | 0x3fu);
    told = lemboraw_floats_are_usual();
    __builtin_ia32_ldmxcsr(found);
    CHECK(told);
}

int main(void) {
    memory();
    levels();
    tree_levels();
    exchange();
    tree_exchange();
    empty_runs();
    places_of_bad_tables();
    settings();
    puts(wrong ? "C, what the header says: wrong" : "C, what the header says: ok");
    return wrong;
}
