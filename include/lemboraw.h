/* Lemboraw: a behaviour-tree evaluator, for C and C++ hosts.
 *
 * It keeps nothing between calls, allocates nothing, locks nothing and never fails to return: all
 * memory is lent by the caller for the length of one call. Calls that lend different memory may run
 * at the same time.
 *
 *   cc host.c -I include -L target/staticlib -llemboraw
 *
 * `struct lemboraw_tree` at the end of this file is the short way to everything here: with it a tick
 * is a call with five arguments. c/station.c is a whole program.
 *
 * What the host sees to, and nothing here can check:
 *
 * - The machine is x86-64 Linux, with the System V calling convention. memcpy and memset come from
 *   the host's C library, or from the host; nothing else is needed.
 * - Each run of memory is lent as a pointer and a number of elements, and is there for its length.
 *   Where the length is 0 the pointer may be null. The record is always there.
 * - Every pointer is aligned as C aligns its type: 8 bytes for double, uint64_t and the record, 4 for
 *   uint32_t, 2 for uint16_t.
 * - Two things lent to one call do not overlap, and nobody else writes to any of them, or reads what
 *   is not const, until the call is back. Cells are changed in place, and put back where the call
 *   then says 7 or 1.
 * - What is not const can be written to, also in a call that is refused: the record is written back
 *   as it was.
 * - `finished`, `update` and `on` hold 0 or 1, as a bool does that C has written.
 * - LEMBORAW_STACK bytes of stack are left, for a call without recursion LEMBORAW_STACK_FLAT.
 * - The thread's floating-point settings (MXCSR) are those with which it starts: round to nearest,
 *   no flush-to-zero, no denormals-are-zero, every exception masked. A host linked with -ffast-math
 *   has others: there a Wait of 5e-324 ends at an update by 0. With others elapsed times are not
 *   those of the rules, and with an exception unmasked a tick can end by a signal.
 *   lemboraw_floats_are_usual() looks.
 *
 * Several runs that make up one thing (kinds, ns and limits are the table; times, places, marks and
 * sinces the cells; statuses and leftovers the answers; opens, counts, wholes and rests the levels; all
 * seven of an exchange its room) count as long as the shortest of them. Nothing past the table's length is
 * read or written in cells, spare and board, and nothing past the 16th entry in levels.
 */
#ifndef LEMBORAW_H
#define LEMBORAW_H

#include <stdbool.h>
#include <stddef.h>
#include <stdint.h>

#ifdef __cplusplus
extern "C" {
#endif

/* A table has 1 to 256 nodes in preorder and is at most 16 deep; the root alone is 1 deep. */
#define LEMBORAW_MOST_NODES 256
#define LEMBORAW_MOST_DEPTH 16

/* More stack than any call takes, in bytes: a tick of a tree 16 deep takes about 6,300. */
#define LEMBORAW_STACK 8192

/* The same for a tick or restart without recursion, whatever the tree. */
#define LEMBORAW_STACK_FLAT 4096

/* The entries that such a call asks for in its levels, one for each level that a tree can have. */
#define LEMBORAW_LEVELS LEMBORAW_MOST_DEPTH

/* The kinds of a node, with what the node's number n means. The limit is a time in Wait and
 * Timeout (finite, not below zero), and zero in every other kind. In limits, dt and leftovers minus
 * zero is taken as plus zero; in a cell it is refused. */
enum lemboraw_kind {
    LEMBORAW_WAIT = 0,                 /* n is 0 */
    LEMBORAW_WAIT_FOREVER = 1,         /* n is 0 */
    LEMBORAW_ACTION = 2,               /* n is the action's number, 0 to 65535 */
    LEMBORAW_INVERT = 3,               /* from here on n counts children: 1 */
    LEMBORAW_ALWAYS_SUCCEED = 4,       /* 1 */
    LEMBORAW_TIMEOUT = 5,              /* 1 */
    LEMBORAW_SELECT = 6,               /* 1 or more */
    LEMBORAW_IF = 7,                   /* 3: condition, on success, on failure */
    LEMBORAW_SEQUENCE = 8,             /* 1 or more */
    LEMBORAW_MEMORYLESS_SEQUENCE = 9,  /* 0 or more */
    LEMBORAW_MEMORYLESS_SELECTOR = 10, /* 0 or more */
    LEMBORAW_WHILE = 11,               /* 2 or more: condition, then body */
    LEMBORAW_WHILE_ALL = 12,           /* 2 or more: condition, then body */
    LEMBORAW_WHEN_ALL = 13,            /* 0 or more */
    LEMBORAW_WHEN_ANY = 14,            /* 0 or more */
    LEMBORAW_AFTER = 15,               /* 0 or more */
    LEMBORAW_RACE = 16                 /* 0 or more */
};

/* A status, in an answer and on the board, where 0 is none: see lemboraw_tick. */
enum lemboraw_status {
    LEMBORAW_RUNNING = 1,
    LEMBORAW_SUCCESS = 2,
    LEMBORAW_FAILURE = 3
};

/* What a call can say (`no`), in the order in which a tick looks, and what it leaves behind.
 *
 *   no  when                                             extra         leaves
 *   3   bad table                                        faulty place  everything as it was
 *   4   cells, spare or board shorter than the table                   everything as it was
 *   13  without recursion: fewer than 16 levels                        everything as it was
 *   9   a bad cell                                       its place     everything as it was
 *   5   update whose dt is not finite or below zero                    everything as it was
 *   6   a bad status or leftover among the answers       its index     everything as it was
 *   2   the tree is finished: restart it                               everything as it was
 *   7   more visits than fuel                                          cells, record and board as they were;
 *                                                                      the spare holds the cells
 *   1   an Action is visited and the answers are used up action number as 7
 *   0   done                                                           new cells, record and board;
 *                                                                      the spare holds the cells at entry
 *
 * A place is an index into the table: the smallest faulty one. Where the table ends before its tree
 * does that is the table's length; where it goes on behind its tree, the first node there; where the
 * tree has more than 256 nodes, 256. A restart says the same in the same order, but never 9 or 2. The
 * bound says 3, 8 or 0; 8 stands for a step that is not whole or not from 1 to 2^40, a limit that is not
 * whole or above 2^40, or an After without children, anywhere in the tree. What an exchange says stands
 * at lemboraw_exchange. */
enum lemboraw_no {
    LEMBORAW_DONE = 0,
    LEMBORAW_ASKS = 1,
    LEMBORAW_FINISHED = 2,
    LEMBORAW_BAD_TABLE = 3,
    LEMBORAW_TOO_SHORT = 4,
    LEMBORAW_BAD_TIME = 5,
    LEMBORAW_BAD_ANSWER = 6,
    LEMBORAW_OUT_OF_FUEL = 7,
    LEMBORAW_NO_BOUND = 8,
    LEMBORAW_BAD_CELL = 9,
    LEMBORAW_NO_ROOM = 13,
    LEMBORAW_NO_NODE = 17,
    LEMBORAW_STATE_HELD = 18,
    LEMBORAW_TOO_LARGE = 19,
    LEMBORAW_SHORT_ROOM = 20
};

/* The standing record of one tree. A new tree has {false, 0}. */
struct lemboraw_record {
    bool finished;  /* the last tick ended in success or failure */
    uint64_t ticks; /* ticks carried out; restarts too; goes from its largest number to 0 */
};

/* What a tick or a restart says. A field that the line of `no` does not name is 0. */
struct lemboraw_said {
    uint8_t no;      /* enum lemboraw_no */
    uint8_t status;  /* of 0: the root's status */
    uint32_t visits; /* of 0: the nodes visited, each visit counted */
    size_t used;     /* of 0: how many of the answers were used */
    size_t extra;    /* of 1: the action's number; of 3 and 9: the place; of 6: the index */
    double time;     /* of 0: the leftover time; of 1: the dt that the action sees */
};

/* What the finish bound says. */
enum lemboraw_bound_kind {
    LEMBORAW_TICKS = 0,     /* finished at or before that tick */
    LEMBORAW_UNBOUNDED = 1, /* no bound */
    LEMBORAW_ABOVE = 2      /* a bound, but above 2^53 */
};

struct lemboraw_bound_said {
    uint8_t no;     /* 0, 3 or 8 */
    uint8_t kind;   /* of 0: enum lemboraw_bound_kind */
    size_t place;   /* of 3: the place */
    uint64_t ticks; /* of LEMBORAW_TICKS: the number */
};

/* What an exchange says. A field that the line of `no` does not name is 0. */
struct lemboraw_exchange_said {
    uint8_t no;    /* enum lemboraw_no */
    uint8_t table; /* of 3: which table is bad, 0 the tree's, 1 the branch's */
    size_t place;  /* of 3: the place in that table; of 9: the place in the tree's */
    size_t nodes;  /* of 0: how many nodes were written */
};

/* One tick: an update by dt (update true) or another event (update false; dt is not looked at).
 *
 * The cells are the tree's state: a time, a place, a mark and a since for each node, all 0 in a new
 * tree. The spare is room of the same shape, whose contents do not matter. Fuel bounds the visits;
 * without loops the number of nodes is always enough.
 *
 * A since is the number of the tick that last made the node fresh, where a tick's number is the count
 * after it: see lemboraw_age. It changes with the other cells, so on 0 alone, and no answer depends on
 * it: any number is taken.
 *
 * The board gets a byte for each node, for displays: the status of its last visit in this tick. A
 * child that was not visited in it but has ended before shows how, by the cells after the tick:
 *
 *   2   marked under a WhenAll, or before the place of a Sequence or an After
 *   3   marked under a WhenAny, or before the place of a Select
 *
 * That a child is marked says its mark; which children are before the place says the place of the
 * node above, from 0. The nodes below such a child do not show it. All others not visited are 0.
 *
 * Actions take the answers in the order in which they are met. Where they are used up the call
 * says 1, with the action's number and the dt it sees: act, add one answer at the end, and call
 * again with all else as it was. Answers left over do no harm. */
struct lemboraw_said lemboraw_tick(
    struct lemboraw_record *record,
    const uint8_t *kinds, size_t kinds_len,
    const uint16_t *ns, size_t ns_len,
    const double *limits, size_t limits_len,
    double *times, size_t times_len,
    uint16_t *places, size_t places_len,
    uint8_t *marks, size_t marks_len,
    uint64_t *sinces, size_t sinces_len,
    double *spare_times, size_t spare_times_len,
    uint16_t *spare_places, size_t spare_places_len,
    uint8_t *spare_marks, size_t spare_marks_len,
    uint64_t *spare_sinces, size_t spare_sinces_len,
    uint8_t *board, size_t board_len,
    bool update, double dt, uint32_t fuel,
    const uint8_t *statuses, size_t statuses_len,
    const double *leftovers, size_t leftovers_len);

/* A restart and its first tick in one call: it ticks as from a fresh tree, finished or not.
 *
 * Where it does not end in 0, cells and record are as they were before it, finished included: so a
 * question does not reset a tree that a display shows, and the restart is called again with one more
 * answer, as a tick is. The cells at entry are not checked and may hold anything; the spare gets them
 * as they are on 0, 7 and 1. On 0 the tick count goes up by one, as in any tick, and every since is
 * this tick's number. */
struct lemboraw_said lemboraw_restart(
    struct lemboraw_record *record,
    const uint8_t *kinds, size_t kinds_len,
    const uint16_t *ns, size_t ns_len,
    const double *limits, size_t limits_len,
    double *times, size_t times_len,
    uint16_t *places, size_t places_len,
    uint8_t *marks, size_t marks_len,
    uint64_t *sinces, size_t sinces_len,
    double *spare_times, size_t spare_times_len,
    uint16_t *spare_places, size_t spare_places_len,
    uint8_t *spare_marks, size_t spare_marks_len,
    uint64_t *spare_sinces, size_t spare_sinces_len,
    uint8_t *board, size_t board_len,
    bool update, double dt, uint32_t fuel,
    const uint8_t *statuses, size_t statuses_len,
    const double *leftovers, size_t leftovers_len);

/* A tick without recursion, for hosts with little stack: it takes no more for a deeper tree. Its open nodes
 * stand in lent levels, an entry for each level of the tree.
 *
 * In all else it is lemboraw_tick: the same answer on every input, and the same record, cells, spare and
 * board. Levels of fewer than 16 entries are refused (13), also for a tree that is less deep. What is in
 * them does not matter, so that all trees can share them. After 0, 7 and 1 the 16 entries are zero, every
 * bit of them; after anything else they are as they were. */
struct lemboraw_said lemboraw_tick_flat(
    struct lemboraw_record *record,
    const uint8_t *kinds, size_t kinds_len,
    const uint16_t *ns, size_t ns_len,
    const double *limits, size_t limits_len,
    double *times, size_t times_len,
    uint16_t *places, size_t places_len,
    uint8_t *marks, size_t marks_len,
    uint64_t *sinces, size_t sinces_len,
    double *spare_times, size_t spare_times_len,
    uint16_t *spare_places, size_t spare_places_len,
    uint8_t *spare_marks, size_t spare_marks_len,
    uint64_t *spare_sinces, size_t spare_sinces_len,
    uint8_t *board, size_t board_len,
    bool update, double dt, uint32_t fuel,
    const uint8_t *statuses, size_t statuses_len,
    const double *leftovers, size_t leftovers_len,
    uint64_t *opens, size_t opens_len,
    uint32_t *counts, size_t counts_len,
    double *wholes, size_t wholes_len,
    double *rests, size_t rests_len);

/* A restart without recursion: lemboraw_restart in all else. */
struct lemboraw_said lemboraw_restart_flat(
    struct lemboraw_record *record,
    const uint8_t *kinds, size_t kinds_len,
    const uint16_t *ns, size_t ns_len,
    const double *limits, size_t limits_len,
    double *times, size_t times_len,
    uint16_t *places, size_t places_len,
    uint8_t *marks, size_t marks_len,
    uint64_t *sinces, size_t sinces_len,
    double *spare_times, size_t spare_times_len,
    uint16_t *spare_places, size_t spare_places_len,
    uint8_t *spare_marks, size_t spare_marks_len,
    uint64_t *spare_sinces, size_t spare_sinces_len,
    uint8_t *board, size_t board_len,
    bool update, double dt, uint32_t fuel,
    const uint8_t *statuses, size_t statuses_len,
    const double *leftovers, size_t leftovers_len,
    uint64_t *opens, size_t opens_len,
    uint32_t *counts, size_t counts_len,
    double *wholes, size_t wholes_len,
    double *rests, size_t rests_len);

/* The exchange of a branch that has not been started: the tree in which a new branch, a table of its own,
 * stands in place of the node `at` and all below it is written to the room, its table and its cells. The
 * tree that was given is only read, and so is the record, which goes on with the new tree.
 *
 * The new branch is fresh: its times, places and marks are 0, its sinces the record's tick count. Every
 * other node keeps its four numbers. Limits are written as they are taken, minus zero as plus zero.
 *
 * It is allowed where the tree holds no state for the node. That is so where it is, or lies below,
 *
 * - a child of a Select or Sequence other than the one at its place; at place n the last child is that one,
 * - a child in the body of a While or WhileAll that is not in progress; at place 0 of a WhileAll the first
 *   is in progress,
 * - a branch of an If that is not chosen, so both before it is decided, or the condition once it is,
 *
 * and neither is a marked child nor lies below one. So never for the root.
 *
 *   no  when                                                       table, place, nodes
 *   3   a bad table: the tree's, and then the branch's             which, and the faulty place in it
 *   4   cells shorter than the tree's table
 *   9   a bad cell                                                 its place
 *   2   the tree is finished
 *   17  the tree has no node `at`: it counts from 0
 *   18  state is held for it
 *   19  the result has more than 256 nodes or is deeper than 16
 *   20  the room is shorter than the result
 *   0   done                                                       the nodes of the result
 *
 * It looks in this order. On 0 as many elements of each run of the room are written as the result has
 * nodes; on anything else nothing is. What was in the room does not matter. There is no board: until the
 * next tick the host shows what it likes of the new branch. */
struct lemboraw_exchange_said lemboraw_exchange(
    struct lemboraw_record record,
    const uint8_t *kinds, size_t kinds_len,
    const uint16_t *ns, size_t ns_len,
    const double *limits, size_t limits_len,
    const double *times, size_t times_len,
    const uint16_t *places, size_t places_len,
    const uint8_t *marks, size_t marks_len,
    const uint64_t *sinces, size_t sinces_len,
    size_t at,
    const uint8_t *new_kinds, size_t new_kinds_len,
    const uint16_t *new_ns, size_t new_ns_len,
    const double *new_limits, size_t new_limits_len,
    uint8_t *room_kinds, size_t room_kinds_len,
    uint16_t *room_ns, size_t room_ns_len,
    double *room_limits, size_t room_limits_len,
    double *room_times, size_t room_times_len,
    uint16_t *room_places, size_t room_places_len,
    uint8_t *room_marks, size_t room_marks_len,
    uint64_t *room_sinces, size_t room_sinces_len);

/* The most ticks that a fresh tree takes to finish, whatever statuses its actions answer; a restart that
 * says 0 is the first of them. It holds if, from the fresh tree on,
 *
 * - each tick carried out (answer 0) is an update by a whole dt from `step` to 2^40,
 * - each answer that it used has a whole leftover up to 2^40,
 * - and each call is lent the cells and the record as the last one left them.
 *
 * Calls that say another number do not count and do no harm. Times may be in any unit; milliseconds
 * are whole. A bare Action or WaitForever has no bound, and what waits for it has none: put a Timeout
 * around it. */
struct lemboraw_bound_said lemboraw_bound(
    const uint8_t *kinds, size_t kinds_len,
    const uint16_t *ns, size_t ns_len,
    const double *limits, size_t limits_len,
    double step);

/* For how many ticks a branch has stood: the record's tick count less the since of its cell. It wraps
 * as the count does, so an age is also right where the count has gone from its largest number to 0.
 *
 * What makes a branch fresh, and so sets the since of the whole branch: a restart; a Sequence, Select,
 * While or WhileAll that moves on, for the child it leaves and the one it goes to; an If that is
 * decided, for its condition and the branch chosen; a memoryless node that is visited, for all its
 * children; a WhenAll or WhenAny that marks a child, for that child. All else keeps its number. */
uint64_t lemboraw_age(uint64_t ticks, uint64_t since);

/* The kind with its memory on or off: Sequence and Select have a memoryless form each, and every
 * other kind is its own. */
uint8_t lemboraw_memory(uint8_t kind, bool on);

/* Whether the calling thread's floating-point settings are those that the calls above rest on. */
static inline bool lemboraw_floats_are_usual(void) {
    return (__builtin_ia32_stmxcsr() & 0xffc0u) == 0x1f80u;
}

/* ---- The short way: a tree with all that it lends to a call. Fill it in, or let
 * lemboraw_tree_new() do so with room for the largest tree. ---- */

struct lemboraw_tree {
    struct lemboraw_record record;
    size_t len; /* how many nodes the table has; the other runs are as long, and 256 is always enough */

    const uint8_t *kinds; /* the table */
    const uint16_t *ns;
    const double *limits;

    double *times; /* the cells, all 0 in a new tree */
    uint16_t *places;
    uint8_t *marks;
    uint64_t *sinces;

    double *spare_times; /* the spare, whatever is in it */
    uint16_t *spare_places;
    uint8_t *spare_marks;
    uint64_t *spare_sinces;

    uint8_t *board; /* a status for each node, or 0: see lemboraw_tick; left by the last tick carried out */
};

/* What a tree writes to, for the largest tree that there can be. */
struct lemboraw_room {
    double times[LEMBORAW_MOST_NODES], spare_times[LEMBORAW_MOST_NODES];
    uint64_t sinces[LEMBORAW_MOST_NODES], spare_sinces[LEMBORAW_MOST_NODES];
    uint16_t places[LEMBORAW_MOST_NODES], spare_places[LEMBORAW_MOST_NODES];
    uint8_t marks[LEMBORAW_MOST_NODES], spare_marks[LEMBORAW_MOST_NODES], board[LEMBORAW_MOST_NODES];
};

/* Levels for the calls without recursion; one of them serves any number of trees, one call at a time. */
struct lemboraw_levels {
    uint64_t opens[LEMBORAW_LEVELS];
    double wholes[LEMBORAW_LEVELS], rests[LEMBORAW_LEVELS];
    uint32_t counts[LEMBORAW_LEVELS];
};

/* Room for the table of the largest tree that there can be. */
struct lemboraw_table {
    double limits[LEMBORAW_MOST_NODES];
    uint16_t ns[LEMBORAW_MOST_NODES];
    uint8_t kinds[LEMBORAW_MOST_NODES];
};

/* What the actions of a tick answered, in the order in which they were asked. */
struct lemboraw_answers {
    const uint8_t *statuses;
    const double *leftovers;
    size_t len;
};

/* A fresh tree over a table and room of its own. A table of more than 256 nodes is refused by the
 * first call, as any bad table is. */
static inline struct lemboraw_tree lemboraw_tree_new(
    const uint8_t *kinds, const uint16_t *ns, const double *limits, size_t len, struct lemboraw_room *room) {
    struct lemboraw_tree tree;
    for (size_t i = 0; i < LEMBORAW_MOST_NODES; i++) {
        room->times[i] = 0.0;
        room->places[i] = 0;
        room->marks[i] = 0;
        room->sinces[i] = 0;
        room->board[i] = 0;
    }
    tree.record.finished = false;
    tree.record.ticks = 0;
    tree.len = len;
    tree.kinds = kinds;
    tree.ns = ns;
    tree.limits = limits;
    tree.times = room->times;
    tree.places = room->places;
    tree.marks = room->marks;
    tree.sinces = room->sinces;
    tree.spare_times = room->spare_times;
    tree.spare_places = room->spare_places;
    tree.spare_marks = room->spare_marks;
    tree.spare_sinces = room->spare_sinces;
    tree.board = room->board;
    return tree;
}

/* lemboraw_tick of a tree. */
static inline struct lemboraw_said lemboraw_tree_tick(
    struct lemboraw_tree *tree, bool update, double dt, uint32_t fuel, struct lemboraw_answers answers) {
    const size_t len = tree->len, room = len < LEMBORAW_MOST_NODES ? len : LEMBORAW_MOST_NODES;
    return lemboraw_tick(
        &tree->record, tree->kinds, len, tree->ns, len, tree->limits, len,
        tree->times, room, tree->places, room, tree->marks, room, tree->sinces, room,
        tree->spare_times, room, tree->spare_places, room, tree->spare_marks, room, tree->spare_sinces, room,
        tree->board, room, update, dt, fuel,
        answers.statuses, answers.len, answers.leftovers, answers.len);
}

/* lemboraw_restart of a tree. */
static inline struct lemboraw_said lemboraw_tree_restart(
    struct lemboraw_tree *tree, bool update, double dt, uint32_t fuel, struct lemboraw_answers answers) {
    const size_t len = tree->len, room = len < LEMBORAW_MOST_NODES ? len : LEMBORAW_MOST_NODES;
    return lemboraw_restart(
        &tree->record, tree->kinds, len, tree->ns, len, tree->limits, len,
        tree->times, room, tree->places, room, tree->marks, room, tree->sinces, room,
        tree->spare_times, room, tree->spare_places, room, tree->spare_marks, room, tree->spare_sinces, room,
        tree->board, room, update, dt, fuel,
        answers.statuses, answers.len, answers.leftovers, answers.len);
}

/* lemboraw_tick_flat of a tree. */
static inline struct lemboraw_said lemboraw_tree_tick_flat(
    struct lemboraw_tree *tree, bool update, double dt, uint32_t fuel, struct lemboraw_answers answers,
    struct lemboraw_levels *levels) {
    const size_t len = tree->len, room = len < LEMBORAW_MOST_NODES ? len : LEMBORAW_MOST_NODES, all = LEMBORAW_LEVELS;
    return lemboraw_tick_flat(
        &tree->record, tree->kinds, len, tree->ns, len, tree->limits, len,
        tree->times, room, tree->places, room, tree->marks, room, tree->sinces, room,
        tree->spare_times, room, tree->spare_places, room, tree->spare_marks, room, tree->spare_sinces, room,
        tree->board, room, update, dt, fuel,
        answers.statuses, answers.len, answers.leftovers, answers.len,
        levels->opens, all, levels->counts, all, levels->wholes, all, levels->rests, all);
}

/* lemboraw_restart_flat of a tree. */
static inline struct lemboraw_said lemboraw_tree_restart_flat(
    struct lemboraw_tree *tree, bool update, double dt, uint32_t fuel, struct lemboraw_answers answers,
    struct lemboraw_levels *levels) {
    const size_t len = tree->len, room = len < LEMBORAW_MOST_NODES ? len : LEMBORAW_MOST_NODES, all = LEMBORAW_LEVELS;
    return lemboraw_restart_flat(
        &tree->record, tree->kinds, len, tree->ns, len, tree->limits, len,
        tree->times, room, tree->places, room, tree->marks, room, tree->sinces, room,
        tree->spare_times, room, tree->spare_places, room, tree->spare_marks, room, tree->spare_sinces, room,
        tree->board, room, update, dt, fuel,
        answers.statuses, answers.len, answers.leftovers, answers.len,
        levels->opens, all, levels->counts, all, levels->wholes, all, levels->rests, all);
}

/* lemboraw_exchange of a tree. Table and room are others than those it stands over: on 0 it stands over
 * these, and the old ones are free for the next exchange. On the board all others show what they showed,
 * and the new branch 0. On anything else the tree is as it was. */
static inline struct lemboraw_exchange_said lemboraw_tree_exchange(
    struct lemboraw_tree *tree, size_t at,
    const uint8_t *new_kinds, const uint16_t *new_ns, const double *new_limits, size_t new_len,
    struct lemboraw_table *table, struct lemboraw_room *room) {
    const size_t len = tree->len, most = LEMBORAW_MOST_NODES, lent = len < most ? len : most;
    struct lemboraw_exchange_said said = lemboraw_exchange(
        tree->record, tree->kinds, len, tree->ns, len, tree->limits, len,
        tree->times, lent, tree->places, lent, tree->marks, lent, tree->sinces, lent,
        at, new_kinds, new_len, new_ns, new_len, new_limits, new_len,
        table->kinds, most, table->ns, most, table->limits, most,
        room->times, most, room->places, most, room->marks, most, room->sinces, most);
    if (said.no != LEMBORAW_DONE) return said;
    for (size_t i = 0; i < said.nodes; i++) {
        /* What stands behind the branch has moved by as much as the tree has grown. */
        room->board[i] = i < at ? tree->board[i] : i < at + new_len ? 0 : tree->board[i + len - said.nodes];
    }
    tree->len = said.nodes;
    tree->kinds = table->kinds;
    tree->ns = table->ns;
    tree->limits = table->limits;
    tree->times = room->times;
    tree->places = room->places;
    tree->marks = room->marks;
    tree->sinces = room->sinces;
    tree->spare_times = room->spare_times;
    tree->spare_places = room->spare_places;
    tree->spare_marks = room->spare_marks;
    tree->spare_sinces = room->spare_sinces;
    tree->board = room->board;
    return said;
}

/* lemboraw_bound of a tree. */
static inline struct lemboraw_bound_said lemboraw_tree_bound(const struct lemboraw_tree *tree, double step) {
    return lemboraw_bound(tree->kinds, tree->len, tree->ns, tree->len, tree->limits, tree->len, step);
}

/* lemboraw_age of the node at a place of the table: 0 to len - 1. */
static inline uint64_t lemboraw_tree_age(const struct lemboraw_tree *tree, size_t place) {
    return lemboraw_age(tree->record.ticks, tree->sinces[place]);
}

#ifdef __cplusplus
}
#endif

#endif
