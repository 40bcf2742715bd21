/* The eight functions as they are, each run with its length: a wait, an action that is asked for, a restart, an exchange, both without
 * recursion, the refusals. */
#include "lemboraw.h"
#include <stdio.h>

static int wrong;

#define CHECK(what) do { if (!(what)) { printf("line %d: %s\n", __LINE__, #what); wrong = 1; } } while (0)

enum { LEN = 3 };

static struct lemboraw_record record;
static const uint8_t kinds[LEN] = {LEMBORAW_SEQUENCE, LEMBORAW_WAIT, LEMBORAW_ACTION};
static const uint16_t ns[LEN] = {2, 0, 40000};
static const double limits[LEN] = {0.0, 2.0, 0.0};
static double times[LEN], spare_times[LEN];
static uint16_t places[LEN], spare_places[LEN];
static uint8_t marks[LEN], spare_marks[LEN], board[LEN];
static uint64_t sinces[LEN], spare_sinces[LEN];

static struct lemboraw_said tick(size_t nodes, bool update, double dt, uint32_t fuel, uint8_t status, size_t answers) {
    double leftover = 0.25;
    return lemboraw_tick(&record, kinds, nodes, ns, nodes, limits, nodes, times, LEN, places, LEN, marks, LEN,
                         sinces, LEN, spare_times, LEN, spare_places, LEN, spare_marks, LEN, spare_sinces, LEN, board, LEN,
                         update, dt, fuel, &status, answers, &leftover, answers);
}

static struct lemboraw_said restart(double dt, uint32_t fuel, uint8_t status, size_t answers, size_t spare) {
    double leftover = 0.25;
    return lemboraw_restart(&record, kinds, LEN, ns, LEN, limits, LEN, times, LEN, places, LEN, marks, LEN,
                            sinces, LEN, spare_times, spare, spare_places, LEN, spare_marks, LEN, spare_sinces, LEN, board, LEN,
                            true, dt, fuel, &status, answers, &leftover, answers);
}

/* Levels with one entry more than a call without recursion asks for. */
enum { LEVELS = LEMBORAW_LEVELS + 1 };
static uint64_t opens[LEVELS];
static uint32_t counts[LEVELS];
static double wholes[LEVELS], rests[LEVELS];

static struct lemboraw_said flat(bool again, size_t nodes, double dt, uint32_t fuel, uint8_t status, size_t answers, size_t levels) {
    double leftover = 0.25;
    for (size_t i = 0; i < LEVELS; i++) {
        opens[i] = counts[i] = 99;
        wholes[i] = rests[i] = 99;
    }
    return (again ? lemboraw_restart_flat : lemboraw_tick_flat)(
        &record, kinds, nodes, ns, nodes, limits, nodes, times, LEN, places, LEN, marks, LEN,
        sinces, LEN, spare_times, LEN, spare_places, LEN, spare_marks, LEN, spare_sinces, LEN, board, LEN,
        true, dt, fuel, &status, answers, &leftover, answers,
        opens, LEVELS, counts, levels, wholes, LEVELS, rests, LEVELS);
}

/* Whether the levels hold that number, and behind those that are asked for what was there. */
static bool levels_hold(int what) {
    for (int i = 0; i < LEVELS; i++) {
        int must = i < LEMBORAW_LEVELS ? what : 99;
        if (opens[i] != (uint64_t)must || counts[i] != (uint32_t)must || wholes[i] != must || rests[i] != must) return false;
    }
    return true;
}

/* Without recursion, from a tree that has finished: refused in its order, asked, out of fuel, carried out. */
static void flat_calls(void) {
    const size_t all = LEMBORAW_LEVELS;
    times[0] = -1.0;
    struct lemboraw_said said = flat(false, LEN - 1, 1.0, 3, 9, 1, all - 1);
    CHECK(said.no == LEMBORAW_BAD_TABLE && said.extra == 2 && levels_hold(99));
    said = flat(false, LEN, 1.0, 3, 9, 1, all - 1);
    CHECK(said.no == LEMBORAW_NO_ROOM && said.extra == 0 && levels_hold(99));
    said = flat(true, LEN, -1.0, 3, 9, 1, 0);
    CHECK(said.no == LEMBORAW_NO_ROOM && record.finished && times[0] == -1.0 && levels_hold(99));
    said = flat(false, LEN, 1.0, 3, 9, 1, all);
    CHECK(said.no == LEMBORAW_BAD_CELL && said.extra == 0 && levels_hold(99));
    said = flat(true, LEN, -1.0, 3, 9, 1, all);
    CHECK(said.no == LEMBORAW_BAD_TIME && levels_hold(99));
    said = flat(true, LEN, 4.0, 3, LEMBORAW_RUNNING, 0, LEVELS);
    CHECK(said.no == LEMBORAW_ASKS && said.extra == 40000 && said.time == 2.0 && record.finished && levels_hold(0));
    said = flat(true, LEN, 1.0, 3, LEMBORAW_RUNNING, 0, all);
    CHECK(said.no == LEMBORAW_DONE && said.status == LEMBORAW_RUNNING && said.visits == 2 && levels_hold(0));
    CHECK(!record.finished && times[0] == 0.0 && times[1] == 1.0 && spare_times[0] == -1.0 && board[1] == LEMBORAW_RUNNING);
    said = flat(false, LEN, 4.0, 2, LEMBORAW_SUCCESS, 1, all);
    CHECK(said.no == LEMBORAW_OUT_OF_FUEL && times[1] == 1.0 && levels_hold(0));
    said = flat(false, LEN, 4.0, 3, LEMBORAW_SUCCESS, 1, all);
    CHECK(said.no == LEMBORAW_DONE && said.status == LEMBORAW_SUCCESS && said.time == 0.25 && said.visits == 3 && said.used == 1);
    CHECK(record.finished && places[0] == 2 && spare_times[1] == 1.0 && sinces[2] == record.ticks && levels_hold(0));
    said = flat(false, LEN, 4.0, 3, LEMBORAW_SUCCESS, 1, all);
    CHECK(said.no == LEMBORAW_FINISHED && levels_hold(99));
}

/* The branch of an exchange, and its room: one node more than a result with it has in place of one node. */
enum { BRANCH = 2, ROOM = LEN - 1 + BRANCH + 1 };
static const uint8_t branch_kinds[BRANCH] = {LEMBORAW_TIMEOUT, LEMBORAW_ACTION};
static const uint16_t branch_ns[BRANCH] = {1, 7};
static const double branch_limits[BRANCH] = {3.0, -0.0};
static uint8_t room_kinds[ROOM], room_marks[ROOM];
static uint16_t room_ns[ROOM], room_places[ROOM];
static double room_limits[ROOM], room_times[ROOM];
static uint64_t room_sinces[ROOM];

static struct lemboraw_exchange_said exchange(size_t nodes, size_t cells, size_t at, size_t branch, size_t room) {
    for (size_t i = 0; i < ROOM; i++) {
        room_kinds[i] = room_marks[i] = 99;
        room_ns[i] = room_places[i] = 99;
        room_limits[i] = room_times[i] = 99;
        room_sinces[i] = 99;
    }
    return lemboraw_exchange(record, kinds, nodes, ns, nodes, limits, nodes, times, LEN, places, cells, marks, LEN, sinces, LEN,
                             at, branch_kinds, branch, branch_ns, branch, branch_limits, branch,
                             room_kinds, ROOM, room_ns, ROOM, room_limits, ROOM, room_times, ROOM, room_places, room,
                             room_marks, ROOM, room_sinces, ROOM);
}

/* Whether that node of the room is as it was. */
static bool untouched(size_t i) {
    return room_kinds[i] == 99 && room_ns[i] == 99 && room_limits[i] == 99 && room_times[i] == 99 && room_places[i] == 99 &&
           room_marks[i] == 99 && room_sinces[i] == 99;
}

static bool refused(struct lemboraw_exchange_said said, uint8_t no, uint8_t table, size_t place) {
    for (size_t i = 0; i < ROOM; i++) {
        if (!untouched(i)) return false;
    }
    return said.no == no && said.table == table && said.place == place && said.nodes == 0;
}

/* While the wait is under way, the action behind it is exchanged. */
static void exchanges(void) {
    /* In the order in which it looks: from one line to the next the first thing that is wrong is put right. */
    double stood = times[0];
    times[0] = -1.0;
    record.finished = true;
    CHECK(refused(exchange(LEN - 1, 1, 9, 1, 1), LEMBORAW_BAD_TABLE, 0, 2));
    CHECK(refused(exchange(LEN, 1, 9, 1, 1), LEMBORAW_BAD_TABLE, 1, 1));
    CHECK(refused(exchange(LEN, 1, 9, BRANCH, 1), LEMBORAW_TOO_SHORT, 0, 0));
    CHECK(refused(exchange(LEN, LEN, 9, BRANCH, 1), LEMBORAW_BAD_CELL, 0, 0));
    times[0] = stood;
    CHECK(refused(exchange(LEN, LEN, 9, BRANCH, 1), LEMBORAW_FINISHED, 0, 0));
    record.finished = false;
    CHECK(refused(exchange(LEN, LEN, LEN, BRANCH, 1), LEMBORAW_NO_NODE, 0, 0));
    CHECK(refused(exchange(LEN, LEN, 1, BRANCH, 1), LEMBORAW_STATE_HELD, 0, 0));
    CHECK(refused(exchange(LEN, LEN, 0, BRANCH, 1), LEMBORAW_STATE_HELD, 0, 0));
    CHECK(refused(exchange(LEN, LEN, 2, BRANCH, LEN), LEMBORAW_SHORT_ROOM, 0, 0));

    struct lemboraw_exchange_said said = exchange(LEN, LEN, 2, BRANCH, LEN + 1);
    CHECK(said.no == LEMBORAW_DONE && said.table == 0 && said.place == 0 && said.nodes == LEN + 1 && untouched(LEN + 1));
    CHECK(room_kinds[0] == LEMBORAW_SEQUENCE && room_kinds[2] == LEMBORAW_TIMEOUT && room_kinds[3] == LEMBORAW_ACTION);
    CHECK(room_ns[0] == 2 && room_ns[2] == 1 && room_ns[3] == 7 && room_limits[1] == 2.0 && room_limits[2] == 3.0);
    /* Minus zero is written as plus zero; the new nodes are fresh and stand since now, the others as they did. */
    CHECK(1.0 / room_limits[3] > 0.0 && room_times[1] == 1.0 && room_times[2] == 0.0 && room_places[0] == 0 && room_marks[3] == 0);
    CHECK(room_sinces[0] == 0 && room_sinces[1] == 0 && room_sinces[2] == record.ticks && room_sinces[3] == record.ticks);
    CHECK(times[1] == 1.0 && record.ticks == 1 && !record.finished);

    /* A result that is too large: refused before its room is looked at. */
    static uint8_t many[256];
    static uint16_t counts[256];
    static double zeros[256];
    many[0] = LEMBORAW_WHEN_ALL, counts[0] = 255;
    for (int i = 1; i < 256; i++) many[i] = LEMBORAW_WAIT_FOREVER;
    said = lemboraw_exchange(record, kinds, LEN, ns, LEN, limits, LEN, times, LEN, places, LEN, marks, LEN, sinces, LEN, 2,
                             many, 256, counts, 256, zeros, 256, NULL, 0, NULL, 0, NULL, 0, NULL, 0, NULL, 0, NULL, 0, NULL, 0);
    CHECK(said.no == LEMBORAW_TOO_LARGE && said.table == 0 && said.place == 0 && said.nodes == 0);
}

int main(void) {
    struct lemboraw_said said = tick(LEN, true, 1.0, 3, LEMBORAW_RUNNING, 0);
    CHECK(said.no == LEMBORAW_DONE && said.status == LEMBORAW_RUNNING && said.visits == 2 && said.used == 0);
    CHECK(said.time == 0.0 && record.ticks == 1 && times[1] == 1.0 && board[0] == LEMBORAW_RUNNING && board[2] == 0);
    /* Nothing was made fresh: all of it has stood since the tree was new. */
    CHECK(sinces[0] == 0 && sinces[1] == 0 && sinces[2] == 0 && lemboraw_age(record.ticks, sinces[1]) == 1);
    exchanges();

    said = tick(LEN, true, 4.0, 3, LEMBORAW_RUNNING, 0);
    CHECK(said.no == LEMBORAW_ASKS && said.extra == 40000 && said.time == 3.0 && record.ticks == 1 && times[1] == 1.0);
    said = tick(LEN, true, 4.0, 2, LEMBORAW_RUNNING, 0);
    CHECK(said.no == LEMBORAW_OUT_OF_FUEL && sinces[1] == 0 && sinces[2] == 0);
    said = tick(LEN, true, -1.0, 3, LEMBORAW_RUNNING, 0);
    CHECK(said.no == LEMBORAW_BAD_TIME);
    said = tick(LEN, true, 4.0, 3, 9, 1);
    CHECK(said.no == LEMBORAW_BAD_ANSWER && said.extra == 0);
    said = tick(LEN - 1, true, 4.0, 3, LEMBORAW_RUNNING, 0);
    CHECK(said.no == LEMBORAW_BAD_TABLE && said.extra == 2);
    said = tick(LEN, true, 4.0, 3, LEMBORAW_SUCCESS, 1);
    CHECK(said.no == LEMBORAW_DONE && said.status == LEMBORAW_SUCCESS && said.time == 0.25 && said.visits == 3 && said.used == 1);
    CHECK(record.finished && record.ticks == 2 && places[0] == 2 && spare_times[1] == 1.0);
    /* The wait was left and the action begun, both made fresh by this tick. */
    CHECK(sinces[0] == 0 && sinces[1] == 2 && sinces[2] == 2 && spare_sinces[1] == 0);
    CHECK(lemboraw_age(record.ticks, sinces[0]) == 2 && lemboraw_age(record.ticks, sinces[2]) == 0);
    said = tick(LEN, false, 0.0, 3, LEMBORAW_RUNNING, 0);
    CHECK(said.no == LEMBORAW_FINISHED);

    /* A cell that no tick takes; a restart does not look at it, and a question or too little fuel leaves it. */
    times[0] = -1.0;
    said = tick(LEN, true, 1.0, 3, LEMBORAW_RUNNING, 0);
    CHECK(said.no == LEMBORAW_BAD_CELL && said.extra == 0);
    said = restart(1.0, 3, LEMBORAW_RUNNING, 0, 2);
    CHECK(said.no == LEMBORAW_TOO_SHORT && spare_times[0] == 0.0);
    said = restart(-1.0, 3, LEMBORAW_RUNNING, 0, LEN);
    CHECK(said.no == LEMBORAW_BAD_TIME && spare_times[0] == 0.0);
    said = restart(4.0, 2, LEMBORAW_RUNNING, 0, LEN);
    CHECK(said.no == LEMBORAW_OUT_OF_FUEL && record.finished && times[0] == -1.0 && spare_times[0] == -1.0);
    said = restart(4.0, 3, LEMBORAW_RUNNING, 0, LEN);
    CHECK(said.no == LEMBORAW_ASKS && said.extra == 40000 && said.time == 2.0);
    CHECK(record.finished && record.ticks == 2 && places[0] == 2 && board[2] == LEMBORAW_SUCCESS);
    CHECK(sinces[0] == 0 && sinces[1] == 2 && spare_sinces[1] == 2);
    said = restart(4.0, 3, LEMBORAW_RUNNING, 1, LEN);
    CHECK(said.no == LEMBORAW_DONE && said.status == LEMBORAW_RUNNING && said.visits == 3 && said.used == 1);
    CHECK(!record.finished && record.ticks == 3 && times[0] == 0.0 && places[0] == 1 && spare_places[0] == 2);
    CHECK(sinces[0] == 3 && sinces[1] == 3 && sinces[2] == 3 && spare_sinces[0] == 0 && spare_sinces[2] == 2);

    /* A count that goes round: any since is taken, and ages are right across it. */
    record.ticks = UINT64_MAX;
    sinces[1] = UINT64_MAX - 1;
    said = tick(LEN, true, 1.0, 3, LEMBORAW_RUNNING, 1);
    CHECK(said.no == LEMBORAW_DONE && record.ticks == 0 && sinces[1] == UINT64_MAX - 1 && sinces[2] == 3);
    CHECK(lemboraw_age(record.ticks, sinces[1]) == 2 && lemboraw_age(0, UINT64_MAX) == 1 && lemboraw_age(UINT64_MAX, 0) == UINT64_MAX);

    record.finished = true;
    flat_calls();

    struct lemboraw_bound_said bound = lemboraw_bound(kinds, LEN, ns, LEN, limits, LEN, 1.0);
    CHECK(bound.no == LEMBORAW_DONE && bound.kind == LEMBORAW_UNBOUNDED && bound.ticks == 0);
    bound = lemboraw_bound(kinds + 1, 1, ns + 1, 1, limits + 1, 1, 1.0);
    CHECK(bound.no == LEMBORAW_DONE && bound.kind == LEMBORAW_TICKS && bound.ticks == 2);
    bound = lemboraw_bound(kinds, LEN, ns, LEN, limits, LEN, 0.5);
    CHECK(bound.no == LEMBORAW_NO_BOUND);

    CHECK(lemboraw_memory(LEMBORAW_SEQUENCE, false) == LEMBORAW_MEMORYLESS_SEQUENCE);
    CHECK(lemboraw_memory(LEMBORAW_MEMORYLESS_SELECTOR, true) == LEMBORAW_SELECT);
    CHECK(lemboraw_memory(LEMBORAW_RACE, false) == LEMBORAW_RACE);
    puts(wrong ? "C, the eight functions: wrong" : "C, the eight functions: ok");
    return wrong;
}
