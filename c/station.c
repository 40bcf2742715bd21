/* A sequencing station: take the broadcast, wait for the lane, scan, send the set. After 8 s it gives
 * that up and calls for hand rework, and after 3 s more it gives that up too. Times are milliseconds.
 * Here no action ever ends, which is the worst that can happen: the station finishes all the same, at
 * or before its bound, and can tell for how long the last branch has stood. Then it is restarted for
 * the next set.
 *
 *   cc c/station.c -I include -L target/staticlib -llemboraw -o station && ./station
 */
#include "lemboraw.h"
#include <stdio.h>

enum action { BROADCAST, SCAN, SEND, HAND_REWORK };
static const char *const names[] = {"take the broadcast", "scan", "send the set", "call for hand rework"};

/* Select
 *   Timeout 8000
 *     Sequence
 *       Action BROADCAST
 *       Wait 2000           the lane settles
 *       Action SCAN
 *       Action SEND
 *   Timeout 3000
 *     Action HAND_REWORK
 */
enum { NODES = 9, REWORK = 7 };
static const uint8_t kinds[NODES] = {LEMBORAW_SELECT, LEMBORAW_TIMEOUT, LEMBORAW_SEQUENCE, LEMBORAW_ACTION, LEMBORAW_WAIT,
                                     LEMBORAW_ACTION, LEMBORAW_ACTION, LEMBORAW_TIMEOUT, LEMBORAW_ACTION};
static const uint16_t ns[NODES] = {2, 1, 4, BROADCAST, 0, SCAN, SEND, 1, HAND_REWORK};
static const double limits[NODES] = {0, 8000, 0, 0, 2000, 0, 0, 3000, 0};

static struct lemboraw_room room;

/* What the station does when the tree asks. Here nothing is ever done, so every action goes on. */
static uint8_t act(size_t action, double dt, double *leftover) {
    printf("  asked with %g ms: %s\n", dt, names[action]);
    *leftover = 0;
    return LEMBORAW_RUNNING;
}

/* What a tick and a restart have in common. */
typedef struct lemboraw_said lemboraw_call(
    struct lemboraw_tree *tree, bool update, double dt, uint32_t fuel, struct lemboraw_answers answers);

/* One call: asks until the tree has all its answers. Without loops no call asks more than once a node. */
static struct lemboraw_said until_answered(lemboraw_call *call, struct lemboraw_tree *tree, double dt) {
    uint8_t statuses[NODES];
    double leftovers[NODES];
    struct lemboraw_answers answers = {statuses, leftovers, 0};
    struct lemboraw_said said = call(tree, true, dt, NODES, answers);
    while (said.no == LEMBORAW_ASKS && answers.len < NODES) {
        statuses[answers.len] = act(said.extra, said.time, &leftovers[answers.len]);
        answers.len++;
        said = call(tree, true, dt, NODES, answers);
    }
    return said;
}

int main(void) {
    const double step = 1000;
    struct lemboraw_tree station = lemboraw_tree_new(kinds, ns, limits, NODES, &room);
    struct lemboraw_bound_said bound = lemboraw_tree_bound(&station, step);
    if (bound.no != LEMBORAW_DONE || bound.kind != LEMBORAW_TICKS) return 1;
    printf("ticks of %g ms or more: finished at or before tick %llu\n", step, (unsigned long long)bound.ticks);

    while (!station.record.finished) {
        printf("tick %llu\n", (unsigned long long)station.record.ticks + 1);
        struct lemboraw_said said = until_answered(lemboraw_tree_tick, &station, step);
        if (said.no != LEMBORAW_DONE) {
            printf("refused: %d\n", said.no);
            return 1;
        }
    }
    printf("gave up at tick %llu of %llu\n", (unsigned long long)station.record.ticks, (unsigned long long)bound.ticks);
    if (station.record.ticks > bound.ticks) return 1;
    printf("hand rework was called for %llu ticks ago\n", (unsigned long long)lemboraw_tree_age(&station, REWORK));

    /* Until the restart has all its answers, the station stands as it ended. */
    printf("restart: tick %llu\n", (unsigned long long)station.record.ticks + 1);
    struct lemboraw_said said = until_answered(lemboraw_tree_restart, &station, step);
    printf("%s\n", station.record.finished ? "finished" : "under way again");
    return said.no != LEMBORAW_DONE;
}
