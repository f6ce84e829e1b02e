/* Several threads at once over one plan: each has a run record of its own, reads the same tables, and holds its cycles to the dry run over the
 * same durations, while the others run theirs, plan the same image into tables of their own and read the speed. A checker of threads sees where two
 * would meet. */
#include "../../include/nyokazerubi.h"

#include <pthread.h>
#include <stdio.h>
#include <stdlib.h>
#include <string.h>

enum { POLICY = NYOKAZERUBI_POLICY_2008, THREADS = 4, CYCLES = 25, ACTIONS = 9, LEVELS = 8, TABLE = 72, BOUNDS = 1152, IMAGE = 546 };

static uint8_t image[IMAGE], order[ACTIONS];
static int32_t limits[TABLE], bounds[BOUNDS];
static uint32_t worst_by_position[TABLE];

static void hold(int is_so, const char *what) {
    if (is_so) return;
    printf("not so: %s\n", what);
    exit(1);
}

/* A duration from 0 to the worst time, by a seed of the thread's own. */
static uint32_t duration(uint32_t *seed, uint32_t worst) {
    *seed = *seed * 1664525u + 1013904223u;
    return (uint32_t)(((uint64_t)(*seed >> 8) * (worst + 1u)) >> 24);
}

static void cycle(uint32_t *seed) {
    uint32_t durations[TABLE], clock = 0;
    for (size_t cell = 0; cell < TABLE; cell++) durations[cell] = duration(seed, worst_by_position[cell]);
    uint8_t given[ACTIONS], marks[ACTIONS];
    struct nyokazerubi_dried dried = nyokazerubi_dry_run(ACTIONS, LEVELS, limits, TABLE, worst_by_position, TABLE, bounds, BOUNDS, durations,
                                                         TABLE, given, ACTIONS, marks, ACTIONS);
    hold(dried.refusal.number == NYOKAZERUBI_ACCEPTED && !dried.overrun && !dried.late && dried.end <= 320000, "a dry run");
    struct nyokazerubi_run run;
    hold(nyokazerubi_start(&run, ACTIONS, LEVELS).number == NYOKAZERUBI_ACCEPTED, "a start");
    for (size_t i = 0; i < ACTIONS; i++) {
        struct nyokazerubi_given now = nyokazerubi_ask(&run, order, ACTIONS, limits, TABLE, bounds, BOUNDS);
        hold(now.refusal.number == NYOKAZERUBI_ACCEPTED && now.action == order[i], "an action");
        hold(now.level == given[i] && now.decided == (marks[i] == 1), "the dry run's level");
        clock += durations[i * LEVELS + now.level];
        hold(nyokazerubi_report(&run, clock, worst_by_position, TABLE).number == NYOKAZERUBI_ACCEPTED, "its end");
    }
    hold(run.decisions == dried.decisions && run.clock == dried.end && !run.overrun && !run.late, "the dry run's end");
}

/* The image planned once more is the plan that all read. */
static void plan_again(void) {
    uint8_t own_order[ACTIONS];
    int32_t own_limits[TABLE], own_bounds[BOUNDS];
    uint32_t own_worst[TABLE];
    hold(nyokazerubi_plan(image, IMAGE, POLICY, own_order, ACTIONS, own_limits, TABLE, own_worst, TABLE, own_bounds, BOUNDS).n == ACTIONS, "a plan");
    hold(memcmp(own_order, order, sizeof order) == 0 && memcmp(own_limits, limits, sizeof limits) == 0, "its order and limits");
    hold(memcmp(own_worst, worst_by_position, sizeof own_worst) == 0 && memcmp(own_bounds, bounds, sizeof bounds) == 0, "its other tables");
    hold(nyokazerubi_on_time(image, IMAGE, 0, ACTIONS - 1, 0, 0), "a reading");
}

static void *work(void *its_seed) {
    uint32_t *seed = its_seed;
    for (int round = 0; round < CYCLES; round++) {
        cycle(seed);
        plan_again();
    }
    return NULL;
}

int main(void) {
    hold(nyokazerubi_write_encoder(image, IMAGE).bytes == IMAGE, "the encoder's profile");
    hold(nyokazerubi_plan(image, IMAGE, POLICY, order, ACTIONS, limits, TABLE, worst_by_position, TABLE, bounds, BOUNDS).n == ACTIONS, "its plan");
    pthread_t threads[THREADS];
    uint32_t seeds[THREADS];
    for (uint32_t at = 0; at < THREADS; at++) {
        seeds[at] = at + 1;
        hold(pthread_create(&threads[at], NULL, work, &seeds[at]) == 0, "a thread");
    }
    for (size_t at = 0; at < THREADS; at++) hold(pthread_join(threads[at], NULL) == 0, "its end");
    printf("%d threads, %d cycles each over one plan\n", THREADS, CYCLES);
    return 0;
}
