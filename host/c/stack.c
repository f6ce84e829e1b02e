/* How much stack the deepest calls really take: each is made on a painted stack, and what it left unpainted is counted, less what a thread that does
 * nothing leaves. Prints NAME BYTES for host/check, which holds them to what it finds in the archive's code and to the header. */
#define _XOPEN_SOURCE 700 /* a thread on a stack of ours */
#include "../../include/nyokazerubi.h"

#include <pthread.h>
#include <stdio.h>
#include <stdlib.h>
#include <string.h>

enum { N = 64, L = 8, TABLE = N * L, BOUNDS = 16 * TABLE, IMAGE = 6 + N * (12 + 6 * L), RECORDS = 2000, ROOM = 1 << 18 };
enum { REPEATS = 1620, ALL = N * REPEATS };

static uint8_t image[IMAGE], looped[IMAGE], fresh[IMAGE], order[N], given[N], marks[N], trace[5 * RECORDS], frame[4 * TABLE];
static int32_t limits[TABLE], bounds[BOUNDS], none[BOUNDS];
static uint32_t worst[TABLE], averages[TABLE], deadlines[N], durations[TABLE];
static uint64_t masks[N];
static size_t bytes;
/* The limits of that profile are the same by both. */
static uint32_t policy = NYOKAZERUBI_POLICY_2008;
/* A body to be repeated, with what its dry run takes. */
static uint8_t body_image[IMAGE], levels[ALL], body_marks[ALL];
static uint32_t summaries[NYOKAZERUBI_SUMMARIES_ENTRIES(N, L)], body_worst[TABLE], body_durations[2 * ALL];

static void hold(int is_so, const char *what) {
    if (is_so) return;
    fprintf(stderr, "not so: %s\n", what);
    exit(1);
}

/* 64 actions and two levels, such that at level 1 every action that takes 9 leaves one to coast, and no more: the clock at position i is 9i, its
 * limit 9i + 1, and a worst time of 10 twice is too much for the third. So there are 32 turns of deciding and coasting, the most there can be. */
static void profile(void) {
    for (uint32_t a = 0; a < N; a++) {
        masks[a] = 0;
        deadlines[a] = 9 * a + 11;
        averages[2 * a] = worst[2 * a] = averages[2 * a + 1] = durations[2 * a] = durations[2 * a + 1] = 9;
        worst[2 * a + 1] = 10;
    }
    bytes = nyokazerubi_write(N, 2, 9 * 63 + 11, masks, N, deadlines, N, averages, TABLE, worst, TABLE, image, IMAGE).bytes;
    hold(bytes > 0, "a profile");
    /* The same with a loop through all: each action comes after the one before it, the first after the last. */
    memcpy(looped, image, bytes);
    for (size_t a = 0; a < N; a++) {
        size_t before = (a + N - 1) % N, record = 6 + a * (12 + 6 * 2);
        looped[record + 7 - before / 8] = (uint8_t)(1 << before % 8);
    }
    for (size_t at = 0; at < RECORDS; at++) trace[5 * at] = (uint8_t)(128 + 2 * (at % N));
    for (size_t cell = 0; cell < TABLE; cell++) frame[4 * cell + 3] = (uint8_t)durations[cell];
    for (size_t at = 0; at < BOUNDS; at++) none[at] = NYOKAZERUBI_ABSENT_BOUND;

    /* The same times over all repeats; what each action takes is over its worst time at one, within it at the next. */
    for (uint32_t a = 0; a < N; a++) deadlines[a] = 0;
    hold(nyokazerubi_write(N, 2, 10 * ALL, masks, N, deadlines, N, averages, TABLE, worst, TABLE, body_image, IMAGE).bytes == bytes,
         "a body's image");
    for (size_t at = 0; at < 2 * ALL; at++) body_durations[at] = at % 34 < 2 ? 11 : 9;
}

static void nothing(void) {}
static void check(void) { hold(nyokazerubi_check(image, bytes).number == 0, "check"); }
static void check_looped(void) { hold(nyokazerubi_check(looped, bytes).number == NYOKAZERUBI_REFUSED_LOOP, "a loop"); }
static void plan(void) { hold(nyokazerubi_plan(image, bytes, policy, order, N, limits, TABLE, worst, TABLE, bounds, BOUNDS).n == N, "plan"); }
static void refresh(void) { hold(nyokazerubi_refresh(image, bytes, trace, sizeof trace, fresh, IMAGE).bytes == bytes, "refresh"); }
static void reading(void) { hold(nyokazerubi_on_time(image, bytes, 0, 63, 0, 0), "on time"); }
static void dry_run(void) {
    hold(nyokazerubi_dry_run(N, 2, limits, TABLE, worst, TABLE, bounds, BOUNDS, durations, TABLE, given, N, marks, N).decisions == 32,
         "32 decisions");
}
/* Each action decided by itself, 64 times. */
static void dry_alone(void) {
    hold(nyokazerubi_dry_run(N, 2, limits, TABLE, worst, TABLE, none, BOUNDS, durations, TABLE, given, N, marks, N).decisions == N, "64 decisions");
}
static void dry_frame(void) {
    hold(nyokazerubi_dry_frame(image, bytes, policy, durations, TABLE, order, N, given, N, marks, N).decisions == 32, "32 decisions from the image");
}

static void open_recording(void) {
    hold(nyokazerubi_open_recording(image, bytes, policy, sizeof frame, order, N, limits, TABLE, worst, TABLE, bounds, BOUNDS).frames == 4,
         "4 frames");
}

static void plan_body(void) {
    size_t room = sizeof summaries / sizeof *summaries;
    hold(nyokazerubi_plan_body(body_image, bytes, REPEATS, policy, order, N, summaries, room, body_worst, TABLE).body.n == N, "a body planned");
}
/* All repeats, with decisions after overruns and whole coasts between them. */
static void body_dry_frame(void) {
    struct nyokazerubi_body_framed framed = nyokazerubi_body_dry_frame(body_image, bytes, REPEATS, policy, body_durations, 2 * ALL, order, N,
                                                                       levels, ALL, body_marks, ALL);
    hold(framed.positions == ALL && framed.overrun && framed.decisions > ALL / 16, "all repeats");
}

/* A frame on totals of its own, with all coasts and with none. The call takes so little that what its caller takes to make it counts: the same call
 * of a function that does nothing is measured beside it. */
typedef struct nyokazerubi_line frame_call(struct nyokazerubi_totals *, size_t, size_t, const int32_t *, size_t, const uint32_t *, size_t,
                                           const int32_t *, size_t, const uint8_t *, size_t);
static struct nyokazerubi_line does_nothing(struct nyokazerubi_totals *totals, size_t n, size_t levels, const int32_t *l, size_t ls, const uint32_t *w,
                                            size_t ws, const int32_t *b, size_t bs, const uint8_t *f, size_t fs) {
    (void)totals, (void)n, (void)levels, (void)l, (void)ls, (void)w, (void)ws, (void)b, (void)bs, (void)f, (void)fs;
    return (struct nyokazerubi_line){.decisions = 0};
}
static frame_call *volatile calls = nyokazerubi_rehearse;
static uint32_t decisions_of_frame(const int32_t *with) {
    struct nyokazerubi_totals totals = {0, 0, 0, 0};
    return calls(&totals, N, 2, limits, TABLE, worst, TABLE, with, BOUNDS, frame, sizeof frame).decisions;
}
static void rehearse(void) { hold(decisions_of_frame(bounds) == 32, "32 decisions of a frame"); }
static void rehearse_alone(void) { hold(decisions_of_frame(none) == N, "64 decisions of a frame"); }
static void made_alone(void) { hold(decisions_of_frame(bounds) == 0, "no decisions"); }

static void *in_thread(void *job) {
    (*(void (**)(void))job)();
    return NULL;
}

static size_t used(void (*job)(void)) {
    static _Alignas(4096) uint8_t room[ROOM];
    memset(room, 0x5a, ROOM);
    pthread_attr_t how;
    pthread_t thread;
    hold(pthread_attr_init(&how) == 0 && pthread_attr_setstack(&how, room, ROOM) == 0, "a stack");
    hold(pthread_create(&thread, &how, in_thread, &job) == 0 && pthread_join(thread, NULL) == 0, "a thread");
    pthread_attr_destroy(&how);
    size_t untouched = 0;
    while (untouched < ROOM && room[untouched] == 0x5a) untouched++;
    return ROOM - untouched;
}

/* The second time: in the first the linker may look up what is called. */
static size_t again(void (*job)(void)) {
    used(job);
    return used(job);
}

static size_t most(void (*one)(void), void (*other)(void)) {
    size_t first = again(one), second = again(other);
    return first < second ? second : first;
}

/* By either policy, and then by that of 2008 again. */
static size_t by_both(void (*job)(void)) {
    policy = NYOKAZERUBI_POLICY_2005;
    size_t one = again(job);
    policy = NYOKAZERUBI_POLICY_2008;
    size_t other = again(job);
    return one < other ? other : one;
}

int main(void) {
    profile();
    size_t still = again(nothing);
    static const struct {
        const char *name;
        void (*job)(void);
    } jobs[] = {{"plan", plan},           {"refresh", refresh},     {"on_time", reading},
                {"dry_frame", dry_frame}, {"open_recording", open_recording},
                {"plan_body", plan_body}, {"body_dry_frame", body_dry_frame}};
    for (size_t at = 0; at < sizeof jobs / sizeof *jobs; at++) printf("nyokazerubi_%s %zu\n", jobs[at].name, by_both(jobs[at].job) - still);
    printf("nyokazerubi_check %zu\n", most(check, check_looped) - still);
    printf("nyokazerubi_dry_run %zu\n", most(dry_run, dry_alone) - still);
    size_t framed = most(rehearse, rehearse_alone);
    calls = does_nothing;
    size_t made = again(made_alone);
    printf("nyokazerubi_rehearse %zu\n", framed - made);
    return 0;
}
