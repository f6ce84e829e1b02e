/* The manager in a whole frame of 1,620 encoder bodies, as a camera in C calls it: planned once, then asked before each action and told the clock
 * after it, in a plain loop of direct calls through the header; by each policy. The fast form in C, an object of its own, is called the same way
 * beside it, over the same tables. Before either is timed, both must give the same at every action. Then a body beside a plain cycle, over seven
 * bodies, which are 63 actions of a plain cycle too, so that both are asked the same: whole frames, and the askings of them that decide; in their own
 * time, and in so much of it that each decision gives the top level and the longest coast. Prints two sections of markdown; it ends with status 1 if
 * a call does not answer as it must. */
#define _POSIX_C_SOURCE 200809L

#include "../../include/nyokazerubi.h"
#include "fast.h"

#include <stdio.h>
#include <stdlib.h>
#include <time.h>

enum {
    POLICY = NYOKAZERUBI_POLICY_2008,
    ACTIONS = 9,
    LEVELS = 8,
    REPEATS = NYOKAZERUBI_MOST_REPEATS,
    POSITIONS = ACTIONS * REPEATS,
    IMAGE = NYOKAZERUBI_IMAGE_BYTES(ACTIONS, LEVELS),
    TABLE = NYOKAZERUBI_TABLE_ENTRIES(ACTIONS, LEVELS),
    SUMMARIES = NYOKAZERUBI_SUMMARIES_ENTRIES(ACTIONS, LEVELS),
    FEW = NYOKAZERUBI_MOST_ACTIONS / ACTIONS, /* bodies that a plain cycle holds */
    WIDE = FEW * ACTIONS,
    WIDE_IMAGE = NYOKAZERUBI_IMAGE_BYTES(WIDE, LEVELS),
    WIDE_TABLE = NYOKAZERUBI_TABLE_ENTRIES(WIDE, LEVELS),
    WIDE_BOUNDS = NYOKAZERUBI_BOUNDS_ENTRIES(WIDE, LEVELS),
    SAMPLES = 401,
    TURNS = 64, /* askings of a sample */
    FRAMES = 16, /* of seven bodies */
    COASTS = (WIDE + NYOKAZERUBI_LONGEST_COAST - 1) / NYOKAZERUBI_LONGEST_COAST, /* in such a frame, of the longest */
    CLOCK_SAMPLES = 1000,
    STEPS = 100000 /* additions of a sample of the processor's clock */
};

/* The encoder's profile, and what is planned of it as a body, which is the same however often it is repeated. */
static uint64_t masks[WIDE];
static uint32_t averages[WIDE_TABLE], worst[WIDE_TABLE], encoder_cycle;
static uint8_t order[ACTIONS];
static uint32_t summaries[SUMMARIES], worst_by_position[TABLE];

/* A plain plan of seven bodies. */
struct plain {
    uint8_t order[WIDE];
    int32_t limits[WIDE_TABLE], bounds[WIDE_BOUNDS];
    uint32_t worst[WIDE_TABLE];
};

/* The frame: how long each action takes at each level; then the clock at the end of each, the decisions, and the levels given added up. */
static uint32_t durations[POSITIONS * LEVELS], clocks[POSITIONS], decisions, levels;

static void hold(int is_so, const char *what) {
    if (is_so) return;
    fprintf(stderr, "not so: %s\n", what);
    exit(1);
}

/* ---- the frame */

/* The next word of src/draw.rs from the seed that the bench has for this frame, so that it is the same frame. */
static uint64_t word(void) {
    static uint64_t state = 1620;
    state += UINT64_C(0x9e3779b97f4a7c15);
    uint64_t mixed = (state ^ state >> 30) * UINT64_C(0xbf58476d1ce4e5b9);
    mixed = (mixed ^ mixed >> 27) * UINT64_C(0x94d049bb133111eb);
    return mixed ^ mixed >> 31;
}

static uint32_t up_to(uint32_t most) { return (uint32_t)(word() % ((uint64_t)most + 1)); }

/* A duration mostly near the average, one in eight anywhere up to the worst time. */
static uint32_t duration(uint32_t average, uint32_t longest) {
    if (up_to(7) == 0) return up_to(longest);
    uint32_t near = average / 2 + up_to(average);
    return near < longest ? near : longest;
}

static void draw(void) {
    for (size_t at = 0; at < POSITIONS * LEVELS; at++) {
        size_t cell = at % TABLE, level = cell % LEVELS;
        durations[at] = duration(averages[order[cell / LEVELS] * LEVELS + level], worst_by_position[cell]);
    }
}

/* Reads the encoder's profile, and repeats it as the actions of seven bodies. */
static void read_encoder(void) {
    uint8_t image[IMAGE];
    uint32_t deadlines[ACTIONS];
    hold(nyokazerubi_write_encoder(image, IMAGE).bytes == IMAGE, "the encoder's profile");
    struct nyokazerubi_unpacked encoder = nyokazerubi_read(image, IMAGE, masks, ACTIONS, deadlines, ACTIONS, averages, TABLE, worst, TABLE);
    hold(encoder.refusal.number == NYOKAZERUBI_ACCEPTED && encoder.n == ACTIONS && encoder.levels == LEVELS, "it is read");
    encoder_cycle = encoder.cycle;
    for (size_t a = ACTIONS; a < WIDE; a++) masks[a] = masks[a - ACTIONS] << ACTIONS;
    for (size_t cell = TABLE; cell < WIDE_TABLE; cell++) {
        averages[cell] = averages[cell - TABLE];
        worst[cell] = worst[cell - TABLE];
    }
}

/* Writes so many of these actions, all deadlines the cycle's, in a cycle of so many times the encoder's. */
static size_t write_image(uint8_t *image, size_t n, uint32_t times) {
    static const uint32_t deadlines[WIDE];
    size_t cells = NYOKAZERUBI_TABLE_ENTRIES(n, LEVELS), bytes = NYOKAZERUBI_IMAGE_BYTES(n, LEVELS);
    struct nyokazerubi_written written = nyokazerubi_write(n, LEVELS, encoder_cycle * times, masks, n, deadlines, n, averages, cells, worst, cells,
                                                           image, bytes);
    hold(written.refusal.number == NYOKAZERUBI_ACCEPTED && written.bytes == bytes, "an image is written");
    return bytes;
}

static struct nyokazerubi_body plan_body(uint32_t repeats, uint32_t policy, uint32_t times) {
    uint8_t image[IMAGE];
    size_t bytes = write_image(image, ACTIONS, times);
    struct nyokazerubi_body_planned planned =
        nyokazerubi_plan_body(image, bytes, repeats, policy, order, ACTIONS, summaries, SUMMARIES, worst_by_position, TABLE);
    hold(planned.refusal.number == NYOKAZERUBI_ACCEPTED && planned.body.repeats == repeats && planned.body.policy == policy,
         "a body is planned");
    return planned.body;
}

/* Seven bodies as one plain cycle. */
static void plan_plain(struct plain *plan, uint32_t times) {
    uint8_t image[WIDE_IMAGE];
    size_t bytes = write_image(image, WIDE, times);
    hold(nyokazerubi_plan(image, bytes, POLICY, plan->order, WIDE, plan->limits, WIDE_TABLE, plan->worst, WIDE_TABLE, plan->bounds, WIDE_BOUNDS)
                 .refusal.number == NYOKAZERUBI_ACCEPTED,
         "a plain cycle is planned");
}

static fast_body in_c(struct nyokazerubi_body body) { return (fast_body){body.n, body.levels, body.cycle, body.repeats, body.policy}; }

/* Runs the frame on both sides at once, and keeps what it comes to. */
static void agree(struct nyokazerubi_body body) {
    struct nyokazerubi_body_run run;
    fast_body_run other;
    fast_body body_in_c = in_c(body);
    uint32_t clock = 0;
    levels = 0;
    hold(nyokazerubi_body_start(&run, &body).number == NYOKAZERUBI_ACCEPTED && fast_body_start(&other, &body_in_c) == 0, "a start");
    for (size_t i = 0; i < POSITIONS; i++) {
        struct nyokazerubi_given given = nyokazerubi_body_ask(&run, order, ACTIONS, summaries, SUMMARIES, worst_by_position, TABLE);
        fast_given same;
        hold(given.refusal.number == NYOKAZERUBI_ACCEPTED, "an action of the product");
        hold(fast_body_ask(&other, order, ACTIONS, summaries, SUMMARIES, worst_by_position, TABLE, &same) == 0, "an action of C");
        hold(given.action == same.action && given.level == same.level && given.decided == same.decided, "both give the same");
        clock += durations[i * LEVELS + given.level];
        clocks[i] = clock;
        levels += given.level;
        hold(nyokazerubi_body_report(&run, clock, worst_by_position, TABLE).number == NYOKAZERUBI_ACCEPTED, "its end, of the product");
        hold(fast_body_report(&other, clock, worst_by_position, TABLE) == 0, "its end, of C");
    }
    hold(run.position == POSITIONS && other.position == POSITIONS && run.decisions == other.decisions, "as many decisions");
    hold(!run.overrun && !run.late && !other.overrun && !other.late && clock <= body.cycle, "no overrun, and none late");
    decisions = run.decisions;
}

/* ---- the times */

/* In ns. */
static uint64_t now(void) {
    struct timespec at;
    hold(clock_gettime(CLOCK_MONOTONIC, &at) == 0, "the time");
    return (uint64_t)at.tv_sec * 1000000000u + (uint64_t)at.tv_nsec;
}

/* The whole frame by the product's calls, in ns. */
static double of_product(struct nyokazerubi_body body) {
    struct nyokazerubi_body_run run;
    uint32_t given_levels = 0;
    uint64_t began = now();
    uint32_t refused = nyokazerubi_body_start(&run, &body).number;
    for (size_t i = 0; i < POSITIONS; i++) {
        struct nyokazerubi_given given = nyokazerubi_body_ask(&run, order, ACTIONS, summaries, SUMMARIES, worst_by_position, TABLE);
        given_levels += given.level;
        refused |= given.refusal.number;
        refused |= nyokazerubi_body_report(&run, clocks[i], worst_by_position, TABLE).number;
    }
    uint64_t took = now() - began;
    hold(refused == 0 && given_levels == levels && run.decisions == decisions, "the frame again, of the product");
    return (double)took;
}

/* The same by the fast form's. */
static double of_c(fast_body body) {
    fast_body_run run;
    fast_given given = {0};
    uint32_t given_levels = 0;
    uint64_t began = now();
    uint32_t refused = fast_body_start(&run, &body);
    for (size_t i = 0; i < POSITIONS; i++) {
        refused |= fast_body_ask(&run, order, ACTIONS, summaries, SUMMARIES, worst_by_position, TABLE, &given);
        given_levels += given.level;
        refused |= fast_body_report(&run, clocks[i], worst_by_position, TABLE);
    }
    uint64_t took = now() - began;
    hold(refused == 0 && given_levels == levels && run.decisions == decisions, "the frame again, of C");
    return (double)took;
}

/* ---- beside a plain cycle */

static struct nyokazerubi_given ask_plain(struct nyokazerubi_run *run, const struct plain *plan) {
    return nyokazerubi_ask(run, plan->order, WIDE, plan->limits, WIDE_TABLE, plan->bounds, WIDE_BOUNDS);
}

static struct nyokazerubi_given ask_body(struct nyokazerubi_body_run *run) {
    return nyokazerubi_body_ask(run, order, ACTIONS, summaries, SUMMARIES, worst_by_position, TABLE);
}

/* Some frames of seven bodies: the clock at the end of each action, the decisions, and the levels given added up. */
static uint32_t few_clocks[FRAMES][WIDE], few_decisions, few_levels;

/* Runs these frames by both at once, which must give the same, and keeps their records before the first askings that decide. */
static void agree_plain(struct nyokazerubi_body body, const struct plain *plan, struct nyokazerubi_body_run *turns, struct nyokazerubi_run *same) {
    struct nyokazerubi_body_run run;
    struct nyokazerubi_run plain;
    size_t kept = 0;
    few_decisions = few_levels = 0;
    for (size_t at = 0; at < FRAMES * WIDE; at++) {
        size_t i = at % WIDE;
        if (i == 0) {
            hold(nyokazerubi_body_start(&run, &body).number == NYOKAZERUBI_ACCEPTED, "a start");
            hold(nyokazerubi_start(&plain, WIDE, LEVELS).number == NYOKAZERUBI_ACCEPTED, "a plain start");
        }
        if (run.left == 0 && kept < TURNS) {
            turns[kept] = run;
            same[kept++] = plain;
        }
        struct nyokazerubi_given one = ask_body(&run), other = ask_plain(&plain, plan);
        hold(one.refusal.number == NYOKAZERUBI_ACCEPTED && other.refusal.number == NYOKAZERUBI_ACCEPTED, "an action of both");
        hold(one.action == other.action && one.level == other.level && run.left == plain.left, "both give the same");
        size_t cell = one.action * LEVELS + one.level;
        uint32_t clock = plain.clock + duration(averages[cell], worst[cell]);
        few_clocks[at / WIDE][i] = clock;
        few_decisions += one.decided;
        few_levels += one.level;
        hold(nyokazerubi_body_report(&run, clock, worst_by_position, TABLE).number == NYOKAZERUBI_ACCEPTED, "its end");
        hold(nyokazerubi_report(&plain, clock, plan->worst, WIDE_TABLE).number == NYOKAZERUBI_ACCEPTED, "its plain end");
    }
    hold(kept == TURNS, "decisions enough");
}

/* All of these frames, in ns an action. */
static double frames_of_body(struct nyokazerubi_body body) {
    struct nyokazerubi_body_run run;
    uint32_t refused = 0;
    uint64_t began = now();
    for (size_t k = 0; k < FRAMES; k++) {
        refused |= nyokazerubi_body_start(&run, &body).number;
        for (size_t i = 0; i < WIDE; i++) {
            refused |= ask_body(&run).refusal.number;
            refused |= nyokazerubi_body_report(&run, few_clocks[k][i], worst_by_position, TABLE).number;
        }
    }
    uint64_t took = now() - began;
    hold(refused == 0, "the frames again");
    return (double)took / (FRAMES * WIDE);
}

static double frames_of_plain(const struct plain *plan) {
    struct nyokazerubi_run run;
    uint32_t refused = 0;
    uint64_t began = now();
    for (size_t k = 0; k < FRAMES; k++) {
        refused |= nyokazerubi_start(&run, WIDE, LEVELS).number;
        for (size_t i = 0; i < WIDE; i++) {
            refused |= ask_plain(&run, plan).refusal.number;
            refused |= nyokazerubi_report(&run, few_clocks[k][i], plan->worst, WIDE_TABLE).number;
        }
    }
    uint64_t took = now() - began;
    hold(refused == 0, "the plain frames again");
    return (double)took / (FRAMES * WIDE);
}

/* An asking from these records, which decides, in ns. */
static double body_decides(const struct nyokazerubi_body_run *turns) {
    struct nyokazerubi_body_run runs[TURNS];
    uint32_t decided = 0;
    for (size_t k = 0; k < TURNS; k++) runs[k] = turns[k];
    uint64_t began = now();
    for (size_t k = 0; k < TURNS; k++) decided += ask_body(&runs[k]).decided;
    uint64_t took = now() - began;
    hold(decided == TURNS, "each decides");
    return (double)took / TURNS;
}

static double plain_decides(const struct nyokazerubi_run *turns, const struct plain *plan) {
    struct nyokazerubi_run runs[TURNS];
    uint32_t decided = 0;
    for (size_t k = 0; k < TURNS; k++) runs[k] = turns[k];
    uint64_t began = now();
    for (size_t k = 0; k < TURNS; k++) decided += ask_plain(&runs[k], plan).decided;
    uint64_t took = now() - began;
    hold(decided == TURNS, "each decides");
    return (double)took / TURNS;
}

static int compare(const void *one, const void *other) {
    double a = *(const double *)one, b = *(const double *)other;
    return (a > b) - (a < b);
}

static double median(double *samples) {
    qsort(samples, SAMPLES, sizeof *samples, compare);
    return samples[SAMPLES / 2];
}

/* An addition that takes one cycle: of two registers, since some processors add a constant without waiting. */
#if defined __aarch64__
#define ADD "add %0, %0, %1\n\t"
#elif defined __x86_64__
#define ADD "add %1, %0\n\t"
#else
#error "no addition for this machine"
#endif
#define TEN ADD ADD ADD ADD ADD ADD ADD ADD ADD ADD

/* So many additions that wait for each other. A function of its own, and a hundred at a time: what the compiler puts between them would count. */
__attribute__((noinline)) static uint64_t add(uint64_t sum, uint64_t one, int steps) {
    for (int step = 0; step < steps; step += 100) __asm__ volatile(TEN TEN TEN TEN TEN TEN TEN TEN TEN TEN : "+&r"(sum) : "r"(one) : "cc");
    return sum;
}

/* The processor's clock in GHz, by those additions: the best of many short samples. */
static double gigahertz(void) {
    uint64_t best = UINT64_MAX;
    for (int at = 0; at < CLOCK_SAMPLES; at++) {
        uint64_t began = now();
        uint64_t sum = add(0, 1, STEPS);
        uint64_t took = now() - began;
        hold(sum == STEPS, "the additions");
        if (took < best) best = took;
    }
    return STEPS / (double)best;
}

static void row(struct nyokazerubi_body body, const char *side, double ns, double clock) {
    double cycles = ns * clock, part = 100 * cycles / body.cycle;
    printf("| %u | %u | %s | %.0f | %.0f | %.1f | %.4f %% |\n", body.policy, decisions, side, ns, cycles, cycles / POSITIONS, part);
}

/* The frame by a policy, on both sides. */
static void frame(struct nyokazerubi_body body, double clock) {
    static double product[SAMPLES], c[SAMPLES];
    agree(body);
    for (size_t at = 0; at < SAMPLES; at++) {
        product[at] = of_product(body);
        c[at] = of_c(in_c(body));
    }
    row(body, "product", median(product), clock);
    row(body, "C", median(c), clock);
}

static void beside(const char *time, const char *what, double plain, double of_body) {
    printf("| %s | %s | %.1f | %.1f | %.2f |\n", time, what, plain, of_body, of_body / plain);
}

/* Frames of seven bodies by both, in a time that has a name: whole, and the askings that decide. */
static void beside_plain(const char *time, uint32_t times) {
    static struct plain plan;
    static struct nyokazerubi_body_run turns[TURNS];
    static struct nyokazerubi_run plain_turns[TURNS];
    static double plain[SAMPLES], of_body[SAMPLES], plain_decision[SAMPLES], decision[SAMPLES];
    struct nyokazerubi_body body = plan_body(FEW, POLICY, times);
    plan_plain(&plan, times);
    agree_plain(body, &plan, turns, plain_turns);
    for (size_t at = 0; at < SAMPLES; at++) {
        plain[at] = frames_of_plain(&plan);
        of_body[at] = frames_of_body(body);
        plain_decision[at] = plain_decides(plain_turns, &plan);
        decision[at] = body_decides(turns);
    }
    beside(time, "an asking and a report, over whole frames", median(plain), median(of_body));
    beside(time, "an asking that decides", median(plain_decision), median(decision));
}

int main(void) {
    hold(nyokazerubi_boundary() == NYOKAZERUBI_BOUNDARY, "the archive is of this header");
    read_encoder();
    struct nyokazerubi_body body = plan_body(REPEATS, POLICY, REPEATS);
    draw();
    double clock = gigahertz();
    printf("\n### The manager in a frame of %d encoder bodies called from C, %u cycles, %d actions, at %.2f GHz\n\n", REPEATS, body.cycle, POSITIONS,
           clock);
    printf("| policy | decisions | side | ns | cycles | cycles an action | part of the frame |\n|---|---|---|---|---|---|---|\n");
    frame(body, clock);
    frame(plan_body(REPEATS, NYOKAZERUBI_POLICY_2005, REPEATS), clock);
    printf("\n### A body beside a plain cycle, called from C: %d bodies, and the same %d actions\n\n", FEW, WIDE);
    printf("| cycle | | plain, ns | of the body, ns | to plain |\n|---|---|---|---|---|\n");
    beside_plain("their own", FEW);
    beside_plain("that of 1,620", REPEATS);
    hold(few_decisions == FRAMES * COASTS && few_levels == FRAMES * WIDE * (LEVELS - 1), "the longest coasts at the top level");
    return 0;
}
