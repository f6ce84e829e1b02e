/* A camera's cycle through include/nyokazerubi.h: its own memory, a clock that it simulates, every call. It ends with status 0 if each answer is
 * the one that it must be. All that is lent lies on the heap in its exact size, so that a checker of memory sees one entry too far. */
#include "../../include/nyokazerubi.h"

#include <stdio.h>
#include <stdlib.h>
#include <string.h>

/* The record is laid out as other hosts have it. */
_Static_assert(sizeof(struct nyokazerubi_refusal) == 4, "refusal");
_Static_assert(sizeof(struct nyokazerubi_fault) == 8, "fault");
_Static_assert(sizeof(struct nyokazerubi_run) == 32, "run");
_Static_assert(sizeof(struct nyokazerubi_given) == 16, "given");
_Static_assert(sizeof(struct nyokazerubi_dried) == 16, "dried");
_Static_assert(sizeof(struct nyokazerubi_opened) == 40, "opened");
_Static_assert(sizeof(struct nyokazerubi_totals) == 16, "totals");
_Static_assert(sizeof(struct nyokazerubi_line) == 20, "line");
_Static_assert(sizeof(struct nyokazerubi_body) == 20, "body");
_Static_assert(sizeof(struct nyokazerubi_body_planned) == 28, "body planned");
_Static_assert(sizeof(struct nyokazerubi_limited) == 16, "limited");
_Static_assert(sizeof(struct nyokazerubi_body_run) == 48, "body run");
_Static_assert(sizeof(struct nyokazerubi_body_framed) == 32, "body framed");
_Static_assert(sizeof(struct nyokazerubi_reading) == 24, "reading");

enum { POLICY = NYOKAZERUBI_POLICY_2008, ROUNDS = 5, FRAME = NYOKAZERUBI_FRAME_BYTES(9, 8), BLOCKS = 180, POSITIONS = 9 * BLOCKS };

static void hold(int is_so, const char *what) {
    if (!is_so) {
        printf("not so: %s\n", what);
        exit(1);
    }
}

static void *lend(size_t bytes) {
    void *memory = malloc(bytes);
    hold(memory != NULL, "memory");
    memset(memory, 0xa5, bytes);
    return memory;
}

/* What a camera keeps from cycle to cycle. */
struct camera {
    uint8_t *image;
    size_t bytes, n, levels, cells;
    uint8_t *order;
    int32_t *limits, *bounds;
    uint32_t *worst;
    struct nyokazerubi_run run;
    uint32_t seed;
};

/* A duration from 0 to the worst time. */
static uint32_t duration(struct camera *camera, uint32_t worst) {
    camera->seed = camera->seed * 1664525u + 1013904223u;
    return (uint32_t)(((uint64_t)(camera->seed >> 8) * (worst + 1u)) >> 24);
}

static void profile(struct camera *camera) {
    camera->bytes = NYOKAZERUBI_IMAGE_BYTES(9, 8);
    camera->image = lend(camera->bytes);
    hold(nyokazerubi_write_encoder(camera->image, camera->bytes - 1).refusal.number == NYOKAZERUBI_REFUSED_ROOM, "no room");
    hold(camera->image[0] == 0xa5, "a refusal writes nothing");
    struct nyokazerubi_written written = nyokazerubi_write_encoder(camera->image, camera->bytes);
    hold(written.refusal.number == 0 && written.bytes == 546, "the encoder's profile");
    hold(nyokazerubi_check(camera->image, camera->bytes).number == 0, "it is accepted");
    hold(nyokazerubi_check(camera->image, camera->bytes - 1).number == NYOKAZERUBI_REFUSED_LENGTH, "one byte less is not");

    /* Reading and writing back. */
    uint64_t *masks = lend(9 * sizeof *masks);
    uint32_t *deadlines = lend(9 * sizeof *deadlines), *averages = lend(72 * sizeof *averages);
    uint32_t *worst = lend(72 * sizeof *worst);
    struct nyokazerubi_unpacked unpacked =
        nyokazerubi_read(camera->image, camera->bytes, masks, 9, deadlines, 9, averages, 72, worst, 72);
    hold(unpacked.refusal.number == 0 && unpacked.n == 9 && unpacked.levels == 8, "it is read");
    hold(unpacked.cycle == 320000 && masks[8] == 128 && averages[8] == 215 && worst[15] == 1500000, "its tables");
    uint8_t *again = lend(camera->bytes);
    written = nyokazerubi_write(9, 8, 320000, masks, 9, deadlines, 9, averages, 72, worst, 72, again, camera->bytes);
    hold(written.bytes == camera->bytes && memcmp(again, camera->image, camera->bytes) == 0, "it is written back");

    /* Motion's own part, uncopied, and an action that is absent. */
    struct nyokazerubi_place motion = nyokazerubi_lookup(camera->image, camera->bytes, 1);
    hold(motion.refusal.number == 0 && motion.start == 66 && motion.length == 60, "motion's part");
    hold(nyokazerubi_lookup(camera->image, camera->bytes, 9).refusal.number == NYOKAZERUBI_REFUSED_NAME, "no tenth action");
    hold(nyokazerubi_lookup_refusal(camera->image, camera->bytes, 9).number == NYOKAZERUBI_REFUSED_NAME, "nor here");
    free(masks), free(deadlines), free(averages), free(worst), free(again);
}

/* How a host says what is wrong with a profile. */
static void say(struct nyokazerubi_fault refusal) {
    if (refusal.action == NYOKAZERUBI_NO_ACTION)
        printf("refused %u\n", refusal.number);
    else
        printf("refused %u at action %u\n", refusal.number, refusal.action);
}

static int is(struct nyokazerubi_fault refusal, uint32_t number, uint32_t action) {
    return refusal.number == number && refusal.action == action;
}

/* An image damaged at actions 5 and 7, whose averages are above their worst times, is refused at the lower by every call on it; nothing is written.
 * Whole again but for a spare bit, it is refused at no action. */
static void damaged(const struct camera *camera) {
    size_t record = NYOKAZERUBI_IMAGE_BYTES(1, 8) - NYOKAZERUBI_IMAGE_BYTES(0, 8);
    uint8_t *image = lend(camera->bytes), *order = lend(9);
    int32_t *limits = lend(72 * sizeof *limits), *bounds = lend(NYOKAZERUBI_BOUNDS_ENTRIES(9, 8) * sizeof *bounds);
    uint32_t *worst = lend(72 * sizeof *worst);
    memcpy(image, camera->image, camera->bytes);
    for (size_t action = 5; action <= 7; action += 2) memset(image + 6 + action * record + 12, 0xff, 3);
    struct nyokazerubi_fault refusal = nyokazerubi_check(image, camera->bytes);
    say(refusal);
    hold(is(refusal, NYOKAZERUBI_REFUSED_TABLE, 5), "the lower of two is named");
    struct nyokazerubi_planned planned =
        nyokazerubi_plan(image, camera->bytes, 0, order, 9, limits, 72, worst, 72, bounds, NYOKAZERUBI_BOUNDS_ENTRIES(9, 8));
    hold(is(planned.refusal, NYOKAZERUBI_REFUSED_TABLE, 5) && planned.n == 0 && order[0] == 0xa5, "by the planner too");
    hold(is(nyokazerubi_lookup(image, camera->bytes, 1).refusal, NYOKAZERUBI_REFUSED_TABLE, 5), "by a lookup of another");
    hold(is(nyokazerubi_refresh(image, camera->bytes, camera->image, 0, order, 9).refusal, NYOKAZERUBI_REFUSED_TABLE, 5), "by a refresh");
    memcpy(image, camera->image, camera->bytes);
    hold(is(nyokazerubi_check(image, camera->bytes), NYOKAZERUBI_ACCEPTED, NYOKAZERUBI_NO_ACTION), "accepted, none is at fault");
    image[5] |= 1;
    refusal = nyokazerubi_check(image, camera->bytes);
    say(refusal);
    hold(is(refusal, NYOKAZERUBI_REFUSED_SPARE, NYOKAZERUBI_NO_ACTION), "the header alone is at fault");
    free(image), free(order), free(limits), free(bounds), free(worst);
}

static void plan(struct camera *camera) {
    camera->order = lend(9);
    camera->limits = lend(72 * sizeof *camera->limits);
    camera->worst = lend(72 * sizeof *camera->worst);
    camera->bounds = lend(NYOKAZERUBI_BOUNDS_ENTRIES(9, 8) * sizeof *camera->bounds);
    struct nyokazerubi_planned planned =
        nyokazerubi_plan(camera->image, camera->bytes, POLICY, camera->order, 9, camera->limits, 72, camera->worst, 72,
                         camera->bounds, NYOKAZERUBI_BOUNDS_ENTRIES(9, 8));
    hold(planned.refusal.number == 0 && planned.cycle == 320000, "it is planned");
    camera->n = planned.n;
    camera->levels = planned.levels;
    camera->cells = NYOKAZERUBI_TABLE_ENTRIES(planned.n, planned.levels);
    hold(camera->limits[8] == 168000 && camera->limits[9] == 69000 && camera->limits[10] == -31000, "limits at position 1");
}

/* The same profile by the policy of 2005: the same order and worst times, and limits that are nowhere lower. It is run as any plan, without a word of
 * the policy. A year that is none is refused before a lack of room. */
static void certified(const struct camera *camera) {
    size_t cells = camera->cells, table = cells * sizeof *camera->limits;
    uint8_t *order = lend(9), *given = lend(9), *marks = lend(9), *image_order = lend(9);
    int32_t *limits = lend(table), *bounds = lend(16 * table);
    uint32_t *worst = lend(table);
    struct nyokazerubi_planned none =
        nyokazerubi_plan(camera->image, camera->bytes, 2006, order, 8, limits, cells, worst, cells, bounds, 16 * cells);
    hold(is(none.refusal, NYOKAZERUBI_REFUSED_POLICY, NYOKAZERUBI_NO_ACTION) && none.n == 0 && order[0] == 0xa5, "no policy of 2006");
    struct nyokazerubi_planned planned = nyokazerubi_plan(camera->image, camera->bytes, NYOKAZERUBI_POLICY_2005, order, 9, limits, cells, worst,
                                                          cells, bounds, 16 * cells);
    hold(planned.refusal.number == 0 && planned.n == 9 && planned.levels == 8 && planned.cycle == 320000, "planned by 2005");
    hold(memcmp(order, camera->order, 9) == 0 && memcmp(worst, camera->worst, table) == 0, "the same order and worst times");
    hold(limits[8] == 168000 && limits[9] == 69000 && limits[10] == -31000 && limits[15] == -1331000, "its limits at position 1");
    int higher = 0;
    for (size_t cell = 0; cell < cells; cell++) {
        hold(limits[cell] >= camera->limits[cell], "no limit is lower");
        higher += limits[cell] > camera->limits[cell];
    }
    hold(higher > 0, "some are higher");
    struct nyokazerubi_framed framed = nyokazerubi_dry_frame(camera->image, camera->bytes, NYOKAZERUBI_POLICY_2005, worst, cells, image_order, 9,
                                                             given, 9, marks, 9);
    struct nyokazerubi_dried dried = nyokazerubi_dry_run(9, 8, limits, cells, worst, cells, bounds, 16 * cells, worst, cells, given, 9, marks, 9);
    hold(framed.refusal.number == 0 && dried.refusal.number == 0 && !dried.overrun && !dried.late && dried.end <= 320000, "its worst cycle");
    hold(framed.end == dried.end && framed.decisions == dried.decisions, "the same from the image");
    printf("2005: %d limits higher, %u decisions, end %u\n", higher, dried.decisions, dried.end);
    free(order), free(given), free(marks), free(image_order), free(limits), free(bounds), free(worst);
}

/* One cycle; keeps the durations met for a dry run, and records of a trace. Answers the line that it has as a frame of a recording. */
static struct nyokazerubi_line cycle(struct camera *camera, uint32_t *durations, uint8_t *trace) {
    struct nyokazerubi_run *run = &camera->run;
    hold(nyokazerubi_start(run, camera->n, camera->levels).number == 0, "a start");
    uint32_t clock = 0, lowest = 7;
    for (size_t i = 0; i < camera->n; i++) {
        struct nyokazerubi_run before = *run;
        struct nyokazerubi_given given = nyokazerubi_ask(run, camera->order, camera->n, camera->limits, camera->cells,
                                                         camera->bounds, 16 * camera->cells);
        hold(given.refusal.number == 0 && given.action == camera->order[i] && given.level < camera->levels, "an action");
        hold(!given.late && run->running && run->position == i, "in time");
        hold(run->decisions == before.decisions + (given.decided ? 1 : 0), "its decision");
        if (given.level < lowest) lowest = given.level;

        /* The action runs. */
        size_t cell = i * camera->levels + given.level;
        uint32_t took = duration(camera, camera->worst[cell]);
        for (size_t q = 0; q < camera->levels; q++) durations[i * camera->levels + q] = took;
        uint64_t record = UINT64_C(1) << 39 | (uint64_t)given.action << 33 | (uint64_t)given.level << 30 | took;
        for (int b = 0; b < 5; b++) trace[5 * i + (size_t)b] = (uint8_t)(record >> (32 - 8 * b));
        clock += took;
        before = *run;
        hold(nyokazerubi_report(run, clock, camera->worst, camera->cells).number == 0, "its end");
        hold(run->position == before.position + 1, "the next position");
        hold(run->clock == clock && !run->running && !run->overrun, "the record");
    }
    hold(clock <= 320000, "no deadline is missed");
    struct nyokazerubi_given over = nyokazerubi_ask(run, camera->order, camera->n, camera->limits, camera->cells,
                                                    camera->bounds, 16 * camera->cells);
    hold(over.refusal.number == NYOKAZERUBI_REFUSED_FINISHED, "the cycle is over");
    hold(nyokazerubi_report(run, clock, camera->worst, camera->cells).number == NYOKAZERUBI_REFUSED_TURN, "none runs");
    printf("%u decisions, end %u\n", run->decisions, run->clock);
    return (struct nyokazerubi_line){.decisions = run->decisions, .lowest = lowest, .end = clock};
}

/* The dry run over the durations met is the same cycle, from the tables and from the image. */
static void dry(const struct camera *camera, const uint32_t *durations) {
    uint8_t *given = lend(camera->n), *marks = lend(camera->n);
    struct nyokazerubi_dried dried =
        nyokazerubi_dry_run(camera->n, camera->levels, camera->limits, camera->cells, camera->worst, camera->cells,
                            camera->bounds, 16 * camera->cells, durations, camera->cells, given, camera->n, marks, camera->n);
    hold(dried.refusal.number == 0 && dried.decisions == camera->run.decisions && dried.end == camera->run.clock, "the dry run");
    hold(!dried.overrun && !dried.late && marks[0] == 1, "its marks");
    uint8_t *order = lend(camera->n);
    struct nyokazerubi_framed framed = nyokazerubi_dry_frame(camera->image, camera->bytes, POLICY, durations, camera->cells, order,
                                                             camera->n, given, camera->n, marks, camera->n);
    hold(framed.refusal.number == 0 && framed.n == camera->n && framed.decisions == dried.decisions, "from the image");
    hold(framed.end == dried.end && memcmp(order, camera->order, camera->n) == 0, "its end and its order");
    free(order), free(given), free(marks);
}

/* The durations as a frame of a recording. */
static void put_frame(const uint32_t *durations, size_t cells, uint8_t *frame) {
    for (size_t cell = 0; cell < cells; cell++)
        for (size_t b = 0; b < 4; b++) frame[4 * cell + b] = (uint8_t)(durations[cell] >> (24 - 8 * b));
}

static struct nyokazerubi_line run_frame(const struct camera *camera, struct nyokazerubi_totals *totals, const uint8_t *frame, size_t length) {
    return nyokazerubi_rehearse(totals, camera->n, camera->levels, camera->limits, camera->cells, camera->worst, camera->cells,
                                camera->bounds, 16 * camera->cells, frame, length);
}

/* Opens a recording of so many bytes into tables of its own, which are then the camera's plan, or untouched. */
static struct nyokazerubi_opened open_recording(const struct camera *camera, size_t bytes) {
    size_t cells = camera->cells, table = cells * sizeof *camera->limits;
    uint8_t *order = lend(camera->n);
    int32_t *limits = lend(table), *bounds = lend(16 * table);
    uint32_t *worst = lend(table);
    struct nyokazerubi_opened opened = nyokazerubi_open_recording(camera->image, camera->bytes, POLICY, bytes, order, camera->n, limits,
                                                                  cells, worst, cells, bounds, 16 * cells);
    if (opened.refusal.number == 0) {
        hold(memcmp(order, camera->order, camera->n) == 0 && memcmp(limits, camera->limits, table) == 0, "its order and limits");
        hold(memcmp(worst, camera->worst, table) == 0 && memcmp(bounds, camera->bounds, 16 * table) == 0, "its other tables");
    } else {
        hold(order[0] == 0xa5 && opened.n == 0 && opened.frames == 0, "a refusal writes nothing");
    }
    free(order), free(limits), free(bounds), free(worst);
    return opened;
}

/* The cycles met as a recording: opened by its length, and run through the memory of one frame. Each line is that of its cycle, and the totals add
 * them up. */
static void rehearse(const struct camera *camera, const uint8_t *recording, const struct nyokazerubi_line *met) {
    hold(open_recording(camera, ROUNDS * FRAME - 1).refusal.number == NYOKAZERUBI_REFUSED_TRACE, "a byte less is not whole frames");
    hold(open_recording(camera, (size_t)4097 * FRAME).refusal.number == NYOKAZERUBI_REFUSED_TRACE, "4097 frames");
    hold(open_recording(camera, 0).refusal.number == 0, "no frames");
    struct nyokazerubi_opened opened = open_recording(camera, ROUNDS * FRAME);
    hold(opened.refusal.number == 0 && opened.n == 9 && opened.levels == 8, "a recording");
    hold(opened.frame_bytes == FRAME && opened.frames == ROUNDS, "its frames");
    uint8_t *frame = lend(FRAME);
    struct nyokazerubi_totals totals = {0, 0, 0, 0};
    uint32_t decisions = 0;
    for (size_t at = 0; at < opened.frames; at++) {
        memcpy(frame, recording + at * FRAME, FRAME);
        struct nyokazerubi_line line = run_frame(camera, &totals, frame, FRAME);
        hold(line.refusal.number == 0 && line.decisions == met[at].decisions && line.end == met[at].end, "the cycle met");
        hold(line.lowest == met[at].lowest && !line.overrun && !line.late, "its lowest level and its marks");
        decisions += line.decisions;
    }
    hold(totals.frames == ROUNDS && totals.decisions == decisions && totals.overruns == 0 && totals.lates == 0, "the totals");

    /* A refused frame counts in none, and the next one goes on: here one whose actions all take too long, which is no refusal. */
    struct nyokazerubi_totals before = totals;
    hold(run_frame(camera, &totals, frame, FRAME - 1).refusal.number == NYOKAZERUBI_REFUSED_ROOM, "a frame cut short");
    frame[FRAME - 4] = 1;
    hold(run_frame(camera, &totals, frame, FRAME).refusal.number == NYOKAZERUBI_REFUSED_DURATION, "an entry too long");
    hold(memcmp(&totals, &before, sizeof totals) == 0, "they count in none");
    for (size_t at = 0; at < FRAME; at++) frame[at] = at % 4 == 0 ? 0 : 0xff;
    struct nyokazerubi_line line = run_frame(camera, &totals, frame, FRAME);
    hold(line.refusal.number == 0 && line.end == 9 * NYOKAZERUBI_LONGEST_TIME && line.overrun && line.late, "the longest frame");
    hold(totals.frames == ROUNDS + 1 && totals.overruns == 1 && totals.lates == 1, "it is counted");
    free(frame);
    printf("%u frames, %u decisions\n", totals.frames, totals.decisions);
}

/* The camera's image with a cycle of so many blocks. */
static uint8_t *picture(const struct camera *camera, uint32_t blocks) {
    uint64_t *masks = lend(9 * sizeof *masks);
    uint32_t *deadlines = lend(9 * sizeof *deadlines), *averages = lend(72 * sizeof *averages);
    uint32_t *worst = lend(72 * sizeof *worst);
    uint8_t *image = lend(camera->bytes);
    uint32_t cycle = nyokazerubi_read(camera->image, camera->bytes, masks, 9, deadlines, 9, averages, 72, worst, 72).cycle;
    /* A deadline may be the cycle in so many words. */
    deadlines[8] = cycle * blocks;
    struct nyokazerubi_written written =
        nyokazerubi_write(9, 8, cycle * blocks, masks, 9, deadlines, 9, averages, 72, worst, 72, image, camera->bytes);
    hold(written.bytes == camera->bytes, "a picture's image");
    free(masks), free(deadlines), free(averages), free(worst);
    return image;
}

/* A picture: the encoder's actions once for each block, in one cycle, with tables of one body. By turns, and the same as a dry run. */
static void blocks(struct camera *camera) {
    uint8_t *image = picture(camera, BLOCKS), *order = lend(9);
    size_t table = camera->cells, sums = NYOKAZERUBI_SUMMARIES_ENTRIES(9, 8);
    uint32_t *summaries = lend(sums * sizeof *summaries), *worst = lend(table * sizeof *worst);
    static const struct {
        uint32_t blocks, policy, short_by, number;
        const char *what;
    } refused[] = {{0, 2006, 0, NYOKAZERUBI_REFUSED_REPEATS, "no blocks"},
                   {400, 2006, 0, NYOKAZERUBI_REFUSED_UNFIT, "too many blocks"},
                   {BLOCKS, 2006, 1, NYOKAZERUBI_REFUSED_POLICY, "no policy"},
                   {BLOCKS, POLICY, 1, NYOKAZERUBI_REFUSED_ROOM, "no room"}};
    for (size_t at = 0; at < 4; at++) {
        struct nyokazerubi_body_planned none = nyokazerubi_plan_body(image, camera->bytes, refused[at].blocks, refused[at].policy, order, 9,
                                                                     summaries, sums - refused[at].short_by, worst, table);
        hold(none.refusal.number == refused[at].number && none.body.n == 0 && none.body.policy == 0, refused[at].what);
    }
    hold(order[0] == 0xa5, "a refusal writes nothing");
    struct nyokazerubi_body_planned planned = nyokazerubi_plan_body(image, camera->bytes, BLOCKS, POLICY, order, 9, summaries, sums, worst, table);
    struct nyokazerubi_body body = planned.body;
    hold(planned.refusal.number == 0 && body.n == 9 && body.levels == 8 && body.cycle == 320000 * BLOCKS && body.repeats == BLOCKS, "a body");
    hold(body.policy == POLICY, "its policy");
    hold(memcmp(order, camera->order, 9) == 0 && memcmp(worst, camera->worst, table * sizeof *worst) == 0, "its order and worst times");

    /* In the last block the limits are the camera's own, that much later. */
    for (size_t cell = 0; cell < table; cell++) {
        size_t position = POSITIONS - 9 + cell / 8, level = cell % 8;
        struct nyokazerubi_limited limit = nyokazerubi_body_limit(&body, summaries, sums, position, level);
        hold(limit.refusal.number == 0 && limit.limit == (int64_t)camera->limits[cell] + 320000 * (BLOCKS - 1), "a limit");
        struct nyokazerubi_limited bound = nyokazerubi_body_bound(&body, summaries, sums, worst, table, position, level, 1);
        hold(bound.refusal.number == 0 && bound.limit == limit.limit, "a coast of one");
        bound = nyokazerubi_body_bound(&body, summaries, sums, worst, table, position, level, 10);
        hold(bound.refusal.number == 0 && bound.limit == NYOKAZERUBI_ABSENT_LONG, "a coast past the end");
    }
    hold(nyokazerubi_body_limit(&body, summaries, sums, POSITIONS, 0).refusal.number == NYOKAZERUBI_REFUSED_READING, "no such position");
    hold(nyokazerubi_body_bound(&body, summaries, sums, worst, table, 0, 0, 17).refusal.number == NYOKAZERUBI_REFUSED_READING, "a coast of 17");

    struct nyokazerubi_body_run *run = lend(sizeof *run);
    uint32_t *durations = lend(POSITIONS * 8 * sizeof *durations), clock = 0;
    uint8_t *levels = lend(POSITIONS), *given = lend(POSITIONS), *marks = lend(POSITIONS);
    hold(nyokazerubi_body_start(run, &body).number == 0 && run->position == 0 && !run->running, "a start");
    for (size_t i = 0; i < POSITIONS; i++) {
        struct nyokazerubi_given now = nyokazerubi_body_ask(run, order, 9, summaries, sums, worst, table);
        hold(now.refusal.number == 0 && now.action == i / 9 * 9 + order[i % 9] && now.level < 8 && !now.late, "an action of a block");
        uint32_t took = duration(camera, worst[i % 9 * 8 + now.level]);
        for (size_t q = 0; q < 8; q++) durations[8 * i + q] = took;
        levels[i] = (uint8_t)now.level;
        clock += took;
        hold(nyokazerubi_body_report(run, clock, worst, table).number == 0 && run->clock == clock, "its end");
    }
    hold(clock <= body.cycle && !run->overrun && !run->late, "no deadline is missed");
    hold(nyokazerubi_body_ask(run, order, 9, summaries, sums, worst, table).refusal.number == NYOKAZERUBI_REFUSED_FINISHED, "the picture is done");
    hold(nyokazerubi_body_report(run, clock, worst, table).number == NYOKAZERUBI_REFUSED_TURN, "none runs");
    struct nyokazerubi_body_framed framed = nyokazerubi_body_dry_frame(image, camera->bytes, BLOCKS, POLICY, durations, POSITIONS * 8, order, 9, given,
                                                                       POSITIONS, marks, POSITIONS);
    hold(framed.refusal.number == 0 && framed.end == clock && framed.decisions == run->decisions && framed.positions == POSITIONS, "its dry run");
    hold(!framed.overrun && !framed.late && memcmp(given, levels, POSITIONS) == 0 && marks[0] == 1, "its levels");
    framed = nyokazerubi_body_dry_frame(image, camera->bytes, BLOCKS, POLICY, durations, POSITIONS * 8 - 1, order, 9, given, POSITIONS, marks,
                                        POSITIONS);
    hold(framed.refusal.number == NYOKAZERUBI_REFUSED_ROOM && framed.positions == 0, "a duration less");
    printf("%u blocks, %u decisions, end %u\n", body.repeats, run->decisions, clock);

    /* By the policy of 2005: planned, its last limit that of the tests apart, and a whole picture in time. */
    planned = nyokazerubi_plan_body(image, camera->bytes, BLOCKS, NYOKAZERUBI_POLICY_2005, order, 9, summaries, sums, worst, table);
    hold(planned.refusal.number == 0 && planned.body.policy == NYOKAZERUBI_POLICY_2005 && planned.body.repeats == BLOCKS, "a body of 2005");
    struct nyokazerubi_limited last = nyokazerubi_body_limit(&planned.body, summaries, sums, POSITIONS - 1, 7);
    hold(last.refusal.number == 0 && last.limit == (int64_t)body.cycle - worst[table - 1], "its last limit");
    framed = nyokazerubi_body_dry_frame(image, camera->bytes, BLOCKS, NYOKAZERUBI_POLICY_2005, durations, POSITIONS * 8, order, 9, given, POSITIONS,
                                        marks, POSITIONS);
    hold(framed.refusal.number == 0 && framed.positions == POSITIONS && framed.end <= body.cycle, "a picture of 2005");
    printf("2005: %u decisions, end %u\n", framed.decisions, (unsigned)framed.end);

    /* Refused starts, and a call on their record. */
    planned.body.policy = 2007;
    hold(nyokazerubi_body_start(run, &planned.body).number == NYOKAZERUBI_REFUSED_POLICY && run->body.n == 0, "no policy of 2007");
    body.repeats = 1621;
    hold(nyokazerubi_body_start(run, &body).number == NYOKAZERUBI_REFUSED_REPEATS && run->body.n == 0, "1621 blocks");
    hold(nyokazerubi_body_report(run, 0, worst, table).number == NYOKAZERUBI_REFUSED_TURN, "a record of zero actions");
    free(image), free(order), free(summaries), free(worst), free(run), free(durations), free(levels), free(given), free(marks);
}

/* New averages from the trace of the cycle. */
static void refresh(struct camera *camera, const uint8_t *trace, size_t length) {
    uint8_t *fresh = lend(camera->bytes);
    hold(nyokazerubi_refresh(camera->image, camera->bytes, trace, length - 1, fresh, camera->bytes).refusal.number ==
             NYOKAZERUBI_REFUSED_TRACE,
         "a record cut short");
    struct nyokazerubi_refreshed refreshed =
        nyokazerubi_refresh(camera->image, camera->bytes, trace, length, fresh, camera->bytes);
    hold(refreshed.refusal.number == 0 && refreshed.bytes == camera->bytes, "new averages");
    hold(nyokazerubi_check(fresh, camera->bytes).number == 0, "they are accepted");
    free(fresh);
}

static void readings(const struct camera *camera) {
    struct nyokazerubi_reading reading = nyokazerubi_speed_reading(camera->image, camera->bytes, 0, 8, 0, 0);
    hold(reading.refusal.number == 0 && !reading.spent && reading.ratio > 0 && reading.ratio < 1, "time is left at level 0");
    hold(nyokazerubi_on_time(camera->image, camera->bytes, 0, 8, 0, 0), "so it is on time");
    reading = nyokazerubi_speed_reading(camera->image, camera->bytes, 0, 8, 0, 320000);
    hold(reading.refusal.number == 0 && reading.spent, "at the end it is spent");
    reading = nyokazerubi_speed_reading(camera->image, camera->bytes, 0, 9, 0, 0);
    hold(reading.refusal.number == NYOKAZERUBI_REFUSED_READING, "no tenth position");
}

int main(void) {
    struct camera camera = {.seed = 1};
    hold(nyokazerubi_boundary() == NYOKAZERUBI_BOUNDARY, "the archive is of this header");
    profile(&camera);
    damaged(&camera);
    plan(&camera);
    certified(&camera);
    uint32_t *durations = lend(camera.cells * sizeof *durations);
    uint8_t *trace = lend(5 * camera.n), *recording = lend(ROUNDS * FRAME);
    struct nyokazerubi_line met[ROUNDS];
    for (size_t round = 0; round < ROUNDS; round++) {
        met[round] = cycle(&camera, durations, trace);
        put_frame(durations, camera.cells, recording + round * FRAME);
        dry(&camera, durations);
        refresh(&camera, trace, 5 * camera.n);
    }
    rehearse(&camera, recording, met);
    blocks(&camera);
    readings(&camera);

    /* A refused start, and a call on its record. */
    hold(nyokazerubi_start(&camera.run, 65, 8).number == NYOKAZERUBI_REFUSED_COUNT && camera.run.n == 0, "65 actions");
    hold(nyokazerubi_start(&camera.run, 9, 9).number == NYOKAZERUBI_REFUSED_COUNT && camera.run.n == 0, "9 levels");
    hold(nyokazerubi_start(&camera.run, (size_t)-1, 8).number == NYOKAZERUBI_REFUSED_COUNT && camera.run.n == 0, "all of a size_t");
    hold(nyokazerubi_report(&camera.run, 0, camera.worst, camera.cells).number == NYOKAZERUBI_REFUSED_TURN, "a record of zero actions");
    free(durations), free(trace), free(recording);
    free(camera.image), free(camera.order), free(camera.limits), free(camera.worst), free(camera.bounds);
    printf("every answer is as it must be\n");
    return 0;
}
