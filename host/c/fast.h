/* The public calls of the quality manager in C, written for speed.
 *
 * Each call answers the number of its refusal, 0 for none; those that take an image, or write one, have the lowest
 * action at fault beside it, FAST_NO_ACTION where none is. Lent slices are a pointer and a count of entries; they are
 * written only when there is no refusal and keep their tails. Slices of one call must not overlap. */
#ifndef NYOKAZERUBI_FAST_H
#define NYOKAZERUBI_FAST_H

#include <stdbool.h>
#include <stddef.h>
#include <stdint.h>

typedef struct {
    uint32_t number, action;
} fast_fault;

#define FAST_NO_ACTION 64u

typedef struct {
    size_t n, levels;
    uint32_t cycle;
} fast_counts;

typedef struct {
    uint32_t n, levels, position, clock, level, left, decisions;
    bool running, overrun, late;
} fast_run;

typedef struct {
    uint32_t action, level;
    bool decided, late;
} fast_given;

typedef struct {
    uint32_t decisions, end;
    bool overrun, late;
} fast_dried;

typedef struct {
    size_t n, levels, frame_bytes, frames;
} fast_opened;

typedef struct {
    uint32_t frames, decisions, overruns, lates;
} fast_totals;

typedef struct {
    uint32_t decisions, lowest, end;
    bool overrun, late;
} fast_line;

typedef struct {
    uint32_t n, levels, cycle, repeats, policy;
} fast_body;

typedef struct {
    fast_body body;
    uint32_t level;
    uint64_t clock;
    uint32_t position;
    uint8_t left;
    bool running, overrun, late;
    uint32_t decisions;
} fast_body_run;

typedef struct {
    uint32_t decisions;
    uint64_t end;
    uint32_t positions;
    bool overrun, late;
} fast_body_dried;

/* The number that fast_speed_reading answers where the time is spent; no refusal has it. */
#define FAST_SPENT 255u

fast_fault fast_check(const uint8_t *image, size_t length, fast_counts *counts);

fast_fault fast_read(const uint8_t *image, size_t length, uint64_t *masks, size_t masks_room, uint32_t *deadlines,
                     size_t deadlines_room, uint32_t *averages, size_t averages_room, uint32_t *worst,
                     size_t worst_room, fast_counts *counts);

fast_fault fast_write(size_t n, size_t levels, uint32_t cycle, const uint64_t *masks, size_t masks_room,
                      const uint32_t *deadlines, size_t deadlines_room, const uint32_t *averages, size_t averages_room,
                      const uint32_t *worst, size_t worst_room, uint8_t *image, size_t room, size_t *written);

/* The part begins at *part and has *part_length bytes, 0 with a refusal. */
fast_fault fast_lookup(const uint8_t *image, size_t length, size_t action, const uint8_t **part, size_t *part_length);

/* A policy is its year, 2008 or 2005. */
fast_fault fast_plan(const uint8_t *image, size_t length, uint32_t policy, uint8_t *order, size_t order_room,
                     int32_t *limits, size_t limits_room, uint32_t *worst, size_t worst_room, int32_t *bounds,
                     size_t bounds_room, fast_counts *counts);

uint32_t fast_start(fast_run *run, size_t n, size_t levels);

uint32_t fast_ask(fast_run *run, const uint8_t *order, size_t order_room, const int32_t *limits, size_t limits_room,
                  const int32_t *bounds, size_t bounds_room, fast_given *given);

uint32_t fast_report(fast_run *run, uint32_t clock, const uint32_t *worst, size_t worst_room);

uint32_t fast_dry_run(size_t n, size_t levels, const int32_t *limits, size_t limits_room, const uint32_t *worst,
                      size_t worst_room, const int32_t *bounds, size_t bounds_room, const uint32_t *durations,
                      size_t durations_room, uint8_t *given, size_t given_room, uint8_t *marks, size_t marks_room,
                      fast_dried *dried);

fast_fault fast_open_recording(const uint8_t *image, size_t length, uint32_t policy, size_t bytes, uint8_t *order,
                               size_t order_room, int32_t *limits, size_t limits_room, uint32_t *worst,
                               size_t worst_room, int32_t *bounds, size_t bounds_room, fast_opened *opened);

uint32_t fast_rehearse(fast_totals *totals, size_t n, size_t levels, const int32_t *limits, size_t limits_room,
                       const uint32_t *worst, size_t worst_room, const int32_t *bounds, size_t bounds_room,
                       const uint8_t *frame, size_t frame_room, fast_line *line);

fast_fault fast_plan_body(const uint8_t *image, size_t length, uint32_t repeats, uint32_t policy, uint8_t *order,
                          size_t order_room, uint32_t *summaries, size_t summaries_room, uint32_t *worst,
                          size_t worst_room, fast_body *body);

uint32_t fast_body_limit(const fast_body *body, const uint32_t *summaries, size_t summaries_room, size_t position,
                         size_t level, int64_t *limit);

uint32_t fast_body_bound(const fast_body *body, const uint32_t *summaries, size_t summaries_room,
                         const uint32_t *worst, size_t worst_room, size_t position, size_t level, size_t length,
                         int64_t *bound);

uint32_t fast_body_start(fast_body_run *run, const fast_body *body);

uint32_t fast_body_ask(fast_body_run *run, const uint8_t *order, size_t order_room, const uint32_t *summaries,
                       size_t summaries_room, const uint32_t *worst, size_t worst_room, fast_given *given);

uint32_t fast_body_report(fast_body_run *run, uint32_t clock, const uint32_t *worst, size_t worst_room);

fast_fault fast_body_dry_frame(const uint8_t *image, size_t length, uint32_t repeats, uint32_t policy,
                               const uint32_t *durations, size_t durations_room, uint8_t *order, size_t order_room,
                               uint8_t *given, size_t given_room, uint8_t *marks, size_t marks_room,
                               fast_body_dried *dried);

/* Answers 0 and the ratio, FAST_SPENT, or the number of the refusal. */
fast_fault fast_speed_reading(const uint8_t *image, size_t length, size_t first, size_t last, size_t level,
                              uint32_t t, double *ratio);

fast_fault fast_refresh(const uint8_t *image, size_t length, const uint8_t *trace, size_t trace_length, uint8_t *fresh,
                        size_t room, size_t *written);

#endif
