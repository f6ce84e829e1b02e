/* Nyokazerubi, a quality manager for platform cameras: the calls for a host in C or C++.
 *
 * A camera encodes each frame as a cycle of actions, each at a quality level. From a profile image (who comes before whom, deadlines, average and
 * worst times by level) a plan is made once; then, before each action of a cycle, the manager is asked for the action and its level, and after it
 * is told the clock. While no action takes longer than its worst time, no deadline is missed.
 *
 * Link libnyokazerubi.a. It is for x86-64 Linux; it keeps nothing between calls, allocates nothing, and needs memcpy and memset alone. What a call
 * answers and writes is proved for every input.
 *
 * LENT MEMORY. A table is lent as a pointer and then the number of its entries (of bytes where the entries are bytes), a record as a pointer alone. A
 * call reads what is const and writes the rest. Until it returns, the host sees to it that
 *   - each pointer is aligned and not null, with length 0 too, and has as many entries as it says;
 *   - what the call writes overlaps nothing else that it is lent, and no other thread touches it meanwhile; what it reads, any thread may read;
 *   - the three bools of a run record are 0 or 1 when it is lent to ask and to report. A start writes every field of the record and reads none, so
 *     it may be made over any bytes; after it, accepted or refused, they are, as long as the host does not write the record itself.
 * Nothing else is asked. Counts, positions, clocks and entries may have any value, which is refused if it does not fit. A table may be longer than
 * needed: its tail is kept. Calls may be made at any time and by several threads at once, each with a run record or
 * totals of its own, all over one plan.
 *
 * REFUSALS. Every answer has a refusal (but those of on_time and of boundary, which are plain): its number is 0, accepted, or the first that applies
 * of those that stand at the call, in that order. With a number other than 0 the call has written nothing, the run record and the totals are as they
 * were, and all else in the answer is 0 or false. One exception: a refused start leaves a record of zero actions, on which ask and report answer 11
 * until a start is accepted.
 *
 * THE ACTION AT FAULT. Where an image, or the tables to write one, are refused with 5, 6, 7 or 8, the refusal has the lowest action at fault beside
 * its number: 5, a spare bit of its record is set; 6, its deadline or mask, and on writing a time of it; 7, its times; 8, it must follow itself. It is
 * NYOKAZERUBI_NO_ACTION where no action is at fault: with 5 where a spare bit of the header alone is set, and with every other number, 0 among them.
 *
 * A CYCLE, for profiles of up to 9 actions and 8 levels; encode() is the host's own. host/check compiles and runs these lines as they stand.
 *
 * ---- the loop
 * #include "nyokazerubi.h"
 *
 * enum { ACTIONS = 9, TABLE = NYOKAZERUBI_TABLE_ENTRIES(9, 8), BOUNDS = NYOKAZERUBI_BOUNDS_ENTRIES(9, 8) };
 * static uint8_t order[ACTIONS];
 * static int32_t limits[TABLE], bounds[BOUNDS];
 * static uint32_t worst_by_position[TABLE];
 *
 * uint32_t encode(uint32_t action, uint32_t level); // does the action at the level, answers the clock since the cycle began
 *
 * // Once for a profile.
 * struct nyokazerubi_planned prepare(const uint8_t *image, size_t bytes) {
 *     return nyokazerubi_plan(image, bytes, NYOKAZERUBI_POLICY_2008, order, ACTIONS, limits, TABLE, worst_by_position, TABLE, bounds, BOUNDS);
 * }
 *
 * // Once for a frame. The number of the refusal, 0 when every action is done; then run->overrun and run->late tell how it went.
 * uint32_t cycle(struct nyokazerubi_run *run, size_t n, size_t levels) {
 *     struct nyokazerubi_refusal refusal = nyokazerubi_start(run, n, levels);
 *     for (size_t i = 0; i < n && refusal.number == NYOKAZERUBI_ACCEPTED; i++) {
 *         struct nyokazerubi_given given = nyokazerubi_ask(run, order, ACTIONS, limits, TABLE, bounds, BOUNDS);
 *         if (given.refusal.number != NYOKAZERUBI_ACCEPTED) return given.refusal.number;
 *         uint32_t clock = encode(given.action, given.level);
 *         refusal = nyokazerubi_report(run, clock, worst_by_position, TABLE);
 *     }
 *     return refusal.number;
 * }
 * ---- the end of the loop
 *
 * POLICY. It is chosen at planning, by its year; any other number is refused with 20. In 2008 a level is tested once, on average and safe sums mixed.
 * In 2005 it must pass two tests apart, each against every deadline to come: the average sums alone, and the safe sums alone, which are the action's
 * own worst time and the level 0 worst times after it; it is there for cameras that are certified on it. By either no deadline is missed; in 2005 a
 * limit may be below that of the position before. The policies differ in limits and coast bounds: the tables carry theirs, so that the run of a plain
 * cycle, its dry run over lent tables and the rehearsal take none; a body repeated names its own. The speed reading is by the sums of 2008.
 *
 * GLOSSARY. Position i is the i-th action in the order that the plan found; t is the last reported clock, 0 at the start of a cycle.
 *   limit     The last t at which a level may be given at a position, so that every deadline to come can still be met, whatever the action takes
 *             within its worst time. The highest level whose limit is not below t is given. A limit may be negative: that level is never given there.
 *   coast     Up to 16 actions with one decision: they get its level without looking at t, where no durations within worst could change it.
 *   decided   The answer was worked out at this asking (true) or belongs to a coast (false). The record counts the decided ones.
 *   late      No level's limit reaches t, so that level 0 is given and a deadline may be missed. It happens only after an overrun, or with tables
 *             that are not the plan of the profile. The host goes on, since level 0 is the fastest there is, or drops the frame and starts the next
 *             cycle. In an answer late is of that decision, and false in a coast; in the record it stays to the end of the cycle.
 *   overrun   An action took longer than its worst time at its level. The report is accepted, the rest of the coast is cancelled, so that the next
 *             asking decides anew, and the record's mark stays to the end of the cycle. For the rest of it deadlines are not promised. The host goes
 *             on; a worst time that is overrun is wrong, and the profile wants a higher one.
 * After a refused report the record is as it was: the action still counts as running, so the host reports again with the right clock (12, 13) or the
 * whole table (17). With 11 no action was running: it asks first, or starts. A cycle may be given up at any point by starting the next one.
 *
 * IMAGE, high bits and bytes first. As one number h of 48 bits, its first 6 bytes are
 *   h >> 44                  version, 1
 *   h >> 37 & 0x7f           n, the number of actions, 1 to 64
 *   h >> 33 & 0xf            L, the number of levels, 1 to 8
 *   h >> 3 & 0x3fffffff      cycle, the length of a cycle, 1 to 1073741823
 *   h & 7                    spare, 0
 * Then n records of 12 + 6L bytes, action 0 first; that of action a begins at byte 6 + a(12 + 6L):
 *   8 bytes                  mask: the bit worth 1 << b says that action b comes before action a
 *   4 bytes, a number w      w >> 2 is the deadline, at most the cycle; w & 3 is spare, 0. Deadline 0 stands for the cycle, and is kept as 0 by
 *                            reading, writing and refreshing
 *   6 bytes for each level   from 0 up: average 3 bytes, worst 3 bytes. At each level average is at most worst; neither falls as the level rises
 * Times, deadlines and clocks are in one unit of the host's choice. Deadlines count from the start of the cycle, and are of the action's end.
 *
 * TRACE, for new averages: records of 5 bytes, each a number e of 40 bits, high byte first:
 *   e >> 39                  open: 1 if the platform was open; 0 if closed: the record is checked, and not counted
 *   e >> 33 & 0x3f           action
 *   e >> 30 & 7              level
 *   e & 0x3fffffff           duration; 0 if the action was skipped, as for want of input: the record is checked, and not counted
 *
 * RECORDING, to try a profile on frames in which every action was measured at every level: frames one after another, and nothing else. A frame is n
 * by L durations, by position, then level, 4 bytes each, high byte first. A recording is opened by its length alone, and its frames are lent one at a
 * time: no more than one need be in memory.
 *
 * MEMORY. Tables lie row by row, the last index fastest. For n actions and L levels they take, in bytes, with the encoder's (9 and 8) and the most
 * (64 and 8):
 *
 *   image              uint8_t   6 + n(12 + 6L)     546    3846
 *   order              uint8_t   n                    9      64   the action at each position
 *   limits             int32_t   4nL                288    2048   by position and level
 *   worst_by_position  uint32_t  4nL                288    2048   by position and level
 *   bounds             int32_t   64nL              4608   32768   by position, level and length of the coast, 1 to 16
 *   run                record    32                  32      32
 *   in all, to plan and run a cycle                5771   40806
 *
 *   durations          uint32_t  4nL                288    2048   by position and level, for a dry run
 *   given              uint8_t   n                    9      64   by position, from a dry run
 *   marks              uint8_t   n                    9      64   by position, from a dry run
 *   in all, to plan and dry-run a cycle            6045   42950
 *
 *   frame              uint8_t   4nL                288    2048   of a recording
 *   totals             record    16                  16      16
 *   in all, to plan and rehearse a recording       6043   42838
 *
 *   summaries          uint32_t  16nL              1152    8192   of a body, by position and level, 4 numbers each
 *   body run           record    48                  48      48
 *   in all, to plan and run a body repeated        2043   14198   the image, order, worst_by_position and these, for any number N of repeats
 *
 *   durations          uint32_t  4nNL            466560 3317760   of 1620 repeats, for a dry run of a body repeated
 *   given              uint8_t   nN               14580  103680   by position of all repeats
 *   marks              uint8_t   nN               14580  103680   by position of all repeats
 *
 *   masks              uint64_t  8n                  72     512   by action, to read and write an image
 *   deadlines          uint32_t  4n                  36     256   by action
 *   averages           uint32_t  4nL                288    2048   by action and level
 *   worst_by_action    uint32_t  4nL                288    2048   by action and level
 *   in all, with the image                         1230    8710
 *
 *   trace              uint8_t   5 a record         at most 327675, for a refresh, with an image and room for the new one
 *
 * STACK. NYOKAZERUBI_STACK_... below has the most bytes that a call takes for any input, besides what memcpy and memset take. host/check works
 * them out from the archive's own code and holds the header to them.
 */
#ifndef NYOKAZERUBI_H
#define NYOKAZERUBI_H

#include <stdbool.h>
#include <stddef.h>
#include <stdint.h>

#ifdef __cplusplus
extern "C" {
#endif

/* The version of this boundary, and that of the archive that is linked: a host compares them once. */
#define NYOKAZERUBI_BOUNDARY 6u
uint32_t nyokazerubi_boundary(void);

#define NYOKAZERUBI_MOST_ACTIONS 64
#define NYOKAZERUBI_MOST_LEVELS 8
#define NYOKAZERUBI_LONGEST_COAST 16
#define NYOKAZERUBI_MOST_RECORDS 65535
#define NYOKAZERUBI_MOST_FRAMES 4096
#define NYOKAZERUBI_MOST_REPEATS 1620u
#define NYOKAZERUBI_MOST_POSITIONS 103680    /* of a body repeated */
#define NYOKAZERUBI_SUMMARY_NUMBERS 4        /* of the rest of a body at a position and level */
#define NYOKAZERUBI_LAST_CLOCK 1073741823u   /* the longest cycle, the latest deadline, the latest clock */
#define NYOKAZERUBI_LONGEST_TIME 16777215u   /* the longest average, worst time and duration of a dry run */
#define NYOKAZERUBI_NO_ACTION 64u            /* the action of a refusal that none is at fault for */
#define NYOKAZERUBI_POLICY_2008 2008u        /* average and safe sums mixed in one test */
#define NYOKAZERUBI_POLICY_2005 2005u        /* average and safe sums in two tests apart */
#define NYOKAZERUBI_ABSENT_BOUND INT32_MIN   /* the coast bound where a coast would go past the last position */
#define NYOKAZERUBI_ABSENT_LONG INT64_MIN    /* the same of a body repeated */

/* Stack in bytes: of start, ask and report, of a body repeated too, its limits and bounds, and of rehearse; of the refresh; of the dry run; of the
 * dry runs from an image, whose tables lie there, of a plain cycle and of a body repeated; of any other. */
#define NYOKAZERUBI_STACK_RUN 512
#define NYOKAZERUBI_STACK_REFRESH 10240
#define NYOKAZERUBI_STACK_DRY_RUN 16384
#define NYOKAZERUBI_STACK_DRY_FRAME 57344
#define NYOKAZERUBI_STACK_BODY_DRY_FRAME 16384
#define NYOKAZERUBI_STACK_OTHER 4096

/* The bytes of an image; the entries of limits, durations, averages and both tables of worst times; the entries of the coast bounds; the bytes of
 * a trace; the bytes of a frame of a recording; the entries of the summaries of a body. */
#define NYOKAZERUBI_IMAGE_BYTES(n, levels) ((size_t)6 + (size_t)(n) * ((size_t)12 + (size_t)6 * (size_t)(levels)))
#define NYOKAZERUBI_TABLE_ENTRIES(n, levels) ((size_t)(n) * (size_t)(levels))
#define NYOKAZERUBI_BOUNDS_ENTRIES(n, levels) ((size_t)NYOKAZERUBI_LONGEST_COAST * NYOKAZERUBI_TABLE_ENTRIES(n, levels))
#define NYOKAZERUBI_TRACE_BYTES(records) ((size_t)5 * (size_t)(records))
#define NYOKAZERUBI_FRAME_BYTES(n, levels) ((size_t)4 * NYOKAZERUBI_TABLE_ENTRIES(n, levels))
#define NYOKAZERUBI_SUMMARIES_ENTRIES(n, levels) ((size_t)NYOKAZERUBI_SUMMARY_NUMBERS * NYOKAZERUBI_TABLE_ENTRIES(n, levels))

/* The numbers of refusal. */
enum {
    NYOKAZERUBI_ACCEPTED = 0,
    NYOKAZERUBI_REFUSED_SHORT = 1,     /* image under 6 bytes */
    NYOKAZERUBI_REFUSED_VERSION = 2,   /* version is not 1 */
    NYOKAZERUBI_REFUSED_COUNT = 3,     /* n, L or cycle outside its range */
    NYOKAZERUBI_REFUSED_LENGTH = 4,    /* image length differs from 6 + n(12 + 6L) */
    NYOKAZERUBI_REFUSED_SPARE = 5,     /* a spare bit is set */
    NYOKAZERUBI_REFUSED_RANGE = 6,     /* deadline above the cycle, or a mask names an absent action; on writing, a time above 16777215 */
    NYOKAZERUBI_REFUSED_TABLE = 7,     /* average above worst, or a time that falls with the level */
    NYOKAZERUBI_REFUSED_LOOP = 8,      /* the masks contain a loop, a single action included */
    NYOKAZERUBI_REFUSED_UNFIT = 9,     /* no permitted order meets all deadlines at level 0 worst times */
    NYOKAZERUBI_REFUSED_FINISHED = 10, /* a level is asked for, all actions done */
    NYOKAZERUBI_REFUSED_TURN = 11,     /* asked while an action runs, reported while none runs, or a record with a field outside its range */
    NYOKAZERUBI_REFUSED_BACK = 12,     /* clock below the last accepted one */
    NYOKAZERUBI_REFUSED_CLOCK = 13,    /* clock above 1073741823 */
    NYOKAZERUBI_REFUSED_TRACE = 14,    /* length not a multiple of 5, or over 65535 records; a recording not whole frames, or over 4096 of them */
    NYOKAZERUBI_REFUSED_NAME = 15,     /* trace record or lookup names an absent action or level */
    NYOKAZERUBI_REFUSED_DURATION = 16, /* trace record longer than that worst time; dry run or frame entry above 16777215 */
    NYOKAZERUBI_REFUSED_ROOM = 17,     /* a lent table shorter than needed */
    NYOKAZERUBI_REFUSED_READING = 18,  /* speed reading with first position above last; a position or level absent; a coast not of 1 to 16 actions */
    NYOKAZERUBI_REFUSED_REPEATS = 19,  /* a body not repeated 1 to 1620 times, or with a deadline that is not 0 or the cycle */
    NYOKAZERUBI_REFUSED_POLICY = 20    /* a policy other than 2008 and 2005 */
};

struct nyokazerubi_refusal {
    uint32_t number; /* 0 for none */
};

/* The same of a call that takes an image, or writes one. */
struct nyokazerubi_fault {
    uint32_t number; /* 0 for none */
    uint32_t action; /* the lowest at fault, with 5 to 8; NYOKAZERUBI_NO_ACTION where none is */
};

/* ---- the profile */

/* The check of an image: 1 to 9, each over the whole image before the next. Every call on an image makes it first. */
struct nyokazerubi_fault nyokazerubi_check(const uint8_t *image, size_t image_length);

struct nyokazerubi_unpacked {
    struct nyokazerubi_fault refusal;
    size_t n;
    size_t levels;
    uint32_t cycle;
};

/* Unpacks an image into the four tables. 1 to 9, 17. */
struct nyokazerubi_unpacked nyokazerubi_read(
    const uint8_t *image, size_t image_length,
    uint64_t *masks, size_t masks_length,
    uint32_t *deadlines, size_t deadlines_length,
    uint32_t *averages, size_t averages_length,
    uint32_t *worst_by_action, size_t worst_by_action_length);

struct nyokazerubi_written {
    struct nyokazerubi_fault refusal;
    size_t bytes; /* of the image */
};

/* Packs the four tables into the image. 3, 17, 6, 7, 8, 9. */
struct nyokazerubi_written nyokazerubi_write(
    size_t n, size_t levels, uint32_t cycle,
    const uint64_t *masks, size_t masks_length,
    const uint32_t *deadlines, size_t deadlines_length,
    const uint32_t *averages, size_t averages_length,
    const uint32_t *worst_by_action, size_t worst_by_action_length,
    uint8_t *image, size_t image_length);

/* The encoder's profile, 546 bytes. 17. */
struct nyokazerubi_written nyokazerubi_write_encoder(uint8_t *image, size_t image_length);

struct nyokazerubi_place {
    struct nyokazerubi_fault refusal;
    size_t start; /* the action's own part is image + start, length bytes long */
    size_t length;
};

/* Where the action's own part of the image lies. 1 to 9, 15. */
struct nyokazerubi_place nyokazerubi_lookup(const uint8_t *image, size_t image_length, size_t action);

/* The refusal of a lookup alone. */
struct nyokazerubi_fault nyokazerubi_lookup_refusal(const uint8_t *image, size_t image_length, size_t action);

/* ---- the plan */

struct nyokazerubi_planned {
    struct nyokazerubi_fault refusal;
    size_t n;
    size_t levels;
    uint32_t cycle;
};

/* Plans an image by a policy: the order, the limits, the worst times by position and the coast bounds. 1 to 9, 20, 17. */
struct nyokazerubi_planned nyokazerubi_plan(
    const uint8_t *image, size_t image_length, uint32_t policy,
    uint8_t *order, size_t order_length,
    int32_t *limits, size_t limits_length,
    uint32_t *worst_by_position, size_t worst_by_position_length,
    int32_t *bounds, size_t bounds_length);

/* ---- the run */

/* The run record. The host keeps it and lends it to start, ask and report; it reads the fields, and does not write them. */
struct nyokazerubi_run {
    uint32_t n;
    uint32_t levels;
    uint32_t position; /* actions ended, and while one runs its position */
    uint32_t clock;    /* the last accepted one */
    uint32_t level;    /* the last given one */
    uint32_t left;     /* actions left of the coast */
    uint32_t decisions;
    bool running;
    bool overrun; /* to the end of the cycle */
    bool late;    /* to the end of the cycle */
};

struct nyokazerubi_given {
    struct nyokazerubi_refusal refusal;
    uint32_t action;
    uint32_t level;
    bool decided;
    bool late; /* at this decision; false in a coast */
};

/* Starts a cycle in the record, whatever bytes it held. 3, which leaves a record of zero actions. */
struct nyokazerubi_refusal nyokazerubi_start(struct nyokazerubi_run *run, size_t n, size_t levels);

/* The next action and its level; from then on it runs. 11 (a field outside its range), 17, 11 (an action runs), 10. */
struct nyokazerubi_given nyokazerubi_ask(
    struct nyokazerubi_run *run,
    const uint8_t *order, size_t order_length,
    const int32_t *limits, size_t limits_length,
    const int32_t *bounds, size_t bounds_length);

/* The running action ended, by the clock since the cycle began. Its duration is the clock less the last accepted one, 0 at the start, so that waiting
 * before the asking is part of it; it may be 0. 11 (a field outside its range), 17, 11 (none runs), 12, 13. */
struct nyokazerubi_refusal nyokazerubi_report(
    struct nyokazerubi_run *run, uint32_t clock,
    const uint32_t *worst_by_position, size_t worst_by_position_length);

/* ---- the dry run */

struct nyokazerubi_dried {
    struct nyokazerubi_refusal refusal;
    uint32_t decisions;
    uint32_t end; /* the clock at the end of the cycle */
    bool overrun;
    bool late;
};

/* A whole cycle over the planned tables and n by L durations: writes n levels given and n decided marks (1 or 0). 3, 17, 16. */
struct nyokazerubi_dried nyokazerubi_dry_run(
    size_t n, size_t levels,
    const int32_t *limits, size_t limits_length,
    const uint32_t *worst_by_position, size_t worst_by_position_length,
    const int32_t *bounds, size_t bounds_length,
    const uint32_t *durations, size_t durations_length,
    uint8_t *given, size_t given_length,
    uint8_t *marks, size_t marks_length);

struct nyokazerubi_framed {
    struct nyokazerubi_fault refusal;
    size_t n;
    uint32_t decisions;
    uint32_t end; /* the clock at the end of the cycle */
    bool overrun;
    bool late;
};

/* The same from an image, which it plans into tables of its own: writes the order, n levels given and n decided marks. 1 to 9, 20, 17, 16. */
struct nyokazerubi_framed nyokazerubi_dry_frame(
    const uint8_t *image, size_t image_length, uint32_t policy,
    const uint32_t *durations, size_t durations_length,
    uint8_t *order, size_t order_length,
    uint8_t *given, size_t given_length,
    uint8_t *marks, size_t marks_length);

/* ---- recordings */

struct nyokazerubi_opened {
    struct nyokazerubi_fault refusal;
    size_t n;
    size_t levels;
    size_t frame_bytes; /* of each frame, 4nL */
    size_t frames;      /* of the recording */
};

/* Opens a recording of so many bytes against an image, which it plans as nyokazerubi_plan does. None of the recording is lent: 14 is judged by its
 * length, before any frame is run. No bytes are no frames, accepted. 1 to 9, 20, 14, 17. */
struct nyokazerubi_opened nyokazerubi_open_recording(
    const uint8_t *image, size_t image_length, uint32_t policy, size_t bytes,
    uint8_t *order, size_t order_length,
    int32_t *limits, size_t limits_length,
    uint32_t *worst_by_position, size_t worst_by_position_length,
    int32_t *bounds, size_t bounds_length);

/* The totals over the frames run. The host keeps the record, sets all of it to 0 once, and lends it with each frame. */
struct nyokazerubi_totals {
    uint32_t frames;
    uint32_t decisions;
    uint32_t overruns; /* frames in which an action took longer than its worst time */
    uint32_t lates;    /* frames in which no level fitted at a decision */
};

struct nyokazerubi_line {
    struct nyokazerubi_refusal refusal;
    uint32_t decisions;
    uint32_t lowest; /* of the levels given */
    uint32_t end;    /* the clock at the end of the frame */
    bool overrun;
    bool late;
};

/* Runs a frame dry over the planned tables, from time 0, and counts it. A refused frame counts in none, and the next one may follow. If overrun is
 * not set, no deadline was missed. 11 (a total outside its range: frames at most 4096, decisions at most 64 a frame, overruns and lates at most the
 * frames), 14 (4096 frames are counted already), 3, 17, 16. */
struct nyokazerubi_line nyokazerubi_rehearse(
    struct nyokazerubi_totals *totals, size_t n, size_t levels,
    const int32_t *limits, size_t limits_length,
    const uint32_t *worst_by_position, size_t worst_by_position_length,
    const int32_t *bounds, size_t bounds_length,
    const uint8_t *frame, size_t frame_length);

/* ---- a body repeated */

/* A body of n actions done so many times over in one cycle, where all deadlines are the cycle's. It is the unrolled profile of n times the repeats
 * actions, numbered repeat by repeat: action a of repeat j, from 0 on, has the number jn + a, its masks name actions of its own repeat, and its
 * times are those of a. Position i is the i-th of all, up to 103680, and what stands above of limits, coasts, late and overrun holds over these.
 * Planning answers it; the host keeps it, and lends it to limit, bound and start. */
struct nyokazerubi_body {
    uint32_t n;
    uint32_t levels;
    uint32_t cycle;
    uint32_t repeats;
    uint32_t policy; /* by its year */
};

struct nyokazerubi_body_planned {
    struct nyokazerubi_fault refusal;
    struct nyokazerubi_body body;
};

/* Plans an image to be repeated by a policy: the order and the worst times of one body, and of the rest of a body from each position and level four
 * numbers, by which any limit of the unrolled profile, and at its top level the longest coast, is worked out when it is asked for. One of the four is
 * the policy's own: the tables are for the body that is answered with them. No table grows with the repeats. 1 to 8, 19, 9 (of the unrolled profile),
 * 20, 17. */
struct nyokazerubi_body_planned nyokazerubi_plan_body(
    const uint8_t *image, size_t image_length, uint32_t repeats, uint32_t policy,
    uint8_t *order, size_t order_length,
    uint32_t *summaries, size_t summaries_length,
    uint32_t *worst_by_position, size_t worst_by_position_length);

struct nyokazerubi_limited {
    struct nyokazerubi_refusal refusal;
    int64_t limit;
};

/* The limit at a position and level. 3, 19, 20, 17, 18. */
struct nyokazerubi_limited nyokazerubi_body_limit(
    const struct nyokazerubi_body *body,
    const uint32_t *summaries, size_t summaries_length,
    size_t position, size_t level);

/* The coast bound at a position, level and length of the coast, 1 to 16: INT64_MIN where the coast would go past the last position. It is
 * worked out at each position of the coast; at the top level, where the coast is as long as there may be, also by the summaries at its first and its
 * last position alone, and the greater counts: on tables that planning wrote they are equal. 3, 19, 20, 17, 18. */
struct nyokazerubi_limited nyokazerubi_body_bound(
    const struct nyokazerubi_body *body,
    const uint32_t *summaries, size_t summaries_length,
    const uint32_t *worst_by_position, size_t worst_by_position_length,
    size_t position, size_t level, size_t length);

/* The run record of a body repeated, kept and lent as that of a plain cycle. A start refuses a policy that there is not; ask and report do not judge
 * it again, and in a record any number but 2005 is read as 2008. */
struct nyokazerubi_body_run {
    struct nyokazerubi_body body;
    uint32_t level;    /* the last given one */
    uint64_t clock;    /* the last accepted one, at most 1073741823 */
    uint32_t position; /* actions ended, of all repeats, and while one runs its position */
    uint8_t left;      /* actions left of the coast */
    bool running;
    bool overrun; /* to the end of the cycle */
    bool late;    /* to the end of the cycle */
    uint32_t decisions;
};

/* Starts a cycle in the record, whatever bytes it held; the body is not the record's own, which is written. 3, 19, 20, which leave a record of zero
 * actions. */
struct nyokazerubi_refusal nyokazerubi_body_start(struct nyokazerubi_body_run *run, const struct nyokazerubi_body *body);

/* The next action, by its number in the unrolled profile, and its level; from then on it runs. 11 (a field outside its range), 17, 11 (an action
 * runs), 10. */
struct nyokazerubi_given nyokazerubi_body_ask(
    struct nyokazerubi_body_run *run,
    const uint8_t *order, size_t order_length,
    const uint32_t *summaries, size_t summaries_length,
    const uint32_t *worst_by_position, size_t worst_by_position_length);

/* The running action ended, by the clock since the cycle began. 11 (a field outside its range), 17, 11 (none runs), 12, 13. */
struct nyokazerubi_refusal nyokazerubi_body_report(
    struct nyokazerubi_body_run *run, uint32_t clock,
    const uint32_t *worst_by_position, size_t worst_by_position_length);

struct nyokazerubi_body_framed {
    struct nyokazerubi_fault refusal;
    uint32_t decisions;
    uint64_t end;       /* the clock at the end of the cycle; after overruns it may be above 1073741823 */
    uint32_t positions; /* n times the repeats */
    bool overrun;
    bool late;
};

/* A whole cycle from an image and durations by position of all repeats and level: writes the order of one body, and at each position of all repeats
 * the level given and the decided mark (1 or 0). 1 to 8, 19, 9, 20, 17, 16. */
struct nyokazerubi_body_framed nyokazerubi_body_dry_frame(
    const uint8_t *image, size_t image_length, uint32_t repeats, uint32_t policy,
    const uint32_t *durations, size_t durations_length,
    uint8_t *order, size_t order_length,
    uint8_t *given, size_t given_length,
    uint8_t *marks, size_t marks_length);

/* ---- the speed reading */

struct nyokazerubi_reading {
    struct nyokazerubi_fault refusal;
    bool spent;   /* no time is left for these positions */
    double ratio; /* 0 when spent */
};

/* The speed that positions first to last need at the level from time t on, to end in time: their average time over what is left for it up to the
 * deadline of the last one, less a margin for worst times. At most 1 is on time. 1 to 9, 18, 13. */
struct nyokazerubi_reading nyokazerubi_speed_reading(
    const uint8_t *image, size_t image_length, size_t first, size_t last, size_t level, uint32_t t);

/* Whether the reading is a ratio of at most 1; false with a refusal, or spent. */
bool nyokazerubi_on_time(const uint8_t *image, size_t image_length, size_t first, size_t last, size_t level, uint32_t t);

/* ---- refreshing averages */

struct nyokazerubi_refreshed {
    struct nyokazerubi_fault refusal;
    size_t bytes; /* of the image written */
};

/* Writes to out the image with new averages by the trace: the mean of the open records of an action and level whose duration is above 0, rounded
 * down, the old one where there are none; then none falls with the level. 1 to 9, 14, record by record 15 before 16, 17. */
struct nyokazerubi_refreshed nyokazerubi_refresh(
    const uint8_t *image, size_t image_length,
    const uint8_t *trace, size_t trace_length,
    uint8_t *out, size_t out_length);

#ifdef __cplusplus
}
#endif

#endif
