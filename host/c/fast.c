#include "fast.h"

#include <string.h>

enum {
    SHORT = 1,
    VERSION,
    COUNT,
    LENGTH,
    SPARE,
    RANGE,
    TABLE,
    LOOP,
    UNFIT,
    FINISHED,
    TURN,
    BACK,
    CLOCK,
    TRACE,
    NAME,
    DURATION,
    ROOM,
    READING,
    REPEATS,
    POLICY
};

#define LAST_CLOCK 1073741823u
#define LAST_TIME 16777215u
#define COAST 16u
#define RECORDS 65535u
#define FRAMES 4096u
#define ABSENT INT32_MIN
#define MOST_REPEATS 1620u
#define NUMBERS 4u
#define MIXED 2008u
#define APART 2005u

#if __BYTE_ORDER__ != __ORDER_LITTLE_ENDIAN__
#error "bytes are swapped on every read and write of an image"
#endif

/* A refusal that no action is at fault for; 0 is none. */
static inline fast_fault alone(uint32_t number) { return (fast_fault){number, FAST_NO_ACTION}; }

/* ---- Bytes, high byte first ---- */

static inline uint64_t get64(const uint8_t *at) {
    uint64_t word;
    memcpy(&word, at, sizeof word);
    return __builtin_bswap64(word);
}

static inline uint32_t get32(const uint8_t *at) {
    uint32_t word;
    memcpy(&word, at, sizeof word);
    return __builtin_bswap32(word);
}

static inline void put64(uint8_t *at, uint64_t word) {
    word = __builtin_bswap64(word);
    memcpy(at, &word, sizeof word);
}

static inline void put32(uint8_t *at, uint32_t word) {
    word = __builtin_bswap32(word);
    memcpy(at, &word, sizeof word);
}

/* ---- Sizes and records ---- */

/* Sizes of an image whose length is right; stride is the bytes of a record. */
typedef struct {
    uint32_t n, levels, cycle, stride;
} shape;

static inline bool shape_fits(size_t n, size_t levels) { return n - 1 < 64 && levels - 1 < 8; }

static inline bool make_shape(shape *s, size_t n, size_t levels, uint32_t cycle) {
    *s = (shape){(uint32_t)n, (uint32_t)levels, cycle, 12 + 6 * (uint32_t)levels};
    return shape_fits(n, levels) && cycle - 1 < LAST_CLOCK;
}

static inline size_t shape_bytes(const shape *s) { return 6 + (size_t)s->n * s->stride; }

static inline uint64_t present(uint32_t n) { return UINT64_MAX >> (64 - n); }

static inline const uint8_t *record_of(const shape *s, const uint8_t *image, uint32_t action) {
    return image + 6 + (size_t)action * s->stride;
}

/* The deadline that counts, from the word that holds it. */
static inline uint32_t deadline_of(const shape *s, uint32_t word) {
    uint32_t written = word >> 2;
    return written ? written : s->cycle;
}

/* An average and a worst time in the halves of a word, so that both are compared by one subtraction. */
static inline uint64_t make_pair(uint32_t average, uint32_t worst) { return (uint64_t)average << 32 | worst; }
static inline uint32_t average_in(uint64_t pair) { return (uint32_t)(pair >> 32); }
static inline uint32_t worst_in(uint64_t pair) { return (uint32_t)pair; }

/* The pair in the last six of eight bytes. */
static inline uint64_t get_pair(const uint8_t *at) {
    uint64_t word = get64(at);
    return (word & UINT64_C(0xffffff000000)) << 8 | (word & LAST_TIME);
}

static inline uint64_t pair_of(const uint8_t *record, uint32_t level) { return get_pair(record + 10 + 6 * level); }

/* The highest bit of each half. */
#define GUARD (UINT64_C(1) << 63 | UINT64_C(1) << 31)

/* A guard bit is lost where a time is below that of the level before, or the worst time below the average. */
static inline uint64_t kept(uint64_t pair, uint64_t before) {
    uint64_t guarded = pair | GUARD;
    return (guarded - before) & (guarded - (pair >> 32));
}

/* ---- Order ---- */

/* What the order reads, by action: deadlines that count, worst times of level 0. */
typedef struct {
    uint64_t masks[64];
    uint32_t deadlines[64];
    uint32_t worst[64];
} actions;

static inline uint32_t take_lowest(uint64_t *set) {
    uint32_t lowest = (uint32_t)__builtin_ctzll(*set);
    *set &= *set - 1;
    return lowest;
}

static inline uint32_t highest(uint64_t set) { return 63u - (uint32_t)__builtin_clzll(set); }

/* The actions in a line, each after its predecessors; false where there is a loop. From an action back to one before it that has no place yet, and
 * on; where none is left the action takes the next place, and it goes back to the one it came from. */
static bool line_up(const actions *of, uint32_t n, uint8_t *line) {
    uint8_t path[64];
    uint64_t left = present(n);
    uint32_t depth = 0, placed = 0, a = 0;
    path[0] = 0;
    while (left) {
        uint64_t before = of->masks[a] & left;
        if (before) {
            if (++depth == n) return false;
            a = (uint32_t)__builtin_ctzll(before);
            path[depth] = (uint8_t)a;
        } else {
            left &= ~(UINT64_C(1) << a);
            line[placed++] = (uint8_t)a;
            if (depth) {
                a = path[--depth];
            } else if (left) {
                a = (uint32_t)__builtin_ctzll(left);
                path[0] = (uint8_t)a;
            }
        }
    }
    return true;
}

static inline uint32_t lesser(uint32_t a, uint32_t b) { return a < b ? a : b; }

/* Hands an urgency on to a set of actions. Where there are many, those are passed over that come before one that has got it: at its turn it hands it
 * on to them. */
static inline void hand_on(const actions *of, uint64_t to, uint32_t handed, uint32_t *urgency) {
    uint64_t pairs = to & to >> 1;
    if (!(pairs & pairs >> 2)) {
        while (to) {
            uint32_t b = take_lowest(&to);
            urgency[b] = lesser(handed, urgency[b]);
        }
        return;
    }
    while (to) {
        uint32_t b = highest(to);
        urgency[b] = lesser(handed, urgency[b]);
        to &= ~(of->masks[b] | UINT64_C(1) << b);
        if (!to) return;
        b = (uint32_t)__builtin_ctzll(to);
        urgency[b] = lesser(handed, urgency[b]);
        to &= ~(of->masks[b] | UINT64_C(1) << b);
    }
}

/* The urgency of each action, in one pass from the last of the line to the first; false where there is a loop. */
static bool find_urgencies(const actions *of, uint32_t n, uint32_t *urgency) {
    uint8_t line[64];
    if (!line_up(of, n, line)) return false;
    memcpy(urgency, of->deadlines, sizeof of->deadlines);
    for (uint32_t k = n; k-- > 0;) hand_on(of, of->masks[line[k]], urgency[line[k]], urgency);
    return true;
}

/* Takes the least urgent out of a set that has a member, of several the lowest. */
static inline uint32_t take_least(uint64_t *set, const uint32_t *urgency) {
    uint64_t rest = *set;
    uint32_t least = take_lowest(&rest);
    while (rest) {
        uint32_t a = take_lowest(&rest);
        if (urgency[a] < urgency[least]) least = a;
    }
    *set &= ~(UINT64_C(1) << least);
    return least;
}

/* The lowest action that must follow itself, where there is one: by all that comes before each, at any remove. */
static __attribute__((cold, noinline)) uint32_t lowest_on_a_loop(const actions *of, uint32_t n) {
    uint64_t before[64];
    memcpy(before, of->masks, n * sizeof *before);
    for (uint32_t through = 0; through < n; through++)
        for (uint32_t a = 0; a < n; a++)
            if (before[a] >> through & 1) before[a] |= before[through];
    uint32_t lowest = 0;
    while (!(before[lowest] >> lowest & 1)) lowest++;
    return lowest;
}

/* The order by urgency. An action that is not ready waits with one of its predecessors still to be done. Where all deadlines are one the lowest of the
 * ready ones is next. */
static uint32_t by_urgency(const actions *of, uint32_t n, bool same_deadlines, uint8_t *order) {
    uint32_t urgency[64];
    uint64_t waiting[64] = {0}, ready = 0, done = 0;
    if (!same_deadlines && !find_urgencies(of, n, urgency)) return LOOP;
    for (uint32_t a = 0; a < n; a++) {
        uint64_t mask = of->masks[a];
        if (mask)
            waiting[highest(mask)] |= UINT64_C(1) << a;
        else
            ready |= UINT64_C(1) << a;
    }
    uint32_t clock = 0;
    bool unfit = false;
    for (uint32_t i = 0; i < n; i++) {
        if (!ready) return LOOP;
        uint32_t action = same_deadlines ? take_lowest(&ready) : take_least(&ready, urgency);
        order[i] = (uint8_t)action;
        done |= UINT64_C(1) << action;
        clock += of->worst[action];
        unfit |= clock > of->deadlines[action];
        for (uint64_t freed = waiting[action]; freed;) {
            uint32_t a = take_lowest(&freed);
            uint64_t rest = of->masks[a] & ~done;
            if (rest) {
                /* Any will do; one that changes from step to step is seldom the next again. */
                uint32_t turn = i * 29 % 64;
                uint64_t turned = rest >> turn | rest << (-turn & 63);
                waiting[((uint32_t)__builtin_ctzll(turned) + turn) % 64] |= UINT64_C(1) << a;
            } else {
                ready |= UINT64_C(1) << a;
            }
        }
    }
    return unfit ? UNFIT : 0;
}

/* Refusals 8 and 9. With one deadline and predecessors of lower numbers only, the order is that of the numbers. */
static fast_fault arrange(const actions *of, uint32_t n, uint8_t *order) {
    uint32_t differ = 0, end = 0;
    uint64_t later = 0;
    for (uint32_t a = 0; a < n; a++) {
        differ |= of->deadlines[a] ^ of->deadlines[0];
        later |= of->masks[a] >> a;
        end += of->worst[a];
    }
    if (differ || later) {
        uint32_t number = by_urgency(of, n, !differ, order);
        return number == LOOP ? (fast_fault){LOOP, lowest_on_a_loop(of, n)} : alone(number);
    }
    for (uint32_t a = 0; a < n; a++) order[a] = (uint8_t)a;
    return alone(end > of->deadlines[0] ? UNFIT : 0);
}

/* ---- Image ---- */

/* Refusals 1 to 4. */
static uint32_t image_shape(const uint8_t *image, size_t length, shape *s) {
    if (length < 6) return SHORT;
    uint32_t head = get32(image);
    if (head >> 28 != 1) return VERSION;
    uint32_t cycle = (head & 0x1ffff) << 13 | (uint32_t)image[4] << 5 | image[5] >> 3;
    if (!make_shape(s, head >> 21 & 127, head >> 17 & 15, cycle)) return COUNT;
    return length == shape_bytes(s) ? 0 : LENGTH;
}

/* What a pass over all actions gathers, or over one. */
typedef struct {
    uint64_t strangers, table; /* table loses a guard bit where the table rule is broken */
    uint32_t spare, times;     /* times are those of a writing: those of an image fit their fields */
    bool range;
} faults;

static const faults none = {.table = GUARD};

/* Joins those of an action's record. */
static inline void add_record(faults *f, const shape *s, const uint8_t *record) {
    uint64_t before = 0;
    uint32_t word = get32(record + 8);
    f->strangers |= get64(record) & ~present(s->n);
    f->spare |= word & 3;
    f->range |= word >> 2 > s->cycle;
    for (const uint8_t *at = record + 10, *end = record + s->stride - 2; at < end; at += 6) {
        uint64_t pair = get_pair(at);
        f->table &= kept(pair, before);
        before = pair;
    }
}

/* The first of 5, 6, 7. */
static inline uint32_t first_of(const faults *f) {
    if (f->spare) return SPARE;
    if (f->range || f->strangers || f->times > LAST_TIME) return RANGE;
    return (f->table & GUARD) == GUARD ? 0 : TABLE;
}

/* The first refusal of all records with the lowest that has it: none before it has a lesser number, so it is the first
 * of that record too. */
static __attribute__((cold, noinline)) fast_fault fault_of_image(uint32_t number, const shape *s,
                                                                 const uint8_t *image) {
    for (uint32_t a = 0; a < s->n; a++) {
        faults own = none;
        add_record(&own, s, record_of(s, image, a));
        if (first_of(&own) == number) return (fast_fault){number, a};
    }
    return alone(number);
}

/* Refusals 1 to 7; the shape, and what the order reads. */
static inline fast_fault gather(const uint8_t *image, size_t length, shape *s, actions *of) {
    uint32_t number = image_shape(image, length, s);
    if (number) return alone(number);
    faults all = none;
    all.spare = image[5] & 7;
    const uint8_t *record = image + 6;
    for (uint32_t a = 0; a < s->n; a++, record += s->stride) {
        of->masks[a] = get64(record);
        of->deadlines[a] = deadline_of(s, get32(record + 8));
        of->worst[a] = worst_in(pair_of(record, 0));
        add_record(&all, s, record);
    }
    number = first_of(&all);
    return number ? fault_of_image(number, s, image) : alone(0);
}

/* Refusals 1 to 9; the shape and the order (room for 64) of an accepted image. */
static fast_fault examine(const uint8_t *image, size_t length, shape *s, uint8_t *order) {
    actions of;
    fast_fault refusal = gather(image, length, s, &of);
    return refusal.number ? refusal : arrange(&of, s->n, order);
}

fast_fault fast_check(const uint8_t *image, size_t length, fast_counts *counts) {
    shape s;
    uint8_t order[64];
    fast_fault refusal = examine(image, length, &s, order);
    if (!refusal.number) *counts = (fast_counts){s.n, s.levels, s.cycle};
    return refusal;
}

fast_fault fast_read(const uint8_t *image, size_t length, uint64_t *restrict masks, size_t masks_room,
                     uint32_t *restrict deadlines, size_t deadlines_room, uint32_t *restrict averages,
                     size_t averages_room, uint32_t *restrict worst, size_t worst_room, fast_counts *counts) {
    shape s;
    uint8_t order[64];
    fast_fault refusal = examine(image, length, &s, order);
    if (refusal.number) return refusal;
    size_t cells = (size_t)s.n * s.levels;
    if (masks_room < s.n || deadlines_room < s.n || averages_room < cells || worst_room < cells) return alone(ROOM);
    const uint8_t *record = image + 6;
    for (uint32_t a = 0; a < s.n; a++, record += s.stride) {
        masks[a] = get64(record);
        deadlines[a] = get32(record + 8) >> 2;
        for (const uint8_t *at = record + 10, *end = record + s.stride - 2; at < end; at += 6) {
            uint64_t pair = get_pair(at);
            *averages++ = average_in(pair);
            *worst++ = worst_in(pair);
        }
    }
    *counts = (fast_counts){s.n, s.levels, s.cycle};
    return alone(0);
}

/* The tables of a writing. */
typedef struct {
    const uint64_t *masks;
    const uint32_t *deadlines, *averages, *worst;
} tables;

/* Joins those of an action's rows. */
static inline void add_rows(faults *f, const shape *s, const tables *of, uint32_t a) {
    uint64_t before = 0;
    f->strangers |= of->masks[a] & ~present(s->n);
    f->range |= of->deadlines[a] > s->cycle;
    for (size_t cell = (size_t)a * s->levels, end = cell + s->levels; cell < end; cell++) {
        uint64_t pair = make_pair(of->averages[cell], of->worst[cell]);
        f->times |= of->averages[cell] | of->worst[cell];
        f->table &= kept(pair, before);
        before = pair;
    }
}

/* As of an image. */
static __attribute__((cold, noinline)) fast_fault fault_of_tables(uint32_t number, const shape *s, const tables *of) {
    for (uint32_t a = 0; a < s->n; a++) {
        faults own = none;
        add_rows(&own, s, of, a);
        if (first_of(&own) == number) return (fast_fault){number, a};
    }
    return alone(number);
}

/* Refusals 6 to 9 of a writing. */
static fast_fault judge(const shape *s, const tables *from) {
    actions of;
    uint8_t order[64];
    faults all = none;
    for (uint32_t a = 0; a < s->n; a++) {
        of.masks[a] = from->masks[a];
        of.deadlines[a] = from->deadlines[a] ? from->deadlines[a] : s->cycle;
        of.worst[a] = from->worst[(size_t)a * s->levels];
        add_rows(&all, s, from, a);
    }
    uint32_t number = first_of(&all);
    return number ? fault_of_tables(number, s, from) : arrange(&of, s->n, order);
}

fast_fault fast_write(size_t n, size_t levels, uint32_t cycle, const uint64_t *restrict masks, size_t masks_room,
                      const uint32_t *restrict deadlines, size_t deadlines_room, const uint32_t *restrict averages,
                      size_t averages_room, const uint32_t *restrict worst, size_t worst_room, uint8_t *restrict image,
                      size_t room, size_t *written) {
    shape s;
    if (!make_shape(&s, n, levels, cycle)) return alone(COUNT);
    size_t cells = n * levels, bytes = shape_bytes(&s);
    if (masks_room < n || deadlines_room < n || averages_room < cells || worst_room < cells || room < bytes)
        return alone(ROOM);
    fast_fault refusal = judge(&s, &(tables){masks, deadlines, averages, worst});
    if (refusal.number) return refusal;
    put32(image, UINT32_C(1) << 28 | s.n << 21 | s.levels << 17 | cycle >> 13);
    image[4] = (uint8_t)(cycle >> 5);
    image[5] = (uint8_t)(cycle << 3);
    uint8_t *at = image + 6;
    for (uint32_t a = 0; a < n; a++) {
        put64(at, masks[a]);
        put32(at + 8, deadlines[a] << 2);
        at += 12;
        for (uint32_t q = 0; q < levels; q++, at += 6) {
            uint64_t pair = (uint64_t)*averages++ << 24 | *worst++;
            put32(at, (uint32_t)(pair >> 16));
            at[4] = (uint8_t)(pair >> 8);
            at[5] = (uint8_t)pair;
        }
    }
    *written = bytes;
    return alone(0);
}

fast_fault fast_lookup(const uint8_t *image, size_t length, size_t action, const uint8_t **part, size_t *part_length) {
    shape s;
    uint8_t order[64];
    fast_fault refusal = examine(image, length, &s, order);
    if (!refusal.number && action >= s.n) refusal = alone(NAME);
    *part = refusal.number ? image : record_of(&s, image, (uint32_t)action);
    *part_length = refusal.number ? 0 : s.stride;
    return refusal;
}

/* ---- Planner ---- */

/* Four bounds at once. */
typedef int32_t four __attribute__((vector_size(16)));

static inline four get4(const int32_t *at) {
    four lanes;
    memcpy(&lanes, at, sizeof lanes);
    return lanes;
}

/* bound(i,q,r) = min(limit(i,q), bound(i+1,q,r-1) - worst(i,q)), from the same level's row at the next position. */
static inline void coast_row(int32_t limit, int32_t worst, const int32_t *after, int32_t *bounds) {
    static const uint32_t starts[4] = {0, 4, 8, 11};
    four least = {limit, limit, limit, limit}, less = {worst, worst, worst, worst};
    four absent = {ABSENT, ABSENT, ABSENT, ABSENT};
    bounds[0] = limit;
    for (uint32_t part = 0; part < 4; part++) {
        four next = get4(after + starts[part]), gone = next == absent;
        /* An absent bound stays as it is: nothing is taken from it, and the limit is never below it. */
        four through = next - (less & ~gone), lower = through < least;
        four bound = (through & lower) | (least & ~lower);
        memcpy(bounds + 1 + starts[part], &bound, sizeof bound);
    }
}

static void last_coast_row(int32_t limit, int32_t *bounds) {
    bounds[0] = limit;
    for (uint32_t r = 1; r < COAST; r++) bounds[r] = ABSENT;
}

static inline bool policy_known(uint32_t policy) { return policy == MIXED || policy == APART; }

/* limit(i,q) = min(min(deadline(i), after(0)) - worst(i,q), min(deadline(i), after(q)) - average(i,q)); none past the end.
 * The second part is the average test. Above level 0 it is what goes on to the row before where the tests are apart; else
 * the limit does, and the deadline needs no second look, as it is in the first part with a worst time. At level 0 the
 * limit goes on in both. */
static inline __attribute__((always_inline)) void fill_rows(const uint8_t *image, const shape *s,
                                                            const uint8_t *arranged, int32_t *restrict limits,
                                                            uint32_t *restrict worst, int32_t *restrict bounds,
                                                            bool apart) {
    uint32_t n = s->n, levels = s->levels;
    int32_t after[8];
    for (uint32_t q = 0; q < 8; q++) after[q] = INT32_MAX;
    for (uint32_t i = n; i-- > 0;) {
        const uint8_t *record = record_of(s, image, arranged[i]);
        int32_t deadline = (int32_t)deadline_of(s, get32(record + 8));
        int32_t latest = after[0] < deadline ? after[0] : deadline;
        const uint8_t *at = record + 10;
        size_t row = (size_t)i * levels;
        for (uint32_t q = 0; q < levels; q++, at += 6) {
            uint64_t pair = get_pair(at);
            int32_t longest = (int32_t)worst_in(pair), next = apart && deadline < after[q] ? deadline : after[q];
            int32_t limit = latest - longest, by_average = next - (int32_t)average_in(pair);
            if (by_average < limit) limit = by_average;
            after[q] = apart && q > 0 ? by_average : limit;
            limits[row + q] = limit;
            worst[row + q] = (uint32_t)longest;
            int32_t *cell = bounds + (row + q) * COAST;
            if (i + 1 < n)
                coast_row(limit, longest, cell + levels * COAST, cell);
            else
                last_coast_row(limit, cell);
        }
    }
}

/* The tables of an accepted image, if there is room for them. */
static inline bool fill(const uint8_t *image, const shape *s, uint32_t policy, const uint8_t *arranged,
                        uint8_t *restrict order, size_t order_room, int32_t *restrict limits, size_t limits_room,
                        uint32_t *restrict worst, size_t worst_room, int32_t *restrict bounds, size_t bounds_room) {
    size_t cells = (size_t)s->n * s->levels;
    if (order_room < s->n || limits_room < cells || worst_room < cells || bounds_room < cells * COAST) return false;
    memcpy(order, arranged, s->n);
    if (policy == APART)
        fill_rows(image, s, arranged, limits, worst, bounds, true);
    else
        fill_rows(image, s, arranged, limits, worst, bounds, false);
    return true;
}

fast_fault fast_plan(const uint8_t *image, size_t length, uint32_t policy, uint8_t *restrict order, size_t order_room,
                     int32_t *restrict limits, size_t limits_room, uint32_t *restrict worst, size_t worst_room,
                     int32_t *restrict bounds, size_t bounds_room, fast_counts *counts) {
    shape s;
    uint8_t arranged[64];
    fast_fault refusal = examine(image, length, &s, arranged);
    if (refusal.number) return refusal;
    if (!policy_known(policy)) return alone(POLICY);
    if (!fill(image, &s, policy, arranged, order, order_room, limits, limits_room, worst, worst_room, bounds,
              bounds_room))
        return alone(ROOM);
    *counts = (fast_counts){s.n, s.levels, s.cycle};
    return alone(0);
}

/* ---- Run ---- */

static inline bool in_range(const fast_run *run) {
    /* 64-bit sums: any field may hold any value. */
    uint64_t reached = (uint64_t)run->position + run->running;
    return shape_fits(run->n, run->levels) && reached <= run->n && run->clock <= LAST_CLOCK &&
           run->level < run->levels && run->left <= 15 && run->left + reached <= run->n &&
           run->decisions <= reached;
}

typedef struct {
    uint32_t level, grant;
    bool late;
} decision;

/* Limits and coast bounds from a position on, of `rows` positions in all. */
static inline decision decide(uint32_t levels, uint32_t rows, const int32_t *limits, const int32_t *rows_bounds, uint32_t clock) {
    int32_t t = (int32_t)clock;
    decision d = {levels, 1, false};
    while (d.level > 0 && t > limits[d.level - 1]) d.level--;
    d.late = d.level == 0;
    d.level -= !d.late;
    const int32_t *bounds = rows_bounds + d.level * COAST;
    uint32_t most = rows < COAST ? rows : COAST;
    if (d.level + 1 == levels) {
        while (most > 1 && t > bounds[most - 1]) most--;
        d.grant = most;
    } else {
        /* Up to the first position whose next level fits. */
        const int32_t *above = limits + d.level + 1;
        for (uint32_t r = 0; r < most && t > *above; r++, above += levels)
            if (t <= bounds[r]) d.grant = r + 1;
    }
    return d;
}

uint32_t fast_start(fast_run *run, size_t n, size_t levels) {
    if (!shape_fits(n, levels)) {
        *run = (fast_run){0};
        return COUNT;
    }
    *run = (fast_run){.n = (uint32_t)n, .levels = (uint32_t)levels};
    return 0;
}

uint32_t fast_ask(fast_run *run, const uint8_t *order, size_t order_room, const int32_t *limits, size_t limits_room,
                  const int32_t *bounds, size_t bounds_room, fast_given *given) {
    if (!in_range(run)) return TURN;
    size_t cells = (size_t)run->n * run->levels;
    if (order_room < run->n || limits_room < cells || bounds_room < cells * COAST) return ROOM;
    if (run->running) return TURN;
    if (run->position == run->n) return FINISHED;
    uint32_t action = order[run->position];
    run->running = true;
    if (run->left > 0) {
        run->left--;
        *given = (fast_given){action, run->level, false, false};
        return 0;
    }
    size_t row = (size_t)run->position * run->levels;
    decision d = decide(run->levels, run->n - run->position, limits + row, bounds + row * COAST, run->clock);
    run->level = d.level;
    run->left = d.grant - 1;
    run->decisions++;
    run->late |= d.late;
    *given = (fast_given){action, d.level, true, d.late};
    return 0;
}

uint32_t fast_report(fast_run *run, uint32_t clock, const uint32_t *worst, size_t worst_room) {
    if (!in_range(run)) return TURN;
    if (worst_room < (size_t)run->n * run->levels) return ROOM;
    if (!run->running) return TURN;
    if (clock < run->clock) return BACK;
    if (clock > LAST_CLOCK) return CLOCK;
    if (clock - run->clock > worst[(size_t)run->position * run->levels + run->level]) {
        run->overrun = true;
        run->left = 0;
    }
    run->position++;
    run->clock = clock;
    run->running = false;
    return 0;
}

uint32_t fast_dry_run(size_t n, size_t levels, const int32_t *limits, size_t limits_room, const uint32_t *worst,
                      size_t worst_room, const int32_t *bounds, size_t bounds_room, const uint32_t *durations,
                      size_t durations_room, uint8_t *restrict given, size_t given_room, uint8_t *restrict marks,
                      size_t marks_room, fast_dried *dried) {
    if (!shape_fits(n, levels)) return COUNT;
    size_t cells = n * levels;
    if (limits_room < cells || worst_room < cells || bounds_room < cells * COAST || durations_room < cells ||
        given_room < n || marks_room < n)
        return ROOM;
    uint32_t all = 0;
    for (size_t cell = 0; cell < cells; cell++) all |= durations[cell];
    if (all > LAST_TIME) return DURATION;
    fast_dried c = {0};
    for (uint32_t i = 0; i < n;) {
        size_t row = (size_t)i * levels;
        decision d = decide((uint32_t)levels, (uint32_t)n - i, limits + row, bounds + row * COAST, c.end);
        c.decisions++;
        c.late |= d.late;
        uint8_t mark = 1;
        /* An overrun cancels the rest of the coast. */
        for (uint32_t left = d.grant; left > 0; left--, i++) {
            size_t cell = (size_t)i * levels + d.level;
            given[i] = (uint8_t)d.level;
            marks[i] = mark;
            mark = 0;
            c.end += durations[cell];
            if (durations[cell] > worst[cell]) {
                c.overrun = true;
                left = 1;
            }
        }
    }
    *dried = c;
    return 0;
}

/* ---- Recordings ---- */

fast_fault fast_open_recording(const uint8_t *image, size_t length, uint32_t policy, size_t bytes,
                               uint8_t *restrict order, size_t order_room, int32_t *restrict limits, size_t limits_room,
                               uint32_t *restrict worst, size_t worst_room, int32_t *restrict bounds,
                               size_t bounds_room, fast_opened *opened) {
    shape s;
    uint8_t arranged[64];
    fast_fault refusal = examine(image, length, &s, arranged);
    if (refusal.number) return refusal;
    if (!policy_known(policy)) return alone(POLICY);
    size_t frame_bytes = (size_t)4 * s.n * s.levels, frames = bytes / frame_bytes;
    if (bytes % frame_bytes != 0 || frames > FRAMES) return alone(TRACE);
    if (!fill(image, &s, policy, arranged, order, order_room, limits, limits_room, worst, worst_room, bounds,
              bounds_room))
        return alone(ROOM);
    *opened = (fast_opened){s.n, s.levels, frame_bytes, frames};
    return alone(0);
}

/* The product stays within 32 bits where the frames are within their range. */
static inline bool totals_in_range(const fast_totals *totals) {
    return totals->frames <= FRAMES && totals->decisions <= 64 * totals->frames &&
           totals->overruns <= totals->frames && totals->lates <= totals->frames;
}

/* Four entries as they lie. */
static inline four get_entries(const uint8_t *at) {
    four lanes;
    memcpy(&lanes, at, sizeof lanes);
    return lanes;
}

/* Whether an entry is too long. Entries are joined as they lie, sixteen at once in sets that do not wait for each
 * other, and swapped once, at the end. */
static inline bool too_long(const uint8_t *frame, size_t cells) {
    four sets[4] = {{0}, {0}, {0}, {0}};
    const uint8_t *at = frame, *end = frame + 4 * cells;
    for (; end - at >= 64; at += 64)
        for (uint32_t set = 0; set < 4; set++) sets[set] |= get_entries(at + 16 * set);
    for (; end - at >= 16; at += 16) sets[0] |= get_entries(at);
    four joined = (sets[0] | sets[1]) | (sets[2] | sets[3]);
    uint32_t all = (uint32_t)(joined[0] | joined[1] | joined[2] | joined[3]);
    for (; at < end; at += 4) {
        uint32_t entry;
        memcpy(&entry, at, sizeof entry);
        all |= entry;
    }
    return __builtin_bswap32(all) > LAST_TIME;
}

/* The dry run of a frame whose entries are not too long, where it lies. A level is given at a decision and kept by its
 * coast, so the lowest of the decisions is the lowest of all. */
static inline fast_line run_frame(uint32_t n, uint32_t levels, const int32_t *limits, const uint32_t *worst,
                                  const int32_t *bounds, const uint8_t *frame) {
    fast_line line = {.lowest = UINT32_MAX};
    for (uint32_t i = 0; i < n;) {
        size_t row = (size_t)i * levels;
        decision d = decide(levels, n - i, limits + row, bounds + row * COAST, line.end);
        line.decisions++;
        line.late |= d.late;
        if (d.level < line.lowest) line.lowest = d.level;
        uint32_t last = i + d.grant;
        for (size_t cell = row + d.level; i < last; cell += levels) {
            uint32_t duration = get32(frame + 4 * cell);
            line.end += duration;
            i++;
            /* An overrun cancels the rest of the coast. */
            if (duration > worst[cell]) {
                line.overrun = true;
                break;
            }
        }
    }
    return line;
}

uint32_t fast_rehearse(fast_totals *totals, size_t n, size_t levels, const int32_t *limits, size_t limits_room,
                       const uint32_t *worst, size_t worst_room, const int32_t *bounds, size_t bounds_room,
                       const uint8_t *frame, size_t frame_room, fast_line *line) {
    if (!totals_in_range(totals)) return TURN;
    if (totals->frames == FRAMES) return TRACE;
    if (!shape_fits(n, levels)) return COUNT;
    size_t cells = n * levels;
    if (limits_room < cells || worst_room < cells || bounds_room < cells * COAST || frame_room < 4 * cells) return ROOM;
    if (too_long(frame, cells)) return DURATION;
    fast_line ran = run_frame((uint32_t)n, (uint32_t)levels, limits, worst, bounds, frame);
    totals->frames++;
    totals->decisions += ran.decisions;
    totals->overruns += ran.overrun;
    totals->lates += ran.late;
    *line = ran;
    return 0;
}

/* ---- A body repeated ---- */

/* Refusals 1 to 8, 19, 9; the shape and the order (room for 64) of an accepted body. */
static fast_fault examine_body(const uint8_t *image, size_t length, uint32_t repeats, shape *s, uint8_t *order) {
    actions of;
    fast_fault refusal = gather(image, length, s, &of);
    if (refusal.number) return refusal;
    /* Whether the body alone is unfit is of no account: the order is made all the same. */
    refusal = arrange(&of, s->n, order);
    if (refusal.number == LOOP) return refusal;
    uint32_t differ = 0;
    uint64_t end = 0;
    for (uint32_t a = 0; a < s->n; a++) {
        differ |= of.deadlines[a] ^ s->cycle;
        end += of.worst[a];
    }
    if (differ || repeats - 1 >= MOST_REPEATS) return alone(REPEATS);
    /* Its order is the body's, repeat by repeat, and the last action ends last. */
    return alone(repeats * end > s->cycle ? UNFIT : 0);
}

/* From the last position back: A, W and V add up; M is the greater of this worst time before the others at level 0, and
 * this average before their M. Where the tests are apart the first of these is the third number. */
static inline __attribute__((always_inline)) void sum_up(const uint8_t *image, const shape *s, const uint8_t *arranged,
                                                         uint32_t *restrict summaries, uint32_t *restrict worst,
                                                         bool apart) {
    uint32_t levels = s->levels, lowest = 0, averages[8] = {0}, mixes[8] = {0}, worsts[8] = {0};
    for (uint32_t i = s->n; i-- > 0;) {
        const uint8_t *record = record_of(s, image, arranged[i]), *at = record + 10;
        uint32_t *row = worst + (size_t)i * levels, *entry = summaries + (size_t)i * levels * NUMBERS;
        uint32_t after = lowest;
        lowest += worst_in(get_pair(at));
        for (uint32_t q = 0; q < levels; q++, at += 6, entry += NUMBERS) {
            uint64_t pair = get_pair(at);
            uint32_t safe = worst_in(pair) + after, mixed = average_in(pair) + mixes[q];
            averages[q] += average_in(pair);
            mixes[q] = apart || safe > mixed ? safe : mixed;
            row[q] = worst_in(pair);
            entry[0] = averages[q];
            entry[1] = lowest;
            entry[2] = mixes[q];
            entry[3] = worsts[q] += worst_in(pair);
        }
    }
}

static inline void fill_body(const uint8_t *image, const shape *s, uint32_t policy, const uint8_t *arranged,
                             uint32_t *restrict summaries, uint32_t *restrict worst) {
    if (policy == APART)
        sum_up(image, s, arranged, summaries, worst, true);
    else
        sum_up(image, s, arranged, summaries, worst, false);
}

fast_fault fast_plan_body(const uint8_t *image, size_t length, uint32_t repeats, uint32_t policy,
                          uint8_t *restrict order, size_t order_room, uint32_t *restrict summaries, size_t summaries_room,
                          uint32_t *restrict worst, size_t worst_room, fast_body *body) {
    shape s;
    uint8_t arranged[64];
    fast_fault refusal = examine_body(image, length, repeats, &s, arranged);
    if (refusal.number) return refusal;
    if (!policy_known(policy)) return alone(POLICY);
    size_t cells = (size_t)s.n * s.levels;
    if (order_room < s.n || summaries_room < cells * NUMBERS || worst_room < cells) return alone(ROOM);
    memcpy(order, arranged, s.n);
    fill_body(image, &s, policy, arranged, summaries, worst);
    *body = (fast_body){s.n, s.levels, s.cycle, repeats, policy};
    return alone(0);
}

/* Whether neither 3 nor 19 applies, which is all that a record is held to. n lies beside the levels: a 0 borrows, and
 * leaves a bit that must be none. */
static inline bool body_counts(const fast_body *body) {
    uint64_t shape = ((uint64_t)body->levels << 32 | body->n) - (UINT64_C(1) << 32 | 1);
    return (shape & ~(UINT64_C(7) << 32 | 63)) == 0 && body->cycle - 1 < LAST_CLOCK && body->repeats - 1 < MOST_REPEATS;
}

static inline bool body_fits(const fast_body *body) { return body_counts(body) && policy_known(body->policy); }

/* 3, 19 and 20, of a body that does not fit. */
static inline uint32_t body_refusal(const fast_body *body) {
    if (!shape_fits(body->n, body->levels) || body->cycle - 1 >= LAST_CLOCK) return COUNT;
    return body->repeats - 1 >= MOST_REPEATS ? REPEATS : POLICY;
}

/* What the whole bodies after one add at a level: the first to the third number, the second to A; the greater sum is what
 * the limit takes off the cycle. Mixed, the second adds their M; apart, their averages. */
typedef struct {
    int64_t to_mix, to_average;
} after;

static inline __attribute__((always_inline)) after after_of(const uint32_t *summaries, uint32_t level, uint32_t bodies,
                                                            bool apart) {
    const uint32_t *whole = summaries + level * NUMBERS;
    if (apart) return (after){(int64_t)bodies * whole[1], (int64_t)bodies * whole[0]};
    uint32_t greater = whole[0] > whole[1] ? whole[0] : whole[1];
    /* Without a body after it no sum of the second kind counts. */
    int64_t to_average = bodies ? whole[2] + (int64_t)(bodies - 1) * greater : INT64_MIN / 2;
    return (after){(int64_t)bodies * whole[1], to_average};
}

/* What is taken off the cycle from an entry's position on. */
static inline int64_t taken_of(const uint32_t *entry, after a) {
    int64_t safe = entry[2] + a.to_mix, mixed = entry[0] + a.to_average;
    return safe > mixed ? safe : mixed;
}

/* What a coast at a level must have room for at its last position: the worst times before that, as V has them, 0 at the
 * least, and what is taken off from it on. */
static inline __attribute__((always_inline)) int64_t last_reach(fast_body body, const uint32_t *summaries,
                                                                uint32_t place, uint32_t bodies, uint32_t level,
                                                                uint32_t length, bool apart) {
    uint32_t ahead = place + length - 1;
    /* Of a body that is no shorter than a coast at most one is passed: there is nothing to divide. */
    uint32_t passed = ahead < body.n ? 0 : body.n >= COAST ? 1 : ahead / body.n, last = ahead - passed * body.n;
    const uint32_t *here = summaries + (place * body.levels + level) * NUMBERS;
    const uint32_t *there = summaries + (last * body.levels + level) * NUMBERS;
    int64_t spent = here[3] + (int64_t)passed * summaries[level * NUMBERS + 3] - there[3];
    return (spent > 0 ? spent : 0) + taken_of(there, after_of(summaries, level, bodies - passed, apart));
}

uint32_t fast_body_limit(const fast_body *lent, const uint32_t *summaries, size_t summaries_room, size_t position,
                         size_t level, int64_t *limit) {
    if (!body_fits(lent)) return body_refusal(lent);
    fast_body body = *lent;
    if (summaries_room < (size_t)body.n * body.levels * NUMBERS) return ROOM;
    if (position >= (size_t)body.n * body.repeats || level >= body.levels) return READING;
    uint32_t repeat = (uint32_t)position / body.n, place = (uint32_t)position - repeat * body.n;
    after a = after_of(summaries, (uint32_t)level, body.repeats - 1 - repeat, body.policy == APART);
    *limit = body.cycle - taken_of(summaries + (place * body.levels + (uint32_t)level) * NUMBERS, a);
    return 0;
}

/* The bound of a coast that is there. At the top level one that is as long as there may be, `longest`, is read by its ends
 * too. */
static inline __attribute__((always_inline)) int64_t bound_of(fast_body body, const uint32_t *summaries,
                                                              const uint32_t *worst, uint32_t position, uint32_t level,
                                                              uint32_t length, bool longest, bool apart) {
    uint32_t repeat = position / body.n, place = position - repeat * body.n;
    uint32_t bodies = body.repeats - 1 - repeat, left = length;
    int64_t most = INT64_MIN, spent = 0, ends = INT64_MAX;
    if (longest && level + 1 == body.levels) {
        const uint32_t *here = summaries + (place * body.levels + level) * NUMBERS;
        int64_t first = taken_of(here, after_of(summaries, level, bodies, apart));
        ends = last_reach(body, summaries, place, bodies, level, left, apart);
        if (first > ends) ends = first;
    }
    for (;; place = 0, bodies--) {
        after a = after_of(summaries, level, bodies, apart);
        uint32_t end = left < body.n - place ? place + left : body.n;
        left -= end - place;
        for (size_t cell = (size_t)place * body.levels + level; place < end; place++, cell += body.levels) {
            int64_t through = spent + taken_of(summaries + cell * NUMBERS, a);
            if (through > most) most = through;
            spent += worst[cell];
        }
        if (left == 0) break;
    }
    return body.cycle - (most < ends ? most : ends);
}

uint32_t fast_body_bound(const fast_body *lent, const uint32_t *summaries, size_t summaries_room,
                         const uint32_t *worst, size_t worst_room, size_t position, size_t level, size_t length,
                         int64_t *bound) {
    if (!body_fits(lent)) return body_refusal(lent);
    fast_body body = *lent;
    size_t cells = (size_t)body.n * body.levels, positions = (size_t)body.n * body.repeats;
    if (summaries_room < cells * NUMBERS || worst_room < cells) return ROOM;
    if (position >= positions || level >= body.levels || length - 1 >= COAST) return READING;
    if (positions - position < length) {
        *bound = INT64_MIN;
        return 0;
    }
    uint32_t at = (uint32_t)position, q = (uint32_t)level, r = (uint32_t)length;
    bool longest = length == COAST || length == positions - position;
    *bound = body.policy == APART ? bound_of(body, summaries, worst, at, q, r, longest, true)
                                  : bound_of(body, summaries, worst, at, q, r, longest, false);
    return 0;
}

/* What the rest of a body may come to: the third number at most `mix`, and the averages at most `average`, which mixed are
 * of no account without a body after it. */
typedef struct {
    int64_t mix, average;
} room;

/* More than any average. */
#define AMPLE (INT64_MAX / 2)

static inline __attribute__((always_inline)) room room_before(const uint32_t *summaries, uint32_t level,
                                                              uint32_t bodies, int64_t left, bool apart) {
    after a = after_of(summaries, level, bodies, apart);
    return (room){left - a.to_mix, apart || bodies ? left - a.to_average : AMPLE};
}

/* Before one body fewer: it gives back what it took. */
static inline __attribute__((always_inline)) room room_nearer(const uint32_t *summaries, uint32_t level,
                                                              uint32_t bodies, room r, bool apart) {
    const uint32_t *whole = summaries + level * NUMBERS;
    if (apart) return (room){r.mix + whole[1], r.average + whole[0]};
    uint32_t greater = whole[0] > whole[1] ? whole[0] : whole[1];
    return (room){r.mix + whole[1], bodies == 1 ? AMPLE : r.average + greater};
}

static inline bool has_room(const uint32_t *entry, room r) { return entry[0] <= r.average && entry[2] <= r.mix; }

/* The actions up to the first that could begin too late for the level, or at which the one above fits, `most` of them at
 * the most; read at each position no coast past it qualifies. The first is known to be none. It is walked body by body,
 * with `rest` still to be looked at. */
static inline __attribute__((always_inline)) uint32_t body_coast(fast_body body, const uint32_t *summaries,
                                                                 const uint32_t *worst, uint32_t place, uint32_t bodies,
                                                                 uint32_t level, room own, room above, uint32_t most,
                                                                 bool top, bool apart) {
    uint32_t rest = most - 1;
    size_t levels = body.levels, cells = body.n * levels, entry = place * levels + level;
    own.mix -= worst[entry];
    own.average -= worst[entry];
    entry += levels;
    while (rest) {
        if (entry >= cells) {
            own = room_nearer(summaries, level, bodies, own, apart);
            if (!top) above = room_nearer(summaries, level + 1, bodies, above, apart);
            bodies--;
            entry = level;
        }
        size_t goal = entry + rest * levels, stop = goal < cells + level ? goal : cells + level;
        for (; entry < stop; entry += levels, rest--) {
            const uint32_t *sums = summaries + entry * NUMBERS;
            if (!has_room(sums, own) || (!top && has_room(sums + NUMBERS, above))) return most - rest;
            own.mix -= worst[entry];
            own.average -= worst[entry];
        }
    }
    return most;
}

/* A decision at a place of a body with so many bodies after it. */
static inline __attribute__((always_inline)) decision body_decide_by(fast_body body, const uint32_t *summaries,
                                                                     const uint32_t *worst, uint32_t place,
                                                                     uint32_t bodies, uint64_t clock, bool apart) {
    int64_t left = (int64_t)body.cycle - (int64_t)clock;
    const uint32_t *row = summaries + (size_t)place * body.levels * NUMBERS;
    for (uint32_t level = body.levels; level-- > 0;) {
        room own = room_before(summaries, level, bodies, left, apart);
        if (has_room(row + level * NUMBERS, own)) {
            uint32_t all = body.n - place + bodies * body.n, most = all < COAST ? all : COAST, grant;
            if (level + 1 < body.levels) {
                room above = room_before(summaries, level + 1, bodies, left, apart);
                grant = body_coast(body, summaries, worst, place, bodies, level, own, above, most, false, apart);
            } else if (last_reach(body, summaries, place, bodies, level, most, apart) <= left) {
                /* The longest by its ends: the level fits at the first of them already. */
                grant = most;
            } else {
                grant = body_coast(body, summaries, worst, place, bodies, level, own, own, most, true, apart);
            }
            return (decision){level, grant, false};
        }
    }
    return (decision){0, 1, true};
}

static inline __attribute__((always_inline)) decision body_decide(fast_body body, const uint32_t *summaries,
                                                                  const uint32_t *worst, uint32_t place,
                                                                  uint32_t bodies, uint64_t clock) {
    return body.policy == APART ? body_decide_by(body, summaries, worst, place, bodies, clock, true)
                                : body_decide_by(body, summaries, worst, place, bodies, clock, false);
}

static inline bool body_in_range(const fast_body_run *run) {
    /* What was stored a moment ago first; 64-bit sums: any field may hold any value. */
    uint64_t reached = (uint64_t)run->position + run->running;
    if (run->left > 15 || run->decisions > reached || run->clock > LAST_CLOCK || !body_counts(&run->body)) return false;
    return run->left + reached <= run->body.n * run->body.repeats && run->level < run->body.levels;
}

uint32_t fast_body_start(fast_body_run *run, const fast_body *body) {
    bool fits = body_fits(body);
    *run = (fast_body_run){.body = fits ? *body : (fast_body){0}};
    return fits ? 0 : body_refusal(body);
}

/* A decision is out of the way of a coast, which needs few registers. A policy that is not known is the mixed one. */
static __attribute__((noinline)) uint32_t body_give(fast_body_run *run, const uint32_t *summaries, const uint32_t *worst,
                                                    uint32_t place, uint32_t bodies, fast_given *given) {
    decision d = body_decide(run->body, summaries, worst, place, bodies, run->clock);
    run->level = d.level;
    run->left = (uint8_t)(d.grant - 1);
    run->decisions++;
    run->late |= d.late;
    given->level = d.level;
    given->decided = true;
    given->late = d.late;
    return 0;
}

uint32_t fast_body_ask(fast_body_run *run, const uint8_t *order, size_t order_room, const uint32_t *summaries,
                       size_t summaries_room, const uint32_t *worst, size_t worst_room, fast_given *given) {
    if (!body_in_range(run)) return TURN;
    fast_body body = run->body;
    size_t cells = (size_t)body.n * body.levels;
    if (order_room < body.n || summaries_room < cells * NUMBERS || worst_room < cells) return ROOM;
    if (run->running) return TURN;
    if (run->position == body.n * body.repeats) return FINISHED;
    uint32_t repeat = run->position / body.n, before = repeat * body.n, place = run->position - before;
    uint32_t action = before + order[place];
    run->running = true;
    if (run->left > 0) {
        run->left--;
        *given = (fast_given){action, run->level, false, false};
        return 0;
    }
    given->action = action;
    return body_give(run, summaries, worst, place, body.repeats - 1 - repeat, given);
}

uint32_t fast_body_report(fast_body_run *run, uint32_t clock, const uint32_t *worst, size_t worst_room) {
    if (!body_in_range(run)) return TURN;
    fast_body body = run->body;
    if (worst_room < (size_t)body.n * body.levels) return ROOM;
    if (!run->running) return TURN;
    if (clock < run->clock) return BACK;
    if (clock > LAST_CLOCK) return CLOCK;
    if (clock - run->clock > worst[run->position % body.n * body.levels + run->level]) {
        run->overrun = true;
        run->left = 0;
    }
    run->position++;
    run->clock = clock;
    run->running = false;
    return 0;
}

fast_fault fast_body_dry_frame(const uint8_t *image, size_t length, uint32_t repeats, uint32_t policy,
                               const uint32_t *durations, size_t durations_room, uint8_t *restrict order,
                               size_t order_room, uint8_t *restrict given, size_t given_room, uint8_t *restrict marks,
                               size_t marks_room, fast_body_dried *dried) {
    shape s;
    uint8_t arranged[64];
    fast_fault refusal = examine_body(image, length, repeats, &s, arranged);
    if (refusal.number) return refusal;
    if (!policy_known(policy)) return alone(POLICY);
    uint32_t n = s.n, levels = s.levels, positions = n * repeats;
    size_t entries = (size_t)positions * levels;
    if (order_room < n || given_room < positions || marks_room < positions || durations_room < entries) return alone(ROOM);
    uint32_t all = 0;
    for (size_t at = 0; at < entries; at++) all |= durations[at];
    if (all > LAST_TIME) return alone(DURATION);
    uint32_t summaries[64 * 8 * NUMBERS], worst[64 * 8];
    memcpy(order, arranged, n);
    fill_body(image, &s, policy, arranged, summaries, worst);
    fast_body body = {n, levels, s.cycle, repeats, policy};
    fast_body_dried c = {.positions = positions};
    for (uint32_t i = 0, place = 0, bodies = repeats - 1; i < positions;) {
        decision d = body_decide(body, summaries, worst, place, bodies, c.end);
        c.decisions++;
        c.late |= d.late;
        uint8_t mark = 1;
        for (uint32_t last = i + d.grant; i < last;) {
            given[i] = (uint8_t)d.level;
            marks[i] = mark;
            mark = 0;
            uint32_t duration = durations[(size_t)i * levels + d.level];
            bool over = duration > worst[place * levels + d.level];
            c.end += duration;
            i++;
            if (++place == n) {
                place = 0;
                bodies--;
            }
            /* An overrun cancels the rest of the coast. */
            if (over) {
                c.overrun = true;
                break;
            }
        }
    }
    *dried = c;
    return alone(0);
}

/* ---- Speed reading ---- */

fast_fault fast_speed_reading(const uint8_t *image, size_t length, size_t first, size_t last, size_t level,
                              uint32_t t, double *ratio) {
    shape s;
    uint8_t order[64];
    fast_fault refusal = examine(image, length, &s, order);
    if (refusal.number) return refusal;
    if (first > last || last >= s.n || level >= s.levels) return alone(READING);
    if (t > LAST_CLOCK) return alone(CLOCK);
    /* Sums over j to k of the averages, over j+1 to k of the worst times at level 0. */
    int32_t average = 0, tail = 0, margin = INT32_MIN;
    for (size_t j = last + 1; j-- > first;) {
        const uint8_t *record = record_of(&s, image, order[j]);
        uint64_t pair = pair_of(record, (uint32_t)level);
        average += (int32_t)average_in(pair);
        int32_t over = (int32_t)worst_in(pair) + tail - average;
        if (over > margin) margin = over;
        tail += (int32_t)worst_in(pair_of(record, 0));
    }
    uint32_t deadline = deadline_of(&s, get32(record_of(&s, image, order[last]) + 8));
    int64_t room = (int64_t)deadline - margin - t;
    if (room <= 0) return alone(FAST_SPENT);
    *ratio = (double)average / (double)room;
    return alone(0);
}

/* ---- Refresh ---- */

fast_fault fast_refresh(const uint8_t *image, size_t length, const uint8_t *trace, size_t trace_length,
                        uint8_t *restrict fresh, size_t room, size_t *written) {
    shape s;
    uint8_t order[64];
    fast_fault refusal = examine(image, length, &s, order);
    if (refusal.number) return refusal;
    if (trace_length % 5 != 0 || trace_length / 5 > RECORDS) return alone(TRACE);
    /* By action and level as a record packs them: the first duration that is too long, 0 where absent. */
    uint32_t ceilings[512] = {0};
    for (uint32_t a = 0; a < s.n; a++) {
        const uint8_t *record = record_of(&s, image, a);
        for (uint32_t q = 0; q < s.levels; q++) ceilings[a * 8 + q] = worst_in(pair_of(record, q)) + 1;
    }
    /* Count and sum in one word: 65,535 durations of 24 bits sum up to less than 2^40. */
    uint64_t sums[512] = {0};
    for (const uint8_t *record = trace, *end = trace + trace_length; record < end; record += 5) {
        uint32_t low = get32(record + 1), duration = low & LAST_CLOCK;
        uint32_t key = (uint32_t)(record[0] & 127) << 2 | low >> 30;
        if (duration >= ceilings[key]) return alone(ceilings[key] ? DURATION : NAME);
        /* A closed record measures 0, as one of a skipped action does, and 0 is not counted. */
        uint32_t measured = record[0] >> 7 ? duration : 0;
        sums[key] += (uint64_t)(measured != 0) << 40 | measured;
    }
    if (room < length) return alone(ROOM);
    memcpy(fresh, image, length);
    for (uint32_t a = 0; a < s.n; a++) {
        uint8_t *at = fresh + 6 + (size_t)a * s.stride + 12;
        uint32_t before = 0;
        for (uint32_t q = 0; q < s.levels; q++, at += 6) {
            uint64_t packed = sums[a * 8 + q], count = packed >> 40;
            uint32_t average = (uint32_t)at[0] << 16 | (uint32_t)at[1] << 8 | at[2];
            if (count) average = (uint32_t)((packed & ((UINT64_C(1) << 40) - 1)) / count);
            if (average > before) before = average;
            at[0] = (uint8_t)(before >> 16);
            at[1] = (uint8_t)(before >> 8);
            at[2] = (uint8_t)before;
        }
    }
    *written = length;
    return alone(0);
}
