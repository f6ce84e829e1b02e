/* Runs the loop of include/nyokazerubi.h, which host/check takes out of its comment as the file loop.inc: as C and as C++. The encoder's profile,
 * a clock that is added up, and cycles in which every action takes its average time, its worst time, no time, and too long. */
#include "loop.inc"

#include <stdio.h>
#include <stdlib.h>

static uint64_t masks[ACTIONS];
static uint32_t deadlines[ACTIONS], averages[TABLE], worst_by_action[TABLE];
static uint32_t now;
static enum { AVERAGE, WORST, NONE, TOO_LONG } pace;

static void hold(int is_so, const char *what) {
    if (is_so) return;
    printf("not so: %s\n", what);
    exit(1);
}

uint32_t encode(uint32_t action, uint32_t level) {
    size_t cell = (size_t)action * 8 + level;
    if (pace == AVERAGE) now += averages[cell];
    if (pace == WORST) now += worst_by_action[cell];
    if (pace == TOO_LONG) now += worst_by_action[cell] + 100000;
    return now;
}

int main(void) {
    static uint8_t image[NYOKAZERUBI_IMAGE_BYTES(9, 8)];
    hold(nyokazerubi_boundary() == NYOKAZERUBI_BOUNDARY, "the archive is of this header");
    hold(nyokazerubi_write_encoder(image, sizeof image).bytes == sizeof image, "the encoder's profile");
    hold(nyokazerubi_read(image, sizeof image, masks, ACTIONS, deadlines, ACTIONS, averages, TABLE, worst_by_action, TABLE).n == ACTIONS,
         "its times");
    struct nyokazerubi_planned planned = prepare(image, sizeof image);
    hold(planned.refusal.number == NYOKAZERUBI_ACCEPTED && planned.n == ACTIONS && planned.cycle == 320000, "its plan");
    hold(prepare(image, sizeof image - 1).refusal.number == NYOKAZERUBI_REFUSED_LENGTH, "a byte less");

    /* A record of memory that nothing has written yet. */
    struct nyokazerubi_run *run = (struct nyokazerubi_run *)malloc(sizeof *run);
    hold(run != NULL, "memory");
    hold(cycle(run, planned.n, planned.levels + 1) == NYOKAZERUBI_REFUSED_COUNT && run->n == 0, "9 levels");
    for (pace = AVERAGE; pace != TOO_LONG; pace = pace == AVERAGE ? WORST : pace == WORST ? NONE : TOO_LONG) {
        now = 0;
        hold(cycle(run, planned.n, planned.levels) == NYOKAZERUBI_ACCEPTED, "a cycle");
        hold(run->position == ACTIONS && run->clock == now && now <= planned.cycle, "within worst no deadline is missed");
        hold(!run->overrun && !run->late && run->decisions > 0, "its marks");
        printf("%u decisions, end %u\n", (unsigned)run->decisions, (unsigned)run->clock);
    }
    now = 0;
    hold(cycle(run, planned.n, planned.levels) == NYOKAZERUBI_ACCEPTED && run->overrun && run->late, "too long is marked");
    now = NYOKAZERUBI_LAST_CLOCK - 200000;
    hold(cycle(run, planned.n, planned.levels) == NYOKAZERUBI_REFUSED_CLOCK && run->running, "a clock too far");
    free(run);
    printf("the loop runs\n");
    return 0;
}
