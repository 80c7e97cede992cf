/*
 * How many regions a pool needs: the examples of docs/POOL.md, and its rule tried on random workloads. Under the rule
 * no request ends with 12 or 13; with one region less than it says, some do.
 */
#include <string.h>
#include "check.h"
#include "classes.h"
#include "lent.h"
#include "pool.h"

enum { TASKS = 4, USES = 3, ROWS = 4, HELD = 80, TURNS = 20000, WORKLOADS = 200 };

/* The classes with the fewest blocks in a region, so that regions fill and empty often. */
static const struct class *const table = CLASS + CLASSES - ROWS;

/* One class of a workload: which tasks use it, the most blocks at one time, and the blocks in hands. */
struct use {
    unsigned block, most, busy, count;
    int used_by[TASKS];
    uint64_t held[HELD];
};

static struct use uses[USES];
static unsigned tasks, classes;
static struct { struct use *use; int frees; } request[TASKS];

static uint64_t state;

static unsigned below(unsigned bound)
{
    state ^= state << 13;
    state ^= state >> 7;
    state ^= state << 17;
    return (unsigned)((state >> 11) % bound);
}

static void examples(void)
{
    struct lent lent = started(1, 1);
    uint64_t unit = POOL_VALUE(allocate(&lent, 0, 8));
    check_answer("regions: one region, a block of 8 bytes is freed", release(&lent, 0, unit), POOL_FINISHED, 0);
    check_answer("regions: nothing is held, and 16 bytes end with 13", allocate(&lent, 0, 16), POOL_NO_REGION, 0);

    lent = started(4, 1);
    unsigned got = 0, held = 0;
    for (const struct class *class = CLASS; class < CLASS + 4; class++) {
        got += POOL_CODE(allocate(&lent, 0, class->block)) == POOL_FINISHED;
        held += class->block;
    }
    check("regions: four sizes open four regions", got == 4);
    check("regions: 104 bytes are held", held == 104);
    check_answer("regions: the fifth size ends with 13", allocate(&lent, 0, CLASS[4].block), POOL_NO_REGION, 0);
}

/* A cache of 512 blocks that lie by turns in sixteen FULL regions: the next free returns each as a group of its own. */
static void longest_free(void)
{
    struct lent lent = started(POOL_REGIONS_MOST, 1);
    unsigned steps = 0;
    for (unsigned i = 0; i < POOL_REGIONS_MOST * REGION_UNITS; i++)
        (void)allocate(&lent, 0, POOL_UNIT_BYTES);
    for (unsigned i = 0; i < REGION_UNITS; i++)
        (void)release(&lent, 0, i % POOL_REGIONS_MOST * REGION_UNITS + i / POOL_REGIONS_MOST);
    (void)begin_free(&lent, 0, REGION_UNITS / POOL_REGIONS_MOST);
    check("regions: a free that returns 512 groups finishes", POOL_CODE(finish(&lent, 0, &steps)) == POOL_FINISHED);
    check("regions: at its step 2,610", steps == 2610);
}

/* Draws a workload; answers the number of regions by the rule: 2 x tasks - 1 + (most - 1) / n for each class. */
static unsigned draw(unsigned seed)
{
    state = 88172645463325252u + seed;
    for (unsigned i = 0; i < 8; i++)
        (void)below(2);
    memset(uses, 0, sizeof uses);
    memset(request, 0, sizeof request);
    tasks = 1 + below(TASKS);
    classes = 1 + below(USES);
    unsigned regions = 0, first = below(ROWS);
    for (unsigned i = 0; i < classes; i++) {
        struct use *use = &uses[i];
        unsigned row = (first + i) % ROWS, users = 0;
        use->block = table[row].block;
        use->most = 1 + below(HELD);
        for (unsigned t = 0; t < tasks; t++)
            users += (unsigned)(use->used_by[t] = below(3) != 0);
        if (users == 0)
            users = (unsigned)(use->used_by[0] = 1);
        regions += 2 * users - 1 + (use->most - 1) / table[row].n;
    }
    return regions;
}

/* An idle task begins a request of one of its classes, if it may: a free of one of the held blocks, or an allocation.
   It answers the beginning's code. */
static unsigned begin(const struct lent *lent, unsigned task, unsigned frees)
{
    struct use *use = &uses[below(classes)];
    if (!use->used_by[task])
        return POOL_UNDER_WAY;
    if (below(4) < frees && use->count > 0) {
        unsigned i = below(3) == 0 ? below(use->count) : below(2) * (use->count - 1);
        uint64_t unit = use->held[i];
        memmove(&use->held[i], &use->held[i + 1], (use->count - i - 1) * sizeof unit);
        use->count--;
        request[task].use = use;
        request[task].frees = 1;
        return POOL_CODE(begin_free(lent, task, unit));
    }
    if (use->busy == use->most)
        return POOL_UNDER_WAY;
    use->busy++;
    request[task].use = use;
    request[task].frees = 0;
    return POOL_CODE(begin_allocate(lent, task, use->block));
}

/* Some steps of a task that is at work; answers the code of the last. */
static unsigned work(const struct lent *lent, unsigned task)
{
    struct use *use = request[task].use;
    uint64_t answer = POOL_UNDER_WAY;
    for (unsigned steps = 1 + below(below(3) ? 4 : 40); steps > 0 && POOL_CODE(answer) == POOL_UNDER_WAY; steps--)
        answer = step(lent, task);
    if (POOL_CODE(answer) == POOL_UNDER_WAY)
        return POOL_UNDER_WAY;
    request[task].use = NULL;
    if (request[task].frees)
        use->busy--;
    else if (POOL_CODE(answer) == POOL_FINISHED)
        use->held[use->count++] = POOL_VALUE(answer);
    return POOL_CODE(answer);
}

/* Whether a workload on so many regions runs to its end: no request ends with 12 or 13, and no call is refused. */
static int runs(unsigned regions)
{
    struct lent lent = started(regions, tasks);
    unsigned frees = 2, favoured = 0;
    for (unsigned turn = 0; turn < TURNS; turn++) {
        if (below(200) == 0)
            frees = 1 + below(3);
        if (below(60) == 0)
            favoured = below(tasks);
        unsigned task = below(4) ? favoured : below(tasks);
        unsigned code = request[task].use == NULL ? begin(&lent, task, frees) : work(&lent, task);
        if (code != POOL_UNDER_WAY && code != POOL_FINISHED)
            return 0;
    }
    return 1;
}

void check_regions(void)
{
    examples();
    longest_free();
    unsigned tried = 0, ran = 0, fewer = 0, ended = 0;
    for (unsigned seed = 1; seed <= WORKLOADS; seed++) {
        unsigned regions = draw(seed);
        if (regions > POOL_REGIONS_MOST)
            continue;
        tried++;
        ran += (unsigned)runs(regions);
        if (regions == 1)
            continue;
        (void)draw(seed);
        fewer++;
        ended += (unsigned)!runs(regions - 1);
    }
    check("regions: with as many as the rule says none ends with 12 or 13", tried > WORKLOADS / 2 && ran == tried);
    check("regions: with one less some do", fewer > WORKLOADS / 2 && ended > fewer / 5);
}
