/* A task that leaves: what it returns, in which order, how many steps it takes, and what is refused meanwhile. */
#include <stdio.h>
#include <string.h>

#include "check.h"
#include "classes.h"
#include "lent.h"
#include "pool.h"
#include "refused.h"

/* First bytes of columns of the control memory, by docs/LAYOUT.md, and the entries that a task has in COUNT. */
enum { COUNT = 5248, TASK_UNIT = 5504, TASK_PLACE = 5632, TASK_CLASS = 5640, ENTRY = 2, ENTRIES = 16 };

/* The place at which all caches are empty. */
enum { LAST_STEP = 36 };

/* Leaves and answers how many steps that took; 0 where it did not finish with value 0. */
static unsigned steps_of(const struct lent *lent, uint64_t task)
{
    unsigned steps = 0;
    if (begin_leave(lent, task) != POOL_UNDER_WAY || finish(lent, task, &steps) != POOL_FINISHED)
        return 0;
    return steps;
}

/* How many blocks all caches of a task have. */
static unsigned cached(const struct lent *lent, unsigned task)
{
    unsigned sum = 0;
    for (unsigned i = 0; i < ENTRIES; i++) {
        const uint8_t *count = lent->control + COUNT + ENTRY * (ENTRIES * task + i);
        sum += count[0] + 256u * count[1];
    }
    return sum;
}

static void steps(void)
{
    struct lent lent = started(1, 2);
    check("with nothing cached the first step finishes", steps_of(&lent, 0) == 1);
    uint64_t unit = POOL_VALUE(allocate(&lent, 0, 256));
    check("fifteen blocks are cached", cached(&lent, 0) == 15);
    check("leaving returns them in 23 steps", steps_of(&lent, 0) == 23);
    check("then no block is cached", cached(&lent, 0) == 0);
    check("leaving again takes one step", steps_of(&lent, 0) == 1);
    check_answer("the block in hand is still to be freed", release(&lent, 0, unit), POOL_FINISHED, 0);
    check("leaving with it alone takes 10 steps", steps_of(&lent, 0) == 10);
    check_answer("and no block of the region is in use any more", begin_free(&lent, 0, unit), POOL_NOT_A_BLOCK, 0);
}

/* One region, which each class has in turn: the task leaves before another class is wanted. */
static void one_region_for_all(void)
{
    struct lent lent = started(1, 2);
    int served = 1;
    for (unsigned i = 0; i < CLASSES; i++) {
        uint64_t answer = allocate(&lent, 0, CLASS[i].block);
        served = served && POOL_CODE(answer) == POOL_FINISHED && release(&lent, 1, POOL_VALUE(answer)) == POOL_FINISHED
            && allocate(&lent, 1, CLASS[(i + 1) % CLASSES].block) == POOL_NO_REGION
            && leave(&lent, 0) == POOL_FINISHED && leave(&lent, 1) == POOL_FINISHED;
    }
    check("one region serves every class, if its tasks leave before the next", served);
    uint64_t unit = POOL_VALUE(allocate(&lent, 0, 8));
    (void)release(&lent, 0, unit);
    check_answer("the example of the header: nothing is held, and 16 bytes end with 13", allocate(&lent, 0, 16),
                 POOL_NO_REGION, 0);
    check_answer("the task leaves", leave(&lent, 0), POOL_FINISHED, 0);
    check("and the 16 bytes can be had", POOL_CODE(allocate(&lent, 0, 16)) == POOL_FINISHED);
}

/* All classes are cached, opened in falling order: the region of the largest is returned last and is opened first. */
static void every_class(void)
{
    struct lent lent = started(CLASSES, 1);
    unsigned due = 1;
    int rising = 1;
    for (unsigned i = CLASSES; i-- > 0;) {
        (void)release(&lent, 0, POOL_VALUE(allocate(&lent, 0, CLASS[i].block)));
        due += CLASS[i].n + 11;
    }
    check("thirteen full caches take a step for each block, 11 for each class, and one", steps_of(&lent, 0) == due);
    check("then all are empty", cached(&lent, 0) == 0);
    for (unsigned i = 0; i < CLASSES; i++)
        rising = rising && POOL_VALUE(allocate(&lent, 0, CLASS[i].block)) / REGION_UNITS == i;
    check("the smallest blocks were returned first", rising);
}

/* A cache of 512 blocks that lie by turns in sixteen FULL regions: each is returned as a group of its own. */
static void longest(void)
{
    struct lent lent = started(POOL_REGIONS_MOST, 1);
    for (unsigned i = 0; i < POOL_REGIONS_MOST * REGION_UNITS; i++)
        (void)allocate(&lent, 0, POOL_UNIT_BYTES);
    for (unsigned i = 0; i < REGION_UNITS; i++)
        (void)release(&lent, 0, i % POOL_REGIONS_MOST * REGION_UNITS + i / POOL_REGIONS_MOST);
    /* A step for each block, one that closes its group, three of its anchor; three of each region's offer; the last. */
    check("512 groups are returned in 2,609 steps", steps_of(&lent, 0) == 512 * 5 + POOL_REGIONS_MOST * 3 + 1);
}

/* Blocks and strips in hand keep every byte while their task leaves and another takes up what it left. */
static void in_hand(void)
{
    struct lent lent = started(2, 2);
    uint64_t unit = POOL_VALUE(allocate(&lent, 0, 192));
    uint64_t strip = POOL_VALUE(allocate(&lent, 0, 2000));
    uint8_t *bytes = (uint8_t *)POOL_BLOCK(lent.area, unit);
    int whole = 1;
    memset(bytes, 0x5A, 192);
    memset(POOL_STRIP(lent.strips, strip), 0x5B, 2048);
    keep_strips(&lent);
    check_answer("a task leaves that holds a block and a strip", leave(&lent, 0), POOL_FINISHED, 0);
    check_answer("another takes up the blocks that it left, the first that was carved on top", allocate(&lent, 1, 192),
                 POOL_FINISHED, 0);
    check("it has cached them all but two", cached(&lent, 1) == CLASS[LARGEST - 2].n - 2);
    for (unsigned i = 0; i < 192; i++)
        whole = whole && bytes[i] == 0x5A;
    check("the block in hand is whole", whole);
    check("the strip in hand is whole", strips_as_kept(&lent));
    check("nothing was written outside the memories", guards_whole(&lent));
    check_answer("both can be freed: the block", release(&lent, 0, unit), POOL_FINISHED, 0);
    check_answer("and the strip", release(&lent, 0, strip), POOL_FINISHED, 0);
}

/* The beginning writes the control memory alone and takes no block from a cache. */
static void beginning(void)
{
    static uint8_t area[POOL_REGION_BYTES];
    struct lent lent = started(1, 2);
    (void)allocate(&lent, 0, 256);
    memcpy(area, lent.area, sizeof area);
    check_answer("leaving begins", begin_leave(&lent, 0), POOL_UNDER_WAY, 0);
    check("its beginning leaves the area as it is", memcmp(area, lent.area, sizeof area) == 0);
    check("no block has left the cache", cached(&lent, 0) == 15);
    check_answer("another task may leave at the same time", leave(&lent, 1), POOL_FINISHED, 0);
    check_answer("and a start ends it all", start(&lent, 1), POOL_UNDER_WAY, 0);
    check_answer("after it the task is idle", step(&lent, 0), POOL_NO_REQUEST, 0);
}

/* At each place of leaving: the task has a request in hand. */
static void refused(void)
{
    struct lent lent = started(1, 1);
    unsigned made = 0;
    (void)release(&lent, 0, POOL_VALUE(allocate(&lent, 0, 256)));
    (void)begin_leave(&lent, 0);
    do {
        char name[80];
        snprintf(name, sizeof name, "after %u steps of leaving", made++);
        check_refused(name, &lent, ALLOCATE, 0, 0, POOL_REQUEST_IN_HAND);
        check_refused(name, &lent, FREE, 0, 16384, POOL_REQUEST_IN_HAND);
        check_refused(name, &lent, LEAVE, 0, 0, POOL_REQUEST_IN_HAND);
    } while (step(&lent, 0) == POOL_UNDER_WAY && made < 100);
    check("leaving with sixteen blocks takes 28 steps", made == 28);
    check_refused("after leaving", &lent, STEP, 0, 0, POOL_NO_REQUEST);
    check_answer("after leaving an allocation may begin", begin_allocate(&lent, 0, 8), POOL_UNDER_WAY, 0);
}

/* Fifteen blocks of 256 bytes and eighteen of 224 are cached. The task leaves and stands before the step that ends the
   return of those of 224. */
static struct lent before_the_end(void)
{
    struct lent lent = started(2, 1);
    (void)allocate(&lent, 0, 256);
    (void)release(&lent, 0, POOL_VALUE(allocate(&lent, 0, 224)));
    (void)begin_leave(&lent, 0);
    for (unsigned i = 0; i < CLASS[LARGEST - 1].n + 10; i++)
        (void)step(&lent, 0);
    return lent;
}

/* What the step reads that ends the return of a cache: that the task leaves, and the counts of the classes above. */
static void damaged(void)
{
    struct lent lent = before_the_end();
    lent.control[COUNT + ENTRY * LARGEST] = 17;
    check_refused("a count above n of the class above, where a cache's return ends", &lent, STEP, 0, 0, POOL_DAMAGED);
    lent.control[COUNT + ENTRY * LARGEST] = 16;
    check_answer("n is in range", step(&lent, 0), POOL_UNDER_WAY, 0);
    check("leaving goes on with the class above", lent.control[TASK_CLASS] == LARGEST);
    lent = before_the_end();
    lent.control[TASK_UNIT] = 1;
    check_refused("a unit of 16,385 where a cache's return ends", &lent, STEP, 0, 0, POOL_DAMAGED);
    lent.control[TASK_UNIT + 1] = 0xFF;
    check_refused("a unit of 65,281 where a cache's return ends", &lent, STEP, 0, 0, POOL_DAMAGED);
    lent.control[TASK_UNIT] = 0;
    lent.control[TASK_UNIT + 1] = 0x40;
    lent.control[COUNT + ENTRY * LARGEST] = 0;
    check_answer("16,384 is a task that leaves", step(&lent, 0), POOL_UNDER_WAY, 0);
    check("with nothing cached above it is before its last step", lent.control[TASK_PLACE] == LAST_STEP);
    lent.control[TASK_CLASS] = CLASSES;
    check_refused("a class past the last at the last step", &lent, STEP, 0, 0, POOL_DAMAGED);
    lent.control[TASK_CLASS] = 0;
    check_answer("the last step finishes", step(&lent, 0), POOL_FINISHED, 0);
}

void check_leaving(void)
{
    steps();
    one_region_for_all();
    every_class();
    longest();
    in_hand();
    beginning();
    refused();
    damaged();
}
