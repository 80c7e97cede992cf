/* The ends of a request that are no refusals, 12 and 13: they make their step's change and leave the task idle. */
#include "check.h"
#include "classes.h"
#include "lost.h"
#include "pool.h"

static void no_region(void)
{
    struct lent lent = started(1, 2);
    uint64_t unit = 0;
    for (unsigned i = 0; i < CLASS[LARGEST].n; i++)
        unit = POOL_VALUE(allocate(&lent, 0, CLASS[LARGEST].block));
    check_answer("one region, all held, another class wanted: no region", allocate(&lent, 1, 8), POOL_NO_REGION, 0);
    check_answer("after it the task is idle", step(&lent, 1), POOL_NO_REQUEST, 0);
    check_answer("after it the task may ask again", allocate(&lent, 1, 8), POOL_NO_REGION, 0);
    check_answer("the blocks in hand are still there to be freed", release(&lent, 1, unit), POOL_FINISHED, 0);
}

/* Allocates blocks of a size until there are no more, then frees them all. Each region that empties leaves its
   descriptor, EMPTY, on the list of its class. The answer is the one that ended the allocations. */
static uint64_t open_and_empty(const struct lent *lent, uint64_t size)
{
    static uint64_t units[POOL_REGIONS_MOST * REGION_UNITS];
    unsigned count = 0;
    uint64_t answer = allocate(lent, 0, size);
    while (POOL_CODE(answer) == POOL_FINISHED && count < POOL_REGIONS_MOST * REGION_UNITS) {
        units[count++] = POOL_VALUE(answer);
        answer = allocate(lent, 0, size);
    }
    for (unsigned i = 0; i < count; i++)
        (void)release(lent, 0, units[i]);
    return answer;
}

/* Four classes take 16, 15, 14 and 13 of the 64 descriptors, since one region stays with each class's cache; 6 are left
   for 12 regions. */
static struct lent six_descriptors_left(unsigned tasks)
{
    struct lent lent = started(POOL_REGIONS_MOST, tasks);
    check_answer("16 regions of 256-byte blocks, then no region", open_and_empty(&lent, 256), POOL_NO_REGION, 0);
    check_answer("15 of 224", open_and_empty(&lent, 224), POOL_NO_REGION, 0);
    check_answer("14 of 192", open_and_empty(&lent, 192), POOL_NO_REGION, 0);
    check_answer("13 of 160", open_and_empty(&lent, 160), POOL_NO_REGION, 0);
    return lent;
}

static void no_descriptor(void)
{
    struct lent lent = six_descriptors_left(1);
    check_answer("then the descriptors run out", open_and_empty(&lent, 128), POOL_NO_DESCRIPTOR, 0);
    check_answer("after it the task is idle", step(&lent, 0), POOL_NO_REQUEST, 0);
    check("after it freed blocks are served again", POOL_CODE(allocate(&lent, 0, 128)) == POOL_FINISHED);
}

/* The places before the exchanges that pop a spare descriptor and a spare region. */
enum { SPARE_DESCRIPTOR = 7, SPARE_REGION = 10 };

/* Task 0 notes a descriptor, and task 1 takes it, until none is left. */
static void no_descriptor_after_collisions(void)
{
    struct lent lent = six_descriptors_left(2);
    int noted = 1;
    (void)begin_allocate(&lent, 0, 128);
    for (unsigned i = 0; i < 6; i++) {
        noted = noted && stand_at(&lent, 0, SPARE_DESCRIPTOR);
        (void)allocate(&lent, 1, CLASS[i].block);
        (void)step(&lent, 0);
    }
    check("six descriptors are noted and lost", noted);
    check_lost("12 comes with the six lost exchanges", step(&lent, 0), POOL_NO_DESCRIPTOR, 0, 6);
    check_answer("after it the task is idle, and tells nothing", step(&lent, 0), POOL_NO_REQUEST, 0);
    check_answer("the next request loses nothing", allocate(&lent, 0, 128), POOL_NO_DESCRIPTOR, 0);
}

/* Task 0 notes the only region, and task 1 takes it; then both note the same head of the spare descriptors. */
static void no_region_after_collisions(void)
{
    struct lent lent = started(1, 2);
    int noted = 1;
    (void)begin_allocate(&lent, 0, 8);
    noted = noted && stand_at(&lent, 0, SPARE_REGION);
    check_answer("another task takes the region that was noted", allocate(&lent, 1, 256), POOL_FINISHED, 480);
    check_lost("13 comes with the one lost exchange", finish(&lent, 0, NULL), POOL_NO_REGION, 0, 1);
    (void)begin_allocate(&lent, 0, 8);
    noted = noted && stand_at(&lent, 0, SPARE_DESCRIPTOR);
    check_answer("another task pops and pushes a descriptor", allocate(&lent, 1, 16), POOL_NO_REGION, 0);
    check_lost("13 comes with that lost exchange", finish(&lent, 0, NULL), POOL_NO_REGION, 0, 1);
    check("each time the head was noted", noted);
}

void check_ends(void)
{
    no_region();
    no_descriptor();
    no_descriptor_after_collisions();
    no_region_after_collisions();
}
