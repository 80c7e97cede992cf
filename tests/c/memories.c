/* The memories: written only inside, at any alignment; what a start does to them. */
#include <stdio.h>
#include <string.h>

#include "check.h"
#include "lent.h"
#include "pool.h"

/* Three tasks allocate and free in turn, one step each, in a fixed order that fills and empties regions, with a strip
   now and then, and leave now and then. A sum of all answers stands for the run. */
static uint64_t exercise(const struct lent *lent)
{
    static uint64_t held[4096];
    unsigned count = 0;
    int allocating[3] = {0, 0, 0};
    uint64_t sum = start(lent, 3);
    for (unsigned turn = 0; turn < 60000; turn++) {
        unsigned task = turn % 3;
        uint64_t answer = step(lent, task);
        sum = sum * 31 + answer;
        if (POOL_CODE(answer) == POOL_FINISHED && allocating[task])
            held[count++] = POOL_VALUE(answer);
        if (POOL_CODE(answer) == POOL_UNDER_WAY)
            continue;
        allocating[task] = turn % 61 != 0 && (count == 0 || (turn / 6000 % 2 == 0 && count < 4000));
        if (turn % 61 == 0)
            sum += begin_leave(lent, task);
        else if (allocating[task])
            sum += begin_allocate(lent, task, turn % 7 == 0 ? 300 + turn % 4000 : turn % 5 == 0 ? 32 : 200);
        else
            sum += begin_free(lent, task, held[--count]);
    }
    return sum;
}

static void alignments(void)
{
    uint64_t first = 0;
    for (unsigned shift = 0; shift < POOL_ALIGNMENT; shift++) {
        struct lent lent = lend(3, shift);
        keep_strips(&lent);
        uint64_t sum = exercise(&lent);
        char name[80];
        if (shift == 0)
            first = sum;
        sprintf(name, "memories %u bytes past an aligned address: the same answers", shift);
        check(name, sum == first);
        sprintf(name, "memories %u bytes past an aligned address: no write outside", shift);
        check(name, guards_whole(&lent));
        sprintf(name, "memories %u bytes past an aligned address: no write in the strips", shift);
        check(name, strips_as_kept(&lent));
    }
}

/* Whether a start on a control memory filled with this byte leaves the same control memory as on zeros. */
static int same_image(uint8_t byte)
{
    static uint8_t image[POOL_CONTROL_BYTES];
    struct lent lent = lend(2, 0);
    (void)start(&lent, 5);
    memcpy(image, lent.control, sizeof image);
    memset(lent.control, byte, sizeof image);
    (void)start(&lent, 5);
    return memcmp(image, lent.control, sizeof image) == 0;
}

static void starts(void)
{
    struct lent lent = started(1, 1);
    static uint8_t area[POOL_REGION_BYTES];
    uint64_t unit = POOL_VALUE(allocate(&lent, 0, 64));
    uint64_t strip = POOL_VALUE(allocate(&lent, 0, 6400));
    keep_strips(&lent);
    memcpy(area, lent.area, sizeof area);
    check_answer("a start may come at any time", start(&lent, 8), POOL_UNDER_WAY, 0);
    check("a start leaves the area as it is", memcmp(area, lent.area, sizeof area) == 0);
    check_answer("after it the blocks of the earlier run are void", begin_free(&lent, 0, unit), POOL_NOT_A_BLOCK, 0);
    check("a start leaves the strips' memory as it is", strips_as_kept(&lent));
    check_answer("after it the strips are void, too", begin_free(&lent, 0, strip), POOL_NOT_A_BLOCK, 0);
    check_answer("after it all tasks are idle", step(&lent, 7), POOL_NO_REQUEST, 0);
    check("a start writes only the control memory", guards_whole(&lent));
    check("no byte of an earlier control memory stays", same_image(0xFF) && same_image(0x5A));
    lent = lend(1, 0);
    check_answer("a control memory of zeros is not started", step(&lent, 0), POOL_NOT_STARTED, 0);
}

void check_memories(void)
{
    alignments();
    starts();
}
