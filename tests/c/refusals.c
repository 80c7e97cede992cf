/* The refusals in the paper's order of tests: each call here also fails the tests behind the one that refuses it.
   Start: 1, 2, 3. Other calls: 1, 4, 2, 5, then 6 or 7, then 8, 9 or 10, 11. */
#include "check.h"
#include "lent.h"
#include "pool.h"
#include "refused.h"

static struct lent with_lengths(struct lent lent, uint64_t control_length, uint64_t area_length)
{
    lent.control_length = control_length;
    lent.area_length = area_length;
    return lent;
}

static struct lent with_strips(struct lent lent, uint64_t strips_length)
{
    lent.strips_length = strips_length;
    return lent;
}

static void starts(void)
{
    struct lent lent = lend(1, 0);
    struct lent other = with_lengths(lent, 8191, 0);
    check_refused("bad control, bad area, bad tasks", &other, START, 0, 0, POOL_BAD_CONTROL);
    other = with_lengths(lent, 8192, 4097);
    check_refused("bad area, bad tasks", &other, START, 0, 0, POOL_BAD_AREA);
    other = with_strips(lent, 65535);
    check_refused("bad strips, bad tasks", &other, START, 0, 0, POOL_BAD_AREA);
    other = with_strips(with_lengths(lent, 8191, 4096), 0);
    check_refused("bad control, bad strips", &other, START, 0, 1, POOL_BAD_CONTROL);
    check_refused("no tasks", &lent, START, 0, 0, POOL_BAD_TASKS);
    check_refused("9 tasks", &lent, START, 0, 9, POOL_BAD_TASKS);
    check_refused("the greatest number of tasks", &lent, START, 0, UINT64_MAX, POOL_BAD_TASKS);
    check_refused("a number of tasks that is 1 in its low byte", &lent, START, 0, 257, POOL_BAD_TASKS);
    check_refused("a number of tasks that is 1 in its low half", &lent, START, 0, 4294967297, POOL_BAD_TASKS);
    lent = started(2, 3);
    other = with_lengths(lent, 8192, 12288);
    check_refused("no tasks, on a started pool", &other, START, 0, 0, POOL_BAD_TASKS);
    check_answer("a refused start leaves the started pool", begin_allocate(&lent, 2, 1), POOL_UNDER_WAY, 0);
}

/* Tests 1, 4, 2 and 5 of a call that is no start. The number is bad, too, for every kind of call. */
static void common_tests(enum kind kind)
{
    uint64_t bad = kind == FREE ? 16384 : 0;
    struct lent lent = lend(2, 0);
    struct lent other = with_lengths(lent, 8193, 4096);
    check_refused("bad control, not started, bad area, no such task", &other, kind, 9, bad, POOL_BAD_CONTROL);
    other = with_lengths(lent, 8192, 4095);
    check_refused("not started, bad area, no such task", &other, kind, 9, bad, POOL_NOT_STARTED);
    other = with_strips(lent, 0);
    check_refused("not started, bad strips, no such task", &other, kind, 9, bad, POOL_NOT_STARTED);
    lent = started(2, 3);
    other = with_lengths(lent, 8192, 4096);
    check_refused("not the started area, no such task", &other, kind, 9, bad, POOL_BAD_AREA);
    other = with_strips(lent, 65537);
    check_refused("bad strips, no such task", &other, kind, 9, bad, POOL_BAD_AREA);
    check_refused("no such task, bad number", &lent, kind, 3, bad, POOL_NO_SUCH_TASK);
    check_refused("the greatest task", &lent, kind, UINT64_MAX, bad, POOL_NO_SUCH_TASK);
    check_refused("a task that is 0 in its low byte", &lent, kind, 256, bad, POOL_NO_SUCH_TASK);
    check_refused("a task that is 0 in its low half", &lent, kind, 4294967296, bad, POOL_NO_SUCH_TASK);
}

static void in_hand_or_not(void)
{
    struct lent lent = started(2, 3);
    check_refused("no request", &lent, STEP, 1, 0, POOL_NO_REQUEST);
    (void)begin_allocate(&lent, 1, 16);
    check_refused("a request in hand, size 0", &lent, ALLOCATE, 1, 0, POOL_REQUEST_IN_HAND);
    check_refused("a request in hand, size 257", &lent, ALLOCATE, 1, 257, POOL_REQUEST_IN_HAND);
    check_refused("a request in hand, size 65,537", &lent, ALLOCATE, 1, 65537, POOL_REQUEST_IN_HAND);
    check_refused("a request in hand, no block", &lent, FREE, 1, 512, POOL_REQUEST_IN_HAND);
    check_refused("a request in hand, no strip", &lent, FREE, 1, 8192, POOL_REQUEST_IN_HAND);
    check_refused("a request in hand", &lent, LEAVE, 1, 0, POOL_REQUEST_IN_HAND);
    check_refused("no request, while another task has one", &lent, STEP, 0, 0, POOL_NO_REQUEST);
}

static void sizes(void)
{
    struct lent lent = started(1, 1);
    check_refused("size 0", &lent, ALLOCATE, 0, 0, POOL_SIZE_ZERO);
    check_refused("size 65,537", &lent, ALLOCATE, 0, 65537, POOL_SIZE_TOO_LARGE);
    check_refused("size 131,072", &lent, ALLOCATE, 0, 131072, POOL_SIZE_TOO_LARGE);
    check_refused("the greatest size", &lent, ALLOCATE, 0, UINT64_MAX, POOL_SIZE_TOO_LARGE);
    check_refused("a size that is 8 in its low half", &lent, ALLOCATE, 0, 4294967304, POOL_SIZE_TOO_LARGE);
    check_refused("a size that is 512 in its low two bytes", &lent, ALLOCATE, 0, 66048, POOL_SIZE_TOO_LARGE);
}

static void units(void)
{
    struct lent lent = started(2, 1);
    check_refused("a unit of a region that is not open", &lent, FREE, 0, 480, POOL_NOT_A_BLOCK);
    check_answer("a block of 256 bytes for the next checks", allocate(&lent, 0, 256), POOL_FINISHED, 480);
    check_refused("a unit inside a block", &lent, FREE, 0, 481, POOL_NOT_A_BLOCK);
    check_refused("a unit of the other region", &lent, FREE, 0, 992, POOL_NOT_A_BLOCK);
    check_refused("the first unit past the area", &lent, FREE, 0, 1024, POOL_NOT_A_BLOCK);
    check_refused("the last unit of any area", &lent, FREE, 0, 8191, POOL_NOT_A_BLOCK);
    check_refused("the first unit of the strips, all free", &lent, FREE, 0, 8192, POOL_NOT_A_BLOCK);
    check_refused("the last unit of the strips", &lent, FREE, 0, 16383, POOL_NOT_A_BLOCK);
    check_refused("the first unit past the strips", &lent, FREE, 0, 16384, POOL_NOT_A_BLOCK);
    check_refused("the greatest unit", &lent, FREE, 0, UINT64_MAX, POOL_NOT_A_BLOCK);
    check_refused("a unit that is 480 in its low half", &lent, FREE, 0, 4294967776, POOL_NOT_A_BLOCK);
    check_refused("a unit that is 480 in its low two bytes", &lent, FREE, 0, 66016, POOL_NOT_A_BLOCK);
    check_refused("a block that is in a cache", &lent, FREE, 0, 448, POOL_NOT_IN_USE);
    (void)release(&lent, 0, 480);
    check_refused("a block that was freed", &lent, FREE, 0, 480, POOL_NOT_IN_USE);
}

void check_refusals(void)
{
    starts();
    common_tests(ALLOCATE);
    common_tests(FREE);
    common_tests(LEAVE);
    common_tests(STEP);
    in_hand_or_not();
    sizes();
    units();
}
