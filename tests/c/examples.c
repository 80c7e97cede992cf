/* The paper's examples: the stand's schedule, and the first allocations of the bench table. */
#include "check.h"
#include "lent.h"
#include "pool.h"

/* The schedule of the stand's example, call by call. */
static void largest_block(void)
{
    struct lent lent = lend(1, 0);
    unsigned steps;
    check_answer("example: start", start(&lent, 1), POOL_UNDER_WAY, 0);
    check_answer("example: begin to allocate 256 bytes", begin_allocate(&lent, 0, 256), POOL_UNDER_WAY, 0);
    check_answer("example: the first 256 bytes are at unit 480", finish(&lent, 0, &steps), POOL_FINISHED, 480);
    check("example: they come at step 26", steps == 26);
    check_answer("example: begin to free unit 480", begin_free(&lent, 0, 480), POOL_UNDER_WAY, 0);
    check_answer("example: one step frees it", step(&lent, 0), POOL_FINISHED, 0);
    check_answer("example: a second free is refused", begin_free(&lent, 0, 480), POOL_NOT_IN_USE, 0);
}

static void smallest_block(void)
{
    struct lent lent = started(1, 1);
    unsigned steps;
    check_answer("bench: begin to allocate 8 bytes", begin_allocate(&lent, 0, 8), POOL_UNDER_WAY, 0);
    check_answer("bench: the first 8 bytes are at unit 511", finish(&lent, 0, &steps), POOL_FINISHED, 511);
    check("bench: they come at step 522", steps == 522);
}

void check_examples(void)
{
    largest_block();
    smallest_block();
}
