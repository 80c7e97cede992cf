/* Sizes: which block each gets, and how much of it is wasted. */
#include "check.h"
#include "classes.h"
#include "lent.h"
#include "pool.h"

/* The bytes of the block that serves a size: the second block of a fresh pool lies just below the first. */
static uint64_t block_of(uint64_t size)
{
    struct lent lent = started(1, 1);
    uint64_t first = POOL_VALUE(allocate(&lent, 0, size));
    uint64_t second = POOL_VALUE(allocate(&lent, 0, size));
    return POOL_UNIT_BYTES * (first - second);
}

/* The rows of the paper's bench table. */
static void bench_rows(void)
{
    struct lent lent = started(1, 1);
    check_answer("bench: size 0 is refused", begin_allocate(&lent, 0, 0), POOL_SIZE_ZERO, 0);
    check("bench: size 1 gets 8 bytes", block_of(1) == 8);
    check("bench: size 9 gets 16", block_of(9) == 16);
    check("bench: size 17 gets 32", block_of(17) == 32);
    check("bench: size 65 gets 80", block_of(65) == 80);
    check("bench: size 256 gets 256", block_of(256) == 256);
    lent = started(1, 1);
    check_answer("bench: size 257 gets the first strip", allocate(&lent, 0, 257), POOL_FINISHED, 8192);
    check_answer("bench: it has 512 bytes: the next one begins behind them", allocate(&lent, 0, 257), POOL_FINISHED,
                 8192 + 512 / POOL_UNIT_BYTES);
}

static void smallest_that_holds(void)
{
    int all = 1;
    unsigned class = SMALLEST;
    for (unsigned size = 1; size <= POOL_BLOCK_MOST; size++) {
        if (size > CLASS[class].block)
            class += 1;
        all = all && block_of(size) == CLASS[class].block;
    }
    check("every size gets the smallest block that holds it", all);
}

/* Whether less than a quarter of the block is wasted. */
static int below_a_quarter(uint64_t size)
{
    return 4 * (block_of(size) - size) < block_of(size);
}

static void waste(void)
{
    int below = 1;
    for (unsigned size = 49; size <= POOL_BLOCK_MOST; size++)
        below = below && below_a_quarter(size);
    check("of every size from 49 to 256 less than a quarter of the block is wasted", below);
    check("of size 36 it is not", !below_a_quarter(36));
}

void check_sizes(void)
{
    bench_rows();
    smallest_that_holds();
    waste();
}
