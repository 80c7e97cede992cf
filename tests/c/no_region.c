/* What the keepers are for: a step answers POOL_NO_REGION, the row says why, and each kind of keeper has its remedy. */
#include <stdio.h>

#include "check.h"
#include "lent.h"
#include "pool.h"

static uint8_t keepers[POOL_REGIONS_MOST * POOL_KEEPER_BYTES];

/* An allocation of 8 bytes by task 0, which is to end with POOL_NO_REGION, and the keepers right after that step. */
static void check_no_region_for(const char *name, const struct lent *lent, uint64_t answer)
{
    char full[160];
    snprintf(full, sizeof full, "no region: %s", name);
    check_answer(full, answer, POOL_NO_REGION, 0);
    snprintf(full, sizeof full, "no region: %s: the row says why", name);
    check_answer(full, pool_keepers(LENT(lent), keepers, sizeof keepers), POOL_FINISHED, 0);
}

static void check_kept(const char *name, unsigned region, unsigned kind, unsigned task, unsigned unit)
{
    char full[160];
    snprintf(full, sizeof full, "no region: %s: region %u", name, region);
    check(full, POOL_KEEPER_KIND(keepers, region) == kind && POOL_KEEPER_TASK(keepers, region) == task
                    && POOL_KEEPER_UNIT(keepers, region) == unit);
}

/* One region, which task 1 has a block of. The remedy of each keeper leads to the next one. */
static void one_region(void)
{
    struct lent lent = started(1, 3);
    (void)allocate(&lent, 1, 256);
    check_no_region_for("a block in hand", &lent, allocate(&lent, 0, 8));
    check_kept("a block in hand", 0, POOL_KEPT_IN_HAND, 0, 480);
    (void)release(&lent, 2, POOL_KEEPER_UNIT(keepers, 0));
    check_no_region_for("freed by task 2", &lent, allocate(&lent, 0, 8));
    check_kept("freed by task 2", 0, POOL_KEPT_IN_CACHE, 1, 0);
    (void)leave(&lent, POOL_KEEPER_TASK(keepers, 0));
    check_no_region_for("task 1 has left", &lent, allocate(&lent, 0, 8));
    check_kept("task 1 has left", 0, POOL_KEPT_IN_CACHE, 2, 480);
    (void)begin_leave(&lent, POOL_KEEPER_TASK(keepers, 0));
    make_steps(&lent, 2, 1);
    check_no_region_for("task 2 leaves", &lent, allocate(&lent, 0, 8));
    check_kept("task 2 leaves", 0, POOL_KEPT_BY_REQUEST, 2, 0);
    (void)begin_allocate(&lent, 0, 8);
    make_steps(&lent, 0, 6);
    (void)finish(&lent, POOL_KEEPER_TASK(keepers, 0), NULL);
    check_no_region_for("task 2 left behind the read of the list", &lent, finish(&lent, 0, NULL));
    check_kept("task 2 left behind the read of the list", 0, POOL_KEPT_SPARE, 0, 0);
    check_answer("no region: asked again", allocate(&lent, 0, 8), POOL_FINISHED, 511);
}

/* Four regions with a keeper of each kind, and what the row of the next request has. */
static void four_regions(void)
{
    struct lent lent = started(4, 5);
    (void)allocate(&lent, 1, 256);
    (void)release(&lent, 2, POOL_VALUE(allocate(&lent, 2, 224)));
    (void)begin_allocate(&lent, 3, 192);
    make_steps(&lent, 3, 9);
    (void)release(&lent, 4, POOL_VALUE(allocate(&lent, 4, 160)));
    (void)begin_leave(&lent, 4);
    make_steps(&lent, 4, 25 + 1 + 3 + 1 + 2);
    (void)begin_allocate(&lent, 0, 8);
    make_steps(&lent, 0, 6);
    (void)finish(&lent, 4, NULL);
    check_no_region_for("four reasons", &lent, finish(&lent, 0, NULL));
    check_kept("four reasons", 0, POOL_KEPT_IN_HAND, 0, 480);
    check_kept("four reasons", 1, POOL_KEPT_IN_CACHE, 2, 512);
    check_kept("four reasons", 2, POOL_KEPT_BY_REQUEST, 3, 0);
    check_kept("four reasons", 3, POOL_KEPT_SPARE, 0, 0);
    check_answer("no region: the spare one is had", allocate(&lent, 0, 8), POOL_FINISHED, 4 * 512 - 1);
    (void)pool_keepers(LENT(&lent), keepers, sizeof keepers);
    check_kept("after another call", 3, POOL_KEPT_IN_HAND, 0, 4 * 512 - 1);
}

void check_no_region(void)
{
    one_region();
    four_regions();
}
