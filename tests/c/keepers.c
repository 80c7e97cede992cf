/* The region's keepers as firmware reads them: each kind, the first that applies, the lowest task and unit. */
#include "keepers.h"

#include <string.h>

#include "check.h"
#include "classes.h"

static int is_kept(unsigned region, struct keeper due)
{
    return POOL_KEEPER_KIND(row, region) == due.kind && POOL_KEEPER_TASK(row, region) == due.task
        && POOL_KEEPER_UNIT(row, region) == due.unit;
}

/* Whether the first of two regions has this keeper, and the other is spare. */
static int first_is_kept(struct keeper due)
{
    return is_kept(0, due) && is_kept(1, (struct keeper)SPARE);
}

static int both_spare(void)
{
    return first_is_kept((struct keeper)SPARE);
}

static int one_in_hand(void)
{
    return first_is_kept((struct keeper)IN_HAND(480));
}

/* Task 0 has the other fifteen in its cache, down to unit 0. */
static int fifteen_cached(void)
{
    return first_is_kept((struct keeper)IN_CACHE(0, 0));
}

/* Task 1 has in its cache the block that it freed. */
static int freed_cached(void)
{
    return first_is_kept((struct keeper)IN_CACHE(1, 480));
}

/* A region is carved upward, so that its first block in hand is its last one. */
static int one_of_each_class(void)
{
    int each = 1;
    for (unsigned i = 0; i < CLASSES; i++) {
        unsigned last = CLASS[i].block / POOL_UNIT_BYTES * (CLASS[i].n - 1);
        each = each && is_kept(i, (struct keeper)IN_HAND(REGION_UNITS * i + last));
    }
    for (unsigned region = CLASSES; region < POOL_REGIONS_MOST; region++)
        each = each && is_kept(region, (struct keeper)SPARE);
    return each;
}

const struct report KEEPERS = {
    "keepers", pool_keepers, 0, POOL_KEEPER_BYTES,
    both_spare, one_in_hand, fifteen_cached, fifteen_cached, freed_cached, one_of_each_class};

/* The row that is due, for a check by its name. */
static const struct keeper *due_row;
static unsigned due_regions;

static int as_due(void)
{
    int same = 1;
    for (unsigned region = 0; region < due_regions; region++)
        same = same && is_kept(region, due_row[region]);
    return same;
}

void check_row(const char *name, const struct lent *lent, const struct keeper *due)
{
    due_row = due;
    due_regions = (unsigned)(lent->area_length / POOL_REGION_BYTES);
    check_written(&KEEPERS, name, lent, as_due);
}

/* The bytes of the row, without the header's macros. */
static void bytes(void)
{
    static const uint8_t DUE[] = {1, 0, 0xE0, 1, 2, 3, 0, 2, 3, 2, 0, 0, 4, 0, 0, 0};
    struct lent lent = started(4, 4);
    (void)allocate(&lent, 0, 256);
    (void)release(&lent, 3, POOL_VALUE(allocate(&lent, 3, 128)));
    (void)begin_allocate(&lent, 2, 64);
    make_steps(&lent, 2, 9);
    (void)make_report(&KEEPERS, &lent, sizeof DUE);
    check("keepers: the bytes of the row", memcmp(row, DUE, sizeof DUE) == 0);
}

/* Task 0 takes so many blocks of 256 bytes, in each region from unit 480 down. */
static struct lent taken(unsigned regions, unsigned tasks, unsigned blocks)
{
    struct lent lent = started(regions, tasks);
    for (unsigned i = 0; i < blocks; i++)
        (void)allocate(&lent, 0, 256);
    return lent;
}

static void in_hand(void)
{
    static struct keeper due[POOL_REGIONS_MOST];
    struct lent lent = taken(1, 2, 3);
    check_row("three blocks in hand", &lent, &(struct keeper)IN_HAND(416));
    (void)release(&lent, 1, 416);
    check_row("the lowest one is freed", &lent, &(struct keeper)IN_HAND(448));
    lent = taken(POOL_REGIONS_MOST, 1, 16 * POOL_REGIONS_MOST);
    for (unsigned region = 0; region < POOL_REGIONS_MOST; region++)
        due[region] = (struct keeper)IN_HAND(REGION_UNITS * region);
    check_row("all blocks of sixteen regions in hand", &lent, due);
}

/* The mark of each unit of a region of 8-byte blocks, with all marks above it. */
static void every_mark(void)
{
    struct lent lent = started(2, 1);
    struct keeper due[2] = {IN_CACHE(0, 0), SPARE};
    int all = 1;
    (void)release(&lent, 0, POOL_VALUE(allocate(&lent, 0, 8)));
    check_row("no mark", &lent, due);
    for (unsigned unit = REGION_UNITS; unit-- > 0;) {
        set_mark(&lent, unit);
        due[0] = (struct keeper)IN_HAND(unit);
        (void)make_report(&KEEPERS, &lent, sizeof due);
        all = all && is_kept(0, due[0]) && is_kept(1, due[1]);
    }
    check("keepers: the mark of each unit", all);
    lent = started(2, 1);
    (void)release(&lent, 0, POOL_VALUE(allocate(&lent, 0, CLASS[3].block)));
    set_mark(&lent, 1);
    set_mark(&lent, 6 * CLASS[3].n);
    check_row("marks where no block begins, all blocks cached", &lent, (struct keeper[]){IN_CACHE(0, 0), SPARE});
}

/* Task 3 has the lowest blocks in its cache, task 1 two higher ones; task 2 those between. */
static void in_caches(void)
{
    struct lent lent = started(1, 4);
    for (unsigned i = 0; i < 4; i++)
        (void)allocate(&lent, 3, 256);
    (void)release(&lent, 2, 416);
    check_row("blocks in hand and cached", &lent, &(struct keeper)IN_HAND(384));
    (void)release(&lent, 2, 384);
    (void)release(&lent, 1, 448);
    (void)release(&lent, 1, 480);
    check_row("three tasks with cached blocks", &lent, &(struct keeper)IN_CACHE(1, 448));
    (void)leave(&lent, 1);
    check_row("two tasks with cached blocks", &lent, &(struct keeper)IN_CACHE(2, 384));
    (void)leave(&lent, 2);
    check_row("one task with cached blocks", &lent, &(struct keeper)IN_CACHE(3, 0));
}

/* Task 1 opens a region: after eight steps it has the region, after nine it is open, and the next carves a block. */
static void opening(void)
{
    struct lent lent = started(2, 2);
    (void)begin_allocate(&lent, 1, 256);
    make_steps(&lent, 1, 7);
    check_row("a region that is still on the list", &lent, (struct keeper[]){SPARE, SPARE});
    make_steps(&lent, 1, 1);
    check_row("a region that is not yet open", &lent, (struct keeper[]){BY_REQUEST(1), SPARE});
    make_steps(&lent, 1, 1);
    check_row("a region with all blocks to carve", &lent, (struct keeper[]){BY_REQUEST(1), SPARE});
    make_steps(&lent, 1, 1);
    check_row("a region with a block carved", &lent, (struct keeper[]){IN_CACHE(1, 0), SPARE});
}

/* Task 1 leaves with all blocks of a region in its cache: sixteen steps take them into the group, one closes it, three
   return it, one clears the map, three push the region. */
static void emptying(void)
{
    struct lent lent = started(1, 2);
    (void)release(&lent, 1, POOL_VALUE(allocate(&lent, 1, 256)));
    (void)begin_leave(&lent, 1);
    make_steps(&lent, 1, 15);
    check_row("a group and a cached block", &lent, &(struct keeper)IN_CACHE(1, 0));
    for (unsigned steps = 16; steps < 24; steps++) {
        make_steps(&lent, 1, 1);
        check_row("a group, then the region itself", &lent, &(struct keeper)BY_REQUEST(1));
    }
    make_steps(&lent, 1, 1);
    check_row("a region on the list again", &lent, &(struct keeper)SPARE);
}

/* A task that returns a group of one region and frees a block of another; a task that has taken a chain. */
static void under_way(void)
{
    struct lent lent = taken(2, 3, 32);
    for (unsigned unit = 512; unit < 512 + 480; unit += 32)
        (void)release(&lent, 0, unit);
    (void)leave(&lent, 0);
    for (unsigned unit = 0; unit < 512; unit += 32)
        (void)release(&lent, 1, unit);
    (void)begin_free(&lent, 1, 512 + 480);
    check_row("a block whose free has begun", &lent, (struct keeper[]){IN_CACHE(1, 0), BY_REQUEST(1)});
    make_steps(&lent, 1, 1 + 16);
    check_row("a group, and the block of the free", &lent, (struct keeper[]){BY_REQUEST(1), BY_REQUEST(1)});
    (void)begin_allocate(&lent, 0, 256);
    make_steps(&lent, 0, 1 + 3 + 1);
    check_row("a chain that is not yet taken", &lent, (struct keeper[]){BY_REQUEST(1), BY_REQUEST(1)});
    make_steps(&lent, 0, 1);
    check_row("a chain that was taken by a lower task", &lent, (struct keeper[]){BY_REQUEST(1), BY_REQUEST(0)});
    make_steps(&lent, 0, 1);
    check_row("its first block, the last freed, is moved to the cache", &lent,
              (struct keeper[]){BY_REQUEST(1), IN_CACHE(0, 512 + 448)});
}

void check_keepers(void)
{
    check_report(&KEEPERS);
    bytes();
    in_hand();
    every_mark();
    in_caches();
    opening();
    emptying();
    under_way();
    check_refused_keepers();
}
