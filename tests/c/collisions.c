/*
 * The exchanges of the step list, each lost a known number of times: task 0 stands before its exchange, and task 1
 * changes the head or the anchor that task 0 has noted. The step that ends task 0's request tells the number.
 */
#include <stdio.h>

#include "check.h"
#include "classes.h"
#include "lost.h"
#include "pool.h"

/* How often an exchange is lost here, one time after the other; and blocks of the largest class that task 1 holds. */
enum { LOSSES_MOST = 4, HELD = LOSSES_MOST + 2 };

/* ---- what is there before task 0 begins, and how it begins ---- */

static void hold(const struct lent *lent, uint64_t task, unsigned count)
{
    for (unsigned i = 0; i < count; i++)
        (void)allocate(lent, task, CLASS[LARGEST].block);
}

/* The unit of block i that task 1 holds: the blocks of a fresh region come from its last one down. */
static uint64_t held_unit(unsigned i)
{
    return CLASS[LARGEST].block / POOL_UNIT_BYTES * (uint64_t)(CLASS[LARGEST].n - 1 - i);
}

static void nothing_open(const struct lent *lent)
{
    (void)begin_allocate(lent, 0, CLASS[SMALLEST].block);
}

static void no_spare_region(const struct lent *lent)
{
    hold(lent, 1, 1);
    (void)begin_allocate(lent, 0, CLASS[SMALLEST].block);
}

static void partial_region(const struct lent *lent)
{
    hold(lent, 1, HELD);
    (void)leave(lent, 1);
    (void)begin_allocate(lent, 0, CLASS[LARGEST].block);
}

static void emptied_region(const struct lent *lent)
{
    hold(lent, 1, 1);
    (void)leave(lent, 1);
    (void)release(lent, 1, held_unit(0));
    (void)leave(lent, 1);
    (void)begin_allocate(lent, 0, CLASS[LARGEST].block);
}

static void all_cached(const struct lent *lent)
{
    (void)release(lent, 0, POOL_VALUE(allocate(lent, 0, CLASS[LARGEST].block)));
    (void)begin_leave(lent, 0);
}

static void all_but_one_cached(const struct lent *lent)
{
    hold(lent, 0, 1);
    (void)begin_leave(lent, 0);
}

static void one_cached_of_a_shared_region(const struct lent *lent)
{
    hold(lent, 1, HELD);
    (void)release(lent, 0, held_unit(HELD - 1));
    (void)begin_leave(lent, 0);
}

/* ---- what task 1 does, time after time ---- */

/* It opens a region of a class of its own: a spare descriptor and a spare region are popped. */
static void opens_region(const struct lent *lent, unsigned time)
{
    (void)allocate(lent, 1, CLASS[LARGEST - 1 - time].block);
}

/* It finds no region: a spare descriptor is popped and pushed back. */
static void finds_no_region(const struct lent *lent, unsigned time)
{
    (void)allocate(lent, 1, CLASS[SMALLEST + 1 + time].block);
}

/* It takes the chain of a region, or opens one, and returns what it has not taken: the partial list changes. */
static void takes_and_leaves(const struct lent *lent, unsigned time)
{
    (void)time;
    hold(lent, 1, 1);
    (void)leave(lent, 1);
}

/* It returns a block of the region: the anchor changes. */
static void returns_block(const struct lent *lent, unsigned time)
{
    (void)release(lent, 1, held_unit(time));
    (void)leave(lent, 1);
}

/* ---- the exchanges, by the places of docs/LAYOUT.md ---- */

static const struct exchange {
    const char *name;
    unsigned place;
    unsigned back; /* where a lost one leads */
    unsigned regions;
    void (*begin)(const struct lent *lent);
    void (*collide)(const struct lent *lent, unsigned time);
    unsigned end;    /* the code of the request's end */
    int gives_block; /* whether the end's value is a block, else it is 0 */
} EXCHANGES[] = {
    {"the pop of a partial descriptor", 4, 2, 16, partial_region, takes_and_leaves, POOL_FINISHED, 1},
    {"the pop of a spare descriptor", 7, 5, 16, nothing_open, opens_region, POOL_FINISHED, 1},
    {"the pop of a spare region", 10, 8, 16, nothing_open, opens_region, POOL_FINISHED, 1},
    {"the push of an emptied descriptor", 13, 11, 16, emptied_region, opens_region, POOL_FINISHED, 1},
    {"the push of a descriptor without region", 16, 14, 1, no_spare_region, finds_no_region, POOL_NO_REGION, 0},
    {"the push of a spare region", 19, 17, 16, all_cached, opens_region, POOL_FINISHED, 0},
    {"the push of a partial descriptor", 22, 20, 16, all_but_one_cached, takes_and_leaves, POOL_FINISHED, 0},
    {"the anchor, a chain taken", 24, 23, 16, partial_region, returns_block, POOL_FINISHED, 1},
    {"the anchor, a group returned", 32, 30, 16, one_cached_of_a_shared_region, returns_block, POOL_FINISHED, 0},
};

/* Task 0 comes to its exchange and loses it, so many times from this one on; whether each of these steps is under way,
   tells no number, leads back and is counted for task 0 alone. */
static int loses(const struct exchange *exchange, const struct lent *lent, unsigned from, unsigned times)
{
    int counted = 1;
    for (unsigned time = from; time < from + times; time++) {
        uint32_t before = lost_of(lent, 0);
        uint32_t due = before == POOL_LOST_MOST ? before : before + 1;
        counted = counted && stand_at(lent, 0, exchange->place);
        exchange->collide(lent, time);
        counted = counted && lost_of(lent, 0) == before && step(lent, 0) == POOL_UNDER_WAY
            && place_of(lent, 0) == exchange->back && lost_of(lent, 0) == due && lost_of(lent, 1) == 0;
    }
    return counted;
}

/* The end of task 0's request, with so many lost, and what its next request tells. A block that it gives can be freed:
   the value is its unit. */
static void check_end_of(const struct exchange *exchange, const struct lent *lent, const char *name, uint32_t lost)
{
    uint64_t answer = finish(lent, 0, NULL);
    int is_value = exchange->gives_block ? release(lent, 1, POOL_VALUE(answer)) == POOL_FINISHED
                                         : POOL_VALUE(answer) == 0;
    char full[160];
    check(name, POOL_CODE(answer) == exchange->end && POOL_LOST(answer) == lost && is_value);
    snprintf(full, sizeof full, "%s: the next request begins with none", name);
    check(full, begin_leave(lent, 0) == POOL_UNDER_WAY && lost_of(lent, 0) == 0
                    && finish(lent, 0, NULL) == POOL_FINISHED);
}

static void so_many_times(const struct exchange *exchange, unsigned times)
{
    struct lent lent = started(exchange->regions, 2);
    char name[120];
    exchange->begin(&lent);
    snprintf(name, sizeof name, "%u lost: %s: counted for the task alone", times, exchange->name);
    check(name, loses(exchange, &lent, 0, times) && lost_of(&lent, 0) == times && lost_of(&lent, 1) == 0);
    snprintf(name, sizeof name, "%u lost: %s: the end tells it", times, exchange->name);
    check_end_of(exchange, &lent, name, times);
}

/* From two below the most on the count goes up to it and stays there. */
static void up_to_the_most(const struct exchange *exchange)
{
    struct lent lent = started(exchange->regions, 2);
    char name[120];
    exchange->begin(&lent);
    set_lost(&lent, 0, POOL_LOST_MOST - 2);
    snprintf(name, sizeof name, "up to the most lost: %s", exchange->name);
    check(name, loses(exchange, &lent, 0, 2) && lost_of(&lent, 0) == POOL_LOST_MOST);
    snprintf(name, sizeof name, "past the most lost: %s", exchange->name);
    check(name, loses(exchange, &lent, 2, 2) && lost_of(&lent, 0) == POOL_LOST_MOST);
    snprintf(name, sizeof name, "past the most lost: %s: the end tells the most", exchange->name);
    check_end_of(exchange, &lent, name, POOL_LOST_MOST);
}

void check_collisions(void)
{
    for (unsigned i = 0; i < sizeof EXCHANGES / sizeof *EXCHANGES; i++) {
        for (unsigned times = 0; times <= LOSSES_MOST; times++)
            so_many_times(&EXCHANGES[i], times);
        up_to_the_most(&EXCHANGES[i]);
    }
}
