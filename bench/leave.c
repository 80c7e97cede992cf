/*
 * The instructions of leaving, counted exactly (one_call.h): of its beginning and of the steps that end a cache's
 * return, by how many empty caches the search for the next one passes over; of its last step; and of whole leaves.
 *
 * A return ends at one of three places. It ends by the exchange of the anchor where other blocks of the region are out
 * and some were back before; by a release where the region gets its last blocks back; by an offer where it gets its
 * first ones back. What the search costs for each empty cache is the difference of two such rows, shared out.
 *
 * A line is workload, contender, measure, value.
 */
#define _GNU_SOURCE
#include <stdio.h>
#include <string.h>
#include <unistd.h>

#include "by_hand_control.h"
#include "contender.h"
#include "one_call.h"
#include "pool.h"
#include "schedule.h"

enum { BY_EXCHANGE, BY_RELEASE, BY_OFFER, ENDINGS, NEXT_FOLLOWS = 0, LAST_FOLLOWS, NOTHING_FOLLOWS, WAYS };
enum { LEAVE_END = 36, EACH = 5, FIRST_SIZE = 8, NEXT_SIZE = 16, LAST_SIZE = 256, ONE_CLASS_SIZE = 64 };

/* The rows: three beginnings, the steps that end a return, the last step, the largest step, and two whole leaves. */
enum { EMPTY_BEGIN, FIRST_BEGIN, LAST_BEGIN, END, LAST = END + ENDINGS * WAYS, ANY, ONE_CLASS, EACH_CLASS, ROWS };

static const char *const NAMES[ROWS] = {
    "leaving begun, nothing cached",
    "leaving begun, the first class cached",
    "leaving begun, the last class alone cached",
    "return ended by the exchange, the next class follows",
    "return ended by the exchange, the last class follows",
    "return ended by the exchange, nothing follows",
    "return ended by a release, the next class follows",
    "return ended by a release, the last class follows",
    "return ended by a release, nothing follows",
    "return ended by an offer, the next class follows",
    "return ended by an offer, the last class follows",
    "return ended by an offer, nothing follows",
    "last step of leaving",
    "largest step of leaving",
    "whole leave, 64 blocks of 64 bytes",
    "whole leave, five blocks of each class",
};

/* What the child tells the parent: the row of a call, and the row of the whole leave that it belongs to, or ROWS. */
struct told {
    unsigned row;
    unsigned whole;
    int is_step;
};

static union {
    uint8_t bytes[POOL_CONTROL_BYTES];
    struct control fields;
} pool;
static uint8_t area[POOL_REGIONS_MOST * POOL_REGION_BYTES];

static uint64_t step(const struct contender *contender)
{
    return contender->step(pool.bytes, sizeof pool.bytes, area, sizeof area, untouchable_strips(), POOL_STRIPS_BYTES,
                           0);
}

/* Steps a request to its end, not counted. */
static uint64_t finish(const struct contender *contender, uint64_t answer)
{
    while (POOL_CODE(answer) == POOL_UNDER_WAY)
        answer = step(contender);
    if (POOL_CODE(answer) != POOL_FINISHED)
        _exit(1);
    return POOL_VALUE(answer);
}

static void start(const struct contender *contender)
{
    (void)contender->start(pool.bytes, sizeof pool.bytes, area, sizeof area, untouchable_strips(), POOL_STRIPS_BYTES,
                           1);
}

static uint64_t allocate(const struct contender *contender, uint64_t size)
{
    return finish(contender, contender->begin_allocate(pool.bytes, sizeof pool.bytes, area, sizeof area,
                                                       untouchable_strips(), POOL_STRIPS_BYTES, 0, size));
}

static void release(const struct contender *contender, uint64_t unit)
{
    (void)finish(contender, contender->begin_free(pool.bytes, sizeof pool.bytes, area, sizeof area,
                                                  untouchable_strips(), POOL_STRIPS_BYTES, 0, unit));
}

/* Opens a region of the size's class: all its blocks are in the cache. */
static void cache(const struct contender *contender, uint64_t size)
{
    release(contender, allocate(contender, size));
}

static uint64_t begin(const struct contender *contender)
{
    return contender->begin_leave(pool.bytes, sizeof pool.bytes, area, sizeof area, untouchable_strips(),
                                  POOL_STRIPS_BYTES, 0);
}

/* Whether the step that stands ready ends the return of its cache; the memories stay as they are. */
static int ends_return(const struct contender *contender)
{
    static uint8_t control_before[sizeof pool.bytes];
    static uint8_t area_before[sizeof area];
    unsigned class = pool.fields.task_class[0];
    int ends;
    memcpy(control_before, pool.bytes, sizeof pool.bytes);
    memcpy(area_before, area, sizeof area);
    (void)step(contender);
    ends = pool.fields.task_place[0] == LEAVE_END || pool.fields.task_class[0] != class;
    memcpy(pool.bytes, control_before, sizeof pool.bytes);
    memcpy(area, area_before, sizeof area);
    return ends;
}

/* Leaves; the beginning is counted as one of this row, every step as one of the largest, and all as the whole leave. */
static void leave_whole(const struct contender *contender, struct told *told, unsigned row, unsigned whole)
{
    uint64_t answer;
    told->row = row;
    told->whole = whole;
    told->is_step = 0;
    STOP_BEFORE_CALL();
    answer = begin(contender);
    told->is_step = 1;
    while (POOL_CODE(answer) == POOL_UNDER_WAY) {
        told->row = pool.fields.task_place[0] == LEAVE_END ? LAST : ANY;
        STOP_BEFORE_CALL();
        answer = step(contender);
    }
}

/* Leaves; of its steps only those are counted that end the return of the first class. */
static void leave_counting_end(const struct contender *contender, struct told *told, unsigned row)
{
    uint64_t answer = begin(contender);
    told->row = row;
    told->whole = ROWS;
    told->is_step = 1;
    while (POOL_CODE(answer) == POOL_UNDER_WAY) {
        if (pool.fields.task_class[0] == 0 && pool.fields.task_place[0] != LEAVE_END && ends_return(contender))
            STOP_BEFORE_CALL();
        answer = step(contender);
    }
}

/* One or two blocks of the first class are in hand, and the others of their region in the cache, or, but for an offer,
   back in the region and one of those in hand in the cache. What follows is cached, too. */
static void ending(const struct contender *contender, struct told *told, unsigned by, unsigned way)
{
    uint64_t unit;
    start(contender);
    if (by == BY_EXCHANGE)
        (void)allocate(contender, FIRST_SIZE);
    unit = allocate(contender, FIRST_SIZE);
    if (by != BY_OFFER) {
        (void)finish(contender, begin(contender));
        release(contender, unit);
    }
    if (way != NOTHING_FOLLOWS)
        cache(contender, way == NEXT_FOLLOWS ? NEXT_SIZE : LAST_SIZE);
    leave_counting_end(contender, told, END + WAYS * by + way);
}

/* Five blocks of each class are cached, one is in hand, and the others are in their regions. */
static void cache_of_each(const struct contender *contender)
{
    uint64_t units[CLASSES][EACH + 1];
    start(contender);
    for (unsigned class = 0; class < CLASSES; class++)
        for (unsigned i = 0; i <= EACH; i++)
            units[class][i] = allocate(contender, 8u * UNITS[class]);
    (void)finish(contender, begin(contender));
    for (unsigned class = 0; class < CLASSES; class++)
        for (unsigned i = 0; i < EACH; i++)
            release(contender, units[class][i]);
}

static void child(const struct contender *contender, struct told *told)
{
    let_parent_follow();
    start(contender);
    leave_whole(contender, told, EMPTY_BEGIN, ROWS);
    cache(contender, LAST_SIZE);
    leave_whole(contender, told, LAST_BEGIN, ROWS);
    for (unsigned by = 0; by < ENDINGS; by++)
        for (unsigned way = 0; way < WAYS; way++)
            ending(contender, told, by, way);
    start(contender);
    cache(contender, ONE_CLASS_SIZE);
    leave_whole(contender, told, ANY, ONE_CLASS);
    cache_of_each(contender);
    leave_whole(contender, told, FIRST_BEGIN, EACH_CLASS);
    _exit(0);
}

/* The counts of each row: the largest of its calls, or for a whole leave the sum. */
static void follow(const struct contender *contender, unsigned counts[ROWS + 1])
{
    struct told *told = seen_by_both(sizeof *told);
    pid_t pid = fork();
    if (pid == 0)
        child(contender, told);
    while (child_stops(pid)) {
        unsigned count = count_call(
            pid, (unsigned long long)(told->is_step ? (uintptr_t)contender->step : (uintptr_t)contender->begin_leave));
        if ((told->is_step || told->row != ANY) && count > counts[told->row])
            counts[told->row] = count;
        if (told->is_step && count > counts[ANY])
            counts[ANY] = count;
        counts[told->whole] += count;
        child_runs_on(pid);
    }
}

/* What the search costs for each empty cache: what the last class takes more than the one that is looked at first. */
static void print_search(const char *contender, const unsigned counts[ROWS + 1])
{
    static const char *const BY[ENDINGS] = {"the exchange", "a release", "an offer"};
    printf("each empty cache, passed over by the beginning\t%s\tinstructions\t%.1f\n", contender,
           (counts[LAST_BEGIN] - counts[FIRST_BEGIN]) / (CLASSES - 1.0));
    for (unsigned by = 0; by < ENDINGS; by++) {
        const unsigned *ends = counts + END + WAYS * by;
        printf("each empty cache, passed over by %s\t%s\tinstructions\t%.1f\n", BY[by], contender,
               (ends[LAST_FOLLOWS] - ends[NEXT_FOLLOWS]) / (CLASSES - 2.0));
    }
}

int main(void)
{
    for (unsigned c = 0; c < CONTENDER_COUNT; c++) {
        unsigned counts[ROWS + 1] = {0};
        follow(&CONTENDERS[c], counts);
        for (unsigned row = 0; row < ROWS; row++)
            printf("%s\t%s\tinstructions\t%u\n", NAMES[row], CONTENDERS[c].name, counts[row]);
        print_search(CONTENDERS[c].name, counts);
    }
    return 0;
}
