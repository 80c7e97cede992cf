#define _GNU_SOURCE
#include "count_report.h"

#include <stdio.h>
#include <string.h>
#include <unistd.h>

#include "by_hand_leave.h"
#include "contender.h"
#include "one_call.h"
#include "pool.h"
#include "schedule.h"

enum { FRESH_ONE, FRESH_ALL, IN_HAND, ONE_CLASS, TWO_CLASSES, ANY, ROWS };
enum { FIRST_SIZE = 8, SECOND_SIZE = 16, FIRST_N = 512, SECOND_N = 256, HALF = REGIONS / 2, LONGEST_CACHES = 0 };

/* Each with %s for the name of the report. */
static const char *const NAMES[ROWS] = {
    "%s of a fresh pool, one region",
    "%s of a fresh pool, 16 regions",
    "%s, 16 regions of 8 bytes in hand",
    "%s, 16 regions of 8 bytes, eight full caches",
    "%s, 16 regions of 8 and 16 bytes, all cached",
    "largest %s of any memories",
};

/* Where a request has blocks or a region: a region to release, with a block to free; a chain, a region to open, blocks
   to carve, a block to free, that and a group, that alone. */
static const uint8_t PLACES_TRIED[] = {19, 25, 26, 27, 28, 32, 33};

/* What child and parent tell each other: which row is counted, ROWS for none, and what the last call took. */
struct told {
    unsigned row;
    unsigned count;
};

static union {
    uint8_t bytes[POOL_CONTROL_BYTES];
    struct control fields;
} pool;
static uint8_t area[POOL_REGIONS_MOST * POOL_REGION_BYTES];
static uint8_t row[POOL_SHEET_BYTES];
static uint64_t area_length;
static unsigned report_counted; /* SHEET, FORM or KEEPERS */

#define MEMORIES pool.bytes, sizeof pool.bytes, area, area_length, untouchable_strips(), POOL_STRIPS_BYTES

static void start(const struct contender *contender, unsigned regions)
{
    area_length = regions * (uint64_t)POOL_REGION_BYTES;
    if (contender->start(MEMORIES, TASKS) != POOL_UNDER_WAY)
        _exit(1);
}

static uint64_t finish(const struct contender *contender, uint64_t task, uint64_t answer)
{
    while (POOL_CODE(answer) == POOL_UNDER_WAY)
        answer = contender->step(MEMORIES, task);
    if (POOL_CODE(answer) != POOL_FINISHED)
        _exit(1);
    return POOL_VALUE(answer);
}

/* Task 0 takes so many blocks; then each task frees the next so many of them. */
static void take_and_free(const struct contender *contender, uint64_t size, unsigned taken, unsigned freed)
{
    static uint64_t units[POOL_REGIONS_MOST * FIRST_N];
    for (unsigned i = 0; i < taken; i++)
        units[i] = finish(contender, 0, contender->begin_allocate(MEMORIES, 0, size));
    for (unsigned i = 0; i < TASKS * freed; i++)
        (void)finish(contender, i / freed, contender->begin_free(MEMORIES, i / freed, units[i]));
}

/* Counts a report, which has to be written. */
static unsigned count(const struct contender *contender, struct told *told, unsigned number)
{
    told->row = number;
    STOP_BEFORE_CALL();
    if (contender->reports[report_counted](MEMORIES, row, sizeof row) != POOL_FINISHED)
        _exit(1);
    return told->count;
}

/* All regions are open in a class, with a full chain. */
static void open_regions(unsigned class)
{
    for (unsigned region = 0; region < REGIONS; region++) {
        pool.fields.map[region] = (uint8_t)(region + 1);
        pool.fields.descriptor_region[region] = (uint8_t)region;
        pool.fields.descriptor_class[region] = (uint8_t)class;
        pool.fields.anchor[region] = anchor_of(PARTIAL, 0, PER_REGION[class]);
    }
}

/* All tasks stand at a place, with the numbers that it reads as large as they may be. */
static void stand_at(unsigned place, unsigned class)
{
    for (unsigned task = 0; task < TASKS; task++) {
        pool.fields.task_place[task] = (uint8_t)place;
        pool.fields.task_class[task] = (uint8_t)class;
        pool.fields.task_left[task] = PER_REGION[class];
        pool.fields.task_index[task] = 0;
        pool.fields.group_count[task] = PER_REGION[class];
        pool.fields.task_region[task] = 0;
        pool.fields.task_unit[task] = 0;
    }
}

/* Every cache is full. Those of a class have the same blocks, all of the region of the class's number. */
static void fill_caches(void)
{
    for (unsigned class = 0; class < CLASSES; class++) {
        uint32_t below = NO_BLOCK;
        for (unsigned block = 0; block < PER_REGION[class]; block++) {
            uint32_t unit = 512 * class + UNITS[class] * block;
            set_link(area, unit, below);
            below = unit;
        }
        for (unsigned task = 0; task < TASKS; task++) {
            pool.fields.top[task][class] = (uint16_t)below;
            pool.fields.count[task][class] = PER_REGION[class];
        }
    }
}

/* The class in which open regions take most. */
static unsigned costly_class(const struct contender *contender, struct told *told)
{
    unsigned most = 0;
    unsigned found = 0;
    start(contender, 1);
    for (unsigned class = 0; class < CLASSES; class++) {
        unsigned took;
        open_regions(class);
        took = count(contender, told, ROWS);
        found = took > most ? class : found;
        most = took > most ? took : most;
    }
    return found;
}

/* The place at which tasks take most. */
static unsigned costly_place(const struct contender *contender, struct told *told, unsigned class)
{
    unsigned most = 0;
    unsigned found = 0;
    start(contender, REGIONS);
    open_regions(class);
    for (unsigned i = 0; i < sizeof PLACES_TRIED; i++) {
        unsigned took;
        stand_at(PLACES_TRIED[i], class);
        took = count(contender, told, ROWS);
        found = took > most ? PLACES_TRIED[i] : found;
        most = took > most ? took : most;
    }
    return found;
}

static void largest(const struct contender *contender, struct told *told, unsigned class)
{
    unsigned place = costly_place(contender, told, class);
    start(contender, REGIONS);
    open_regions(class);
    stand_at(place, class);
    fill_caches();
    (void)count(contender, told, ANY);
}

static void child(const struct contender *contender, struct told *told)
{
    let_parent_follow();
    start(contender, 1);
    (void)count(contender, told, FRESH_ONE);
    start(contender, REGIONS);
    (void)count(contender, told, FRESH_ALL);
    take_and_free(contender, FIRST_SIZE, REGIONS * FIRST_N, 0);
    (void)count(contender, told, IN_HAND);
    start(contender, REGIONS);
    take_and_free(contender, FIRST_SIZE, REGIONS * FIRST_N, FIRST_N);
    (void)count(contender, told, ONE_CLASS);
    start(contender, REGIONS);
    take_and_free(contender, FIRST_SIZE, HALF * FIRST_N, FIRST_N);
    take_and_free(contender, SECOND_SIZE, HALF * SECOND_N, SECOND_N);
    (void)count(contender, told, TWO_CLASSES);
    largest(contender, told, costly_class(contender, told));
    largest(contender, told, LONGEST_CACHES);
    _exit(0);
}

static void follow(const struct contender *contender, unsigned counts[ROWS + 1])
{
    struct told *told = seen_by_both(sizeof *told);
    pid_t pid = fork();
    if (pid == 0)
        child(contender, told);
    while (child_stops(pid)) {
        told->count = count_call(pid, (unsigned long long)(uintptr_t)contender->reports[report_counted]);
        if (told->count > counts[told->row])
            counts[told->row] = told->count;
        child_runs_on(pid);
    }
}

/* What a cached block takes: the difference of two pools, one with 4,096 blocks cached and one with none. */
static void print_counts(const char *contender, const unsigned counts[ROWS + 1])
{
    const char *name = NAMED_REPORTS[report_counted].name;
    for (unsigned i = 0; i < ROWS; i++) {
        printf(NAMES[i], name);
        printf("\t%s\tinstructions\t%u\n", contender, counts[i]);
    }
    printf("%s, each cached block\t%s\tinstructions\t%.1f\n", name, contender,
           (counts[ONE_CLASS] - (double)counts[IN_HAND]) / (TASKS * FIRST_N));
}

int count_report(unsigned which)
{
    report_counted = which;
    for (unsigned c = 0; c < CONTENDER_COUNT; c++) {
        unsigned counts[ROWS + 1] = {0};
        follow(&CONTENDERS[c], counts);
        print_counts(CONTENDERS[c].name, counts);
    }
    return 0;
}
