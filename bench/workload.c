#include "workload.h"

#include <stdio.h>
#include <stdlib.h>

#include "pool.h"

static uint8_t control[POOL_CONTROL_BYTES];
static uint8_t area[POOL_REGIONS_MOST * POOL_REGION_BYTES];
static uint8_t strips[POOL_STRIPS_BYTES];
static uint64_t units[1024];

static uint64_t area_length(const struct workload *workload)
{
    return workload->regions * (uint64_t)POOL_REGION_BYTES;
}

/* Steps task 0 to the end of its request. A workload never meets a refusal; if it does, its figures mean nothing. */
static uint64_t finish(const struct contender *contender, const struct workload *workload, uint64_t answer)
{
    while (POOL_CODE(answer) == POOL_UNDER_WAY)
        answer = contender->step(control, sizeof control, area, area_length(workload), strips, sizeof strips, 0);
    if (POOL_CODE(answer) != POOL_FINISHED) {
        fprintf(stderr, "%s, %s: code %u\n", contender->name, workload->name, POOL_CODE(answer));
        exit(1);
    }
    return POOL_VALUE(answer);
}

static uint64_t allocate(const struct contender *contender, const struct workload *workload)
{
    return finish(contender, workload,
                  contender->begin_allocate(control, sizeof control, area, area_length(workload), strips, sizeof strips,
                                            0, workload->size));
}

static void release(const struct contender *contender, const struct workload *workload, uint64_t unit)
{
    (void)finish(contender, workload,
                 contender->begin_free(control, sizeof control, area, area_length(workload), strips, sizeof strips, 0,
                                       unit));
}

/* The hot pair: the cache has the block, and room for it. Four calls. The same calls are the pair of a strip. */
static void one_turn(const struct contender *contender, const struct workload *workload)
{
    release(contender, workload, allocate(contender, workload));
}

/* All blocks of two regions are allocated, then freed in the same order. So in each turn a full cache is emptied as one
   group, its region empties and is given back, and later a region is opened and carved. */
static void carve_turn(const struct contender *contender, const struct workload *workload)
{
    for (unsigned i = 0; i < workload->pairs; i++)
        units[i] = allocate(contender, workload);
    for (unsigned i = 0; i < workload->pairs; i++)
        release(contender, workload, units[i]);
}

/* All blocks of two regions are allocated, then freed alternately from the first half and the second: the groups of a
   full cache are single blocks, and later both chains are taken and moved block by block. */
static void chain_turn(const struct contender *contender, const struct workload *workload)
{
    unsigned half = workload->pairs / 2;
    for (unsigned i = 0; i < workload->pairs; i++)
        units[i] = allocate(contender, workload);
    for (unsigned i = 0; i < half; i++) {
        release(contender, workload, units[i]);
        release(contender, workload, units[half + i]);
    }
}

/* All blocks of a region are allocated and freed, so that all are in the cache; then the task leaves, and the region is
   given back. */
static void leave_turn(const struct contender *contender, const struct workload *workload)
{
    carve_turn(contender, workload);
    (void)finish(contender, workload,
                 contender->begin_leave(control, sizeof control, area, area_length(workload), strips, sizeof strips,
                                        0));
}

/* Steps both tasks in turn, a step each, to the end of their requests; the units are what they get. */
static void finish_in_turn(const struct contender *contender, const struct workload *workload, uint64_t got[2])
{
    uint64_t answers[2] = {POOL_UNDER_WAY, POOL_UNDER_WAY};
    while (POOL_CODE(answers[0]) == POOL_UNDER_WAY || POOL_CODE(answers[1]) == POOL_UNDER_WAY)
        for (unsigned task = 0; task < 2; task++)
            if (POOL_CODE(answers[task]) == POOL_UNDER_WAY)
                answers[task] = contender->step(control, sizeof control, area, area_length(workload), strips,
                                                sizeof strips, task);
    for (unsigned task = 0; task < 2; task++)
        got[task] = finish(contender, workload, answers[task]);
}

/* Two tasks collide: each opens a region for a block, frees it, and leaves, so that the region is given back. They note
   the same heads; after the first turn four exchanges of each turn are lost. */
static void collide_turn(const struct contender *contender, const struct workload *workload)
{
    uint64_t got[2];
    for (unsigned task = 0; task < 2; task++)
        (void)contender->begin_allocate(control, sizeof control, area, area_length(workload), strips, sizeof strips,
                                        task, workload->size);
    finish_in_turn(contender, workload, got);
    for (unsigned task = 0; task < 2; task++)
        (void)contender->begin_free(control, sizeof control, area, area_length(workload), strips, sizeof strips, task,
                                    got[task]);
    finish_in_turn(contender, workload, got);
    for (unsigned task = 0; task < 2; task++)
        (void)contender->begin_leave(control, sizeof control, area, area_length(workload), strips, sizeof strips,
                                     task);
    finish_in_turn(contender, workload, got);
}

static void start_turn(const struct contender *contender, const struct workload *workload)
{
    (void)contender->start(control, sizeof control, area, area_length(workload), strips, sizeof strips,
                           POOL_TASKS_MOST);
}

/* Takes all strips of 512 bytes and gives every other one back: no piece is to be halved, and no two to be joined. */
static void fragment(const struct contender *contender, const struct workload *workload)
{
    enum { ALL = POOL_STRIPS_BYTES / POOL_STRIP_LEAST };
    for (unsigned i = 0; i < ALL; i++)
        units[i] = allocate(contender, workload);
    for (unsigned i = 0; i < ALL; i += 2)
        release(contender, workload, units[i]);
}

const struct workload WORKLOADS[] = {
    {"hot pair of 64 bytes", 64, 1, 1, one_turn, NULL},
    {"hot pair of 48 bytes", 48, 1, 1, one_turn, NULL},
    {"cold pair, carving", 64, 2, 128, carve_turn, NULL},
    {"cold pair, chains", 64, 2, 128, chain_turn, NULL},
    {"cold pair, leaving after 64", 64, 1, 64, leave_turn, NULL},
    {"cold pair, two tasks collide", 256, 2, 2, collide_turn, NULL},
    {"strip pair of 512 bytes, fresh", POOL_STRIP_LEAST, 1, 1, one_turn, NULL},
    {"strip pair of 512 bytes, fragmented", POOL_STRIP_LEAST, 1, 1, one_turn, fragment},
    {"strip pair of 65,536 bytes, fresh", POOL_STRIPS_BYTES, 1, 1, one_turn, NULL},
    {"strip pair of 512 bytes, all 128 in turn", POOL_STRIP_LEAST, 1, 128, carve_turn, NULL},
    {"start", 0, POOL_REGIONS_MOST, 0, start_turn, NULL},
};

const unsigned WORKLOAD_COUNT = sizeof WORKLOADS / sizeof *WORKLOADS;

void workload_ready(const struct contender *contender, const struct workload *workload)
{
    start_turn(contender, workload);
    if (workload->before != NULL)
        workload->before(contender, workload);
    workload->turn(contender, workload);
}
