#define _DEFAULT_SOURCE
#include "schedule.h"

#include <stdlib.h>
#include <string.h>
#include <sys/mman.h>

#include "pool.h"

/* At least one size of each class. */
static const unsigned SIZES[] = {256, 200, 17, 160, 128, 224, 192, 100, 80, 64, 48, 16, 8, 96};

struct schedule schedule_of(uint64_t seed, unsigned tasks, int odd_calls, int leaves)
{
    struct schedule schedule;
    memset(&schedule, 0, sizeof schedule);
    schedule.random = seed * 2654435769 + 88172645463325252;
    schedule.tasks = tasks;
    schedule.odd_calls = odd_calls;
    schedule.leaves = leaves;
    return schedule;
}

/* Marsaglia's xorshift. */
uint64_t schedule_random(struct schedule *schedule, uint64_t below)
{
    schedule->random ^= schedule->random << 13;
    schedule->random ^= schedule->random >> 7;
    schedule->random ^= schedule->random << 17;
    return schedule->random % below;
}

static void next_phase(struct schedule *schedule)
{
    schedule->filling = !schedule->filling;
    schedule->sweeping = schedule_random(schedule, 2) == 0;
    schedule->left = 200 + (unsigned)schedule_random(schedule, 6000);
    schedule->sizes = 1 + (unsigned)schedule_random(schedule, sizeof SIZES / sizeof *SIZES);
}

/* A call with a number that no careful caller passes, or of a task that is not ready for it. */
static struct call odd_call(struct schedule *schedule)
{
    static const uint64_t NUMBERS[] = {0, 1, 257, 511, 8191, 8192, 8193, 8256, 16383, 16384, 65536, 65537, UINT64_MAX};
    static const uint64_t LENGTHS[] = {0, POOL_STRIPS_BYTES - 1, POOL_STRIPS_BYTES + 1};
    struct call call;
    call.kind = (enum kind)schedule_random(schedule, schedule->leaves ? 4 : 3);
    call.task = (unsigned)schedule_random(schedule, 10);
    call.number = NUMBERS[schedule_random(schedule, sizeof NUMBERS / sizeof *NUMBERS)];
    call.strips_length = schedule_random(schedule, 8) == 0 ? LENGTHS[schedule_random(schedule, 3)] : POOL_STRIPS_BYTES;
    return call;
}

static uint64_t held_block(struct schedule *schedule)
{
    uint64_t lowest = UINT64_MAX;
    if (!schedule->sweeping)
        return schedule->held[schedule_random(schedule, schedule->held_count)];
    for (unsigned i = 0; i < schedule->held_count; i++)
        if (schedule->held[i] < lowest)
            lowest = schedule->held[i];
    return lowest;
}

/* Any size that gets a strip; each order is as likely as another. */
static uint64_t strip_size(struct schedule *schedule)
{
    uint64_t half = (uint64_t)POOL_BLOCK_MOST << schedule_random(schedule, 8);
    return half + 1 + schedule_random(schedule, half);
}

struct call schedule_next(struct schedule *schedule)
{
    struct call call = {STEP, (unsigned)schedule_random(schedule, schedule->tasks), 0, POOL_STRIPS_BYTES};
    int allocate;
    if (schedule->left == 0)
        next_phase(schedule);
    schedule->left -= 1;
    if (schedule->odd_calls && schedule_random(schedule, 20) == 0)
        return odd_call(schedule);
    if (schedule->busy[call.task])
        return call;
    if (schedule->leaves && schedule_random(schedule, 24) == 0) {
        call.kind = BEGIN_LEAVE;
        return call;
    }
    allocate = schedule_random(schedule, 8) != 0 ? schedule->filling : !schedule->filling;
    if (schedule_random(schedule, 6) == 0 && (allocate || schedule->strip_count != 0)) {
        call.kind = allocate ? BEGIN_ALLOCATE : BEGIN_FREE;
        call.number = allocate ? strip_size(schedule)
                               : schedule->strips[schedule_random(schedule, schedule->strip_count)];
    } else if (allocate || schedule->held_count == 0) {
        call.kind = BEGIN_ALLOCATE;
        call.number = SIZES[schedule_random(schedule, schedule->sizes)];
    } else {
        call.kind = BEGIN_FREE;
        call.number = held_block(schedule);
    }
    return call;
}

static void drop(uint16_t *held, unsigned *count, uint64_t unit)
{
    for (unsigned i = 0; i < *count; i++)
        if (held[i] == unit) {
            held[i] = held[--*count];
            return;
        }
}

static void drop_held(struct schedule *schedule, uint64_t unit)
{
    if (unit < POOL_STRIP_FIRST)
        drop(schedule->held, &schedule->held_count, unit);
    else
        drop(schedule->strips, &schedule->strip_count, unit);
}

static void hold(struct schedule *schedule, uint16_t unit)
{
    if (unit < POOL_STRIP_FIRST)
        schedule->held[schedule->held_count++] = unit;
    else
        schedule->strips[schedule->strip_count++] = unit;
}

void schedule_answered(struct schedule *schedule, struct call call, uint64_t answer)
{
    unsigned code = POOL_CODE(answer);
    if (call.kind != STEP) {
        if (code != POOL_UNDER_WAY)
            return;
        schedule->busy[call.task] = 1;
        schedule->request[call.task] = call.kind;
        if (call.kind == BEGIN_FREE)
            drop_held(schedule, call.number);
        return;
    }
    if (code == POOL_FINISHED && schedule->request[call.task] == BEGIN_ALLOCATE)
        hold(schedule, (uint16_t)POOL_VALUE(answer));
    if (code == POOL_FINISHED || code == POOL_NO_DESCRIPTOR || code == POOL_NO_REGION || code == POOL_NO_STRIP)
        schedule->busy[call.task] = 0;
}

const uint8_t *untouchable_strips(void)
{
    static void *strips;
    if (strips == NULL)
        strips = mmap(NULL, POOL_STRIPS_BYTES, PROT_NONE, MAP_PRIVATE | MAP_ANONYMOUS, -1, 0);
    if (strips == MAP_FAILED)
        abort();
    return strips;
}

uint64_t make_call(const struct contender *contender, struct call call, uint8_t *control, uint8_t *area,
                   uint64_t area_length)
{
    const uint8_t *strips = untouchable_strips();
    switch (call.kind) {
    case BEGIN_ALLOCATE:
        return contender->begin_allocate(control, POOL_CONTROL_BYTES, area, area_length, strips, call.strips_length,
                                         call.task, call.number);
    case BEGIN_FREE:
        return contender->begin_free(control, POOL_CONTROL_BYTES, area, area_length, strips, call.strips_length,
                                     call.task, call.number);
    case BEGIN_LEAVE:
        return contender->begin_leave(control, POOL_CONTROL_BYTES, area, area_length, strips, call.strips_length,
                                      call.task);
    default:
        return contender->step(control, POOL_CONTROL_BYTES, area, area_length, strips, call.strips_length, call.task);
    }
}
