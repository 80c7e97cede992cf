#include "lent.h"

#include <string.h>

#include "pool.h"

enum {
    GUARD = 8192,
    AREA_MOST = POOL_REGIONS_MOST * POOL_REGION_BYTES,
    BEFORE_AREA = GUARD + POOL_CONTROL_BYTES + GUARD,
    BEFORE_STRIPS = BEFORE_AREA + AREA_MOST + GUARD,
    ALL = BEFORE_STRIPS + POOL_STRIPS_BYTES + GUARD,
    GUARD_BYTE = 0xA5,
    STEPS_MOST = 100000 /* more than any request here takes; a request that never ends is a failure, not a hang */
};

/* What lies before the area and before the strips is a multiple of the alignment, so that they are aligned as the
   memory is. */
static uint8_t memory[ALL] __attribute__((aligned(POOL_ALIGNMENT)));
static uint8_t kept[ALL];
static uint8_t kept_strips[POOL_STRIPS_BYTES];

struct lent lend(unsigned regions, unsigned shift)
{
    struct lent lent;
    memset(memory, GUARD_BYTE, sizeof memory);
    lent.control = memory + GUARD + shift;
    lent.control_length = POOL_CONTROL_BYTES;
    memset(lent.control, 0, lent.control_length);
    lent.area = memory + BEFORE_AREA + shift;
    lent.area_length = (uint64_t)regions * POOL_REGION_BYTES;
    for (size_t i = 0; i < lent.area_length; i++)
        lent.area[i] = (uint8_t)(i * 7 + 3);
    lent.strips = memory + BEFORE_STRIPS + shift;
    lent.strips_length = POOL_STRIPS_BYTES;
    for (size_t i = 0; i < lent.strips_length; i++)
        lent.strips[i] = (uint8_t)(i * 5 + i / 512);
    return lent;
}

struct lent started(unsigned regions, unsigned tasks)
{
    struct lent lent = lend(regions, 0);
    (void)start(&lent, tasks);
    return lent;
}

void keep(void)
{
    memcpy(kept, memory, sizeof memory);
}

int as_kept(void)
{
    return memcmp(kept, memory, sizeof memory) == 0;
}

static int all_guard(const uint8_t *from, const uint8_t *to)
{
    while (from < to)
        if (*from++ != GUARD_BYTE)
            return 0;
    return 1;
}

int guards_whole(const struct lent *lent)
{
    return all_guard(memory, lent->control) && all_guard(lent->control + lent->control_length, lent->area)
        && all_guard(lent->area + lent->area_length, lent->strips)
        && all_guard(lent->strips + lent->strips_length, memory + sizeof memory);
}

void keep_strips(const struct lent *lent)
{
    memcpy(kept_strips, lent->strips, sizeof kept_strips);
}

int strips_as_kept(const struct lent *lent)
{
    return memcmp(kept_strips, lent->strips, sizeof kept_strips) == 0;
}

uint64_t start(const struct lent *lent, uint64_t tasks)
{
    return pool_start(LENT(lent), tasks);
}

uint64_t begin_allocate(const struct lent *lent, uint64_t task, uint64_t size)
{
    return pool_begin_allocate(LENT(lent), task, size);
}

uint64_t begin_free(const struct lent *lent, uint64_t task, uint64_t unit)
{
    return pool_begin_free(LENT(lent), task, unit);
}

uint64_t begin_leave(const struct lent *lent, uint64_t task)
{
    return pool_begin_leave(LENT(lent), task);
}

uint64_t step(const struct lent *lent, uint64_t task)
{
    return pool_step(LENT(lent), task);
}

uint64_t finish(const struct lent *lent, uint64_t task, unsigned *steps)
{
    uint64_t answer = POOL_UNDER_WAY;
    unsigned made = 0;
    while (POOL_CODE(answer) == POOL_UNDER_WAY && made < STEPS_MOST) {
        answer = step(lent, task);
        made += 1;
    }
    if (steps != NULL)
        *steps = made;
    return answer;
}

void make_steps(const struct lent *lent, uint64_t task, unsigned count)
{
    for (unsigned i = 0; i < count; i++)
        (void)step(lent, task);
}

uint64_t allocate(const struct lent *lent, uint64_t task, uint64_t size)
{
    uint64_t answer = begin_allocate(lent, task, size);
    return POOL_CODE(answer) == POOL_UNDER_WAY ? finish(lent, task, NULL) : answer;
}

uint64_t release(const struct lent *lent, uint64_t task, uint64_t unit)
{
    uint64_t answer = begin_free(lent, task, unit);
    return POOL_CODE(answer) == POOL_UNDER_WAY ? finish(lent, task, NULL) : answer;
}

uint64_t leave(const struct lent *lent, uint64_t task)
{
    uint64_t answer = begin_leave(lent, task);
    return POOL_CODE(answer) == POOL_UNDER_WAY ? finish(lent, task, NULL) : answer;
}
