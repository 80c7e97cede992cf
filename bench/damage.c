#include "damage.h"

#include <string.h>

#include "by_hand_control.h"

/* The columns of docs/LAYOUT.md, with what picks the number in a column. */
enum index { LIST, DESCRIPTOR, WORD, TASK, CACHE, REGION, ONE, NODES, SLOT };
enum { HEAD = 0, ANCHOR = 1, TASK_HEAD = 3, TASK_ANCHOR = 4, TASK_LOST = 13, FREE_NODES = 27, MOVING_A_CHAIN = 25 };

static const struct {
    uint16_t start;
    uint8_t width;
    uint8_t index;
} COLUMNS[] = {
    {0, 8, LIST},        {256, 8, DESCRIPTOR}, {768, 8, WORD},       {4864, 8, TASK},       {4928, 8, TASK},
    {4992, 2, CACHE},    {5248, 2, CACHE},     {5504, 2, TASK},      {5520, 2, TASK},       {5536, 2, TASK},
    {5552, 2, TASK},     {5568, 2, TASK},      {5584, 2, TASK},      {5600, 4, TASK},       {5632, 1, TASK},
    {5640, 1, TASK},     {5648, 1, TASK},      {5656, 1, TASK},      {5664, 1, TASK},       {5672, 1, TASK},
    {5696, 1, DESCRIPTOR}, {5760, 1, REGION},  {5776, 1, DESCRIPTOR}, {5840, 1, DESCRIPTOR}, {5904, 1, REGION},
    {5944, 1, ONE},      {5945, 1, ONE},       {6016, 8, NODES},     {6048, 1, SLOT},
};

static unsigned class_in_hand(const struct control *c, unsigned task)
{
    return c->task_class[task] % CLASSES;
}

/* The number in a column that a call of the task is likely to read: what it has in hand. */
static size_t index_of(enum index kind, struct schedule *schedule, const struct control *c, unsigned task)
{
    unsigned class = class_in_hand(c, task);
    unsigned region = c->task_region[task] % REGIONS;
    switch (kind) {
    case LIST: return schedule_random(schedule, 3) == 0 ? class : SPARE_DESCRIPTORS + schedule_random(schedule, 2);
    case DESCRIPTOR:
        return (schedule_random(schedule, 2) == 0 ? c->task_descriptor[task] : c->map[region] - 1u) % DESCRIPTORS;
    case WORD: return schedule_random(schedule, 128);
    case TASK: return task;
    case CACHE: return CACHES * task + (schedule_random(schedule, 2) == 0 ? class : schedule_random(schedule, CLASSES));
    case REGION: return schedule_random(schedule, 2) == 0 ? region : schedule_random(schedule, REGIONS);
    case NODES: return schedule_random(schedule, 4);
    case SLOT:
        return schedule_random(schedule, 2) == 0 ? c->task_unit[task] / 64u % SLOTS : schedule_random(schedule, SLOTS);
    default: return 0;
    }
}

/* A number at most one away from a bound. */
static uint32_t near_a_bound(struct schedule *schedule, const struct control *c, unsigned task)
{
    const uint32_t bounds[] = {1, PER_REGION[class_in_hand(c, task)], c->regions, 3, TASKS, CLASSES, REGIONS, PLACES,
                               DESCRIPTORS, 512, NO_BLOCK, 65536, 512u * c->regions, c->task_place[task], 16384};
    uint64_t which = schedule_random(schedule, sizeof bounds / sizeof *bounds);
    return bounds[which] + (uint32_t)schedule_random(schedule, 3) - 1;
}

/* A word with many bits set, with few or with none. */
static uint64_t some_bits(struct schedule *schedule)
{
    uint64_t word = schedule_random(schedule, UINT64_MAX);
    for (uint64_t times = schedule_random(schedule, 8); times > 0; times--)
        word &= schedule_random(schedule, UINT64_MAX);
    return word;
}

/* The block whose link a task reads next: the chain's block in its hand, or the top of its cache. */
static uint32_t next_block(const struct control *c, unsigned task)
{
    unsigned class = class_in_hand(c, task);
    if (c->task_place[task] == MOVING_A_CHAIN)
        return 512u * c->task_region[task] + UNITS[class] * (uint32_t)c->task_index[task];
    return c->top[task][class];
}

static struct damage one_field(struct schedule *schedule, const struct control *c, unsigned task)
{
    unsigned column = (unsigned)schedule_random(schedule, sizeof COLUMNS / sizeof *COLUMNS);
    size_t index = index_of((enum index)COLUMNS[column].index, schedule, c, task);
    struct damage damage = {0, COLUMNS[column].start + COLUMNS[column].width * index, COLUMNS[column].width, 0};
    damage.value = near_a_bound(schedule, c, task);
    if (column == HEAD || column == TASK_HEAD)
        damage.bytes = 4; /* the item; the tag stays */
    if (column == ANCHOR || column == TASK_ANCHOR)
        damage.value = anchor_of((unsigned)schedule_random(schedule, 4), near_a_bound(schedule, c, task) % 1024,
                                 near_a_bound(schedule, c, task) % 1024);
    if (column == TASK_LOST)
        damage.value = UINT32_MAX - schedule_random(schedule, 3);
    if (column == FREE_NODES)
        damage.value = some_bits(schedule);
    return damage;
}

struct damage damage_of(struct schedule *schedule, const uint8_t *control, size_t area_length, unsigned task)
{
    const struct control *c = (const struct control *)control;
    struct damage damage = {1, 8 * (size_t)next_block(c, task), 4, 0};
    if (schedule_random(schedule, 6) != 0 || damage.place + damage.bytes > area_length)
        return one_field(schedule, c, task);
    damage.value = near_a_bound(schedule, c, task);
    return damage;
}

void damage_do(struct damage damage, uint8_t *control, uint8_t *area)
{
    memcpy((damage.in_area ? area : control) + damage.place, &damage.value, damage.bytes);
}
