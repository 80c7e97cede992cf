/*
 * The step list written by hand, from the paper. Each function is one step and answers the code, with 256 times the
 * value, and where the request is over with the lost exchanges above that. Every value is tested as it is read, before
 * any write; the failure is 14.
 */
#ifndef BY_HAND_STEPS_H
#define BY_HAND_STEPS_H

#include "by_hand_control.h"

/* What every step needs. */
struct request {
    struct control *control;
    uint8_t *area;
    unsigned regions;
    unsigned task;
    unsigned class;
};

/* Where a list move works: its first place, its list, how many items there are, and where their nexts stand. */
struct list {
    unsigned place;
    unsigned head;
    unsigned items;
    uint8_t *next;
};

static inline struct list descriptors(const struct request *r, unsigned place, unsigned head)
{
    struct list list = {place, head, DESCRIPTORS, r->control->descriptor_next};
    return list;
}

static inline struct list regions(const struct request *r, unsigned place)
{
    struct list list = {place, SPARE_REGIONS, r->regions, r->control->region_next};
    return list;
}

static inline uint64_t go_to(const struct request *r, unsigned place)
{
    r->control->task_place[r->task] = (uint8_t)place;
    return 0;
}

/* A lost exchange leads back, and is counted as far as the number goes. */
static inline uint64_t lose(const struct request *r, unsigned place)
{
    uint32_t lost = r->control->task_lost[r->task];
    r->control->task_lost[r->task] = lost + (lost != UINT32_MAX);
    return go_to(r, place);
}

/* The request is over: what it answers, with its lost exchanges. */
static inline uint64_t end(const struct request *r, uint64_t answer)
{
    go_to(r, 0);
    return answer | (uint64_t)r->control->task_lost[r->task] << 32;
}

/* ---- pops and pushes ---- */

/* The first step of a pop. An empty list leads to another place; 0 as that place ends the request with 12. */
static inline uint64_t pop_read(const struct request *r, struct list list, unsigned when_empty)
{
    uint64_t head = r->control->head[list.head];
    if (item_of(head) == 0)
        return when_empty == 0 ? end(r, 12) : go_to(r, when_empty);
    if (item_of(head) > list.items)
        return DAMAGED;
    r->control->task_head[r->task] = head;
    return go_to(r, list.place + 1);
}

static inline uint64_t pop_next(const struct request *r, struct list list)
{
    uint32_t item = item_of(r->control->task_head[r->task]);
    if (item - 1 >= list.items || list.next[item - 1] > list.items)
        return DAMAGED;
    r->control->task_next[r->task] = list.next[item - 1];
    return go_to(r, list.place + 2);
}

/* A won pop puts the item's number in the task's hand and goes on. */
static inline uint64_t pop_exchange(const struct request *r, struct list list, uint8_t *hand, unsigned when_won)
{
    uint64_t noted = r->control->task_head[r->task];
    uint64_t now = r->control->head[list.head];
    unsigned next = r->control->task_next[r->task];
    if (item_of(noted) - 1 >= list.items || next > list.items || item_of(now) > list.items)
        return DAMAGED;
    if (now != noted)
        return lose(r, list.place);
    hand[r->task] = (uint8_t)(item_of(noted) - 1);
    r->control->head[list.head] = advanced(noted, next);
    return go_to(r, when_won);
}

static inline uint64_t push_read(const struct request *r, struct list list)
{
    uint64_t head = r->control->head[list.head];
    if (item_of(head) > list.items)
        return DAMAGED;
    r->control->task_head[r->task] = head;
    return go_to(r, list.place + 1);
}

static inline uint64_t push_next(const struct request *r, struct list list, unsigned item)
{
    uint32_t below = item_of(r->control->task_head[r->task]);
    if (item >= list.items || below > list.items)
        return DAMAGED;
    list.next[item] = (uint8_t)below;
    return go_to(r, list.place + 2);
}

/* Whether the exchange of a push can be made: 14, lost (-1) or won (0). The caller stores the head when it is won. */
static inline int push_test(const struct request *r, struct list list, unsigned item)
{
    uint64_t noted = r->control->task_head[r->task];
    uint64_t now = r->control->head[list.head];
    if (item >= list.items || item_of(noted) > list.items || item_of(now) > list.items)
        return DAMAGED;
    return now == noted ? 0 : -1;
}

static inline void push_store(const struct request *r, struct list list, unsigned item)
{
    r->control->head[list.head] = advanced(r->control->task_head[r->task], item + 1);
}

/* ---- allocate ---- */

static inline uint64_t take_from_cache(const struct request *r)
{
    struct control *c = r->control;
    unsigned count = c->count[r->task][r->class];
    uint32_t unit, below;
    if (count == 0)
        return go_to(r, 2);
    unit = c->top[r->task][r->class];
    if (count > PER_REGION[r->class] || !is_block(r->regions, r->class, unit))
        return DAMAGED;
    below = link_of(r->area, unit);
    if (!is_top(r->regions, r->class, count - 1, below))
        return DAMAGED;
    c->top[r->task][r->class] = (uint16_t)below;
    c->count[r->task][r->class] = (uint16_t)(count - 1);
    c->marks[unit / 64] |= (uint64_t)1 << unit % 64;
    return end(r, FINISHED + 256 * (uint64_t)unit);
}

static inline uint64_t chain_read(const struct request *r)
{
    unsigned descriptor = r->control->task_descriptor[r->task];
    uint64_t anchor;
    if (descriptor >= DESCRIPTORS)
        return DAMAGED;
    anchor = r->control->anchor[descriptor];
    if (!is_anchor(anchor))
        return DAMAGED;
    if (state_of(anchor) == EMPTY)
        return go_to(r, 11);
    if (!has_chain(PER_REGION[r->class], anchor))
        return DAMAGED;
    r->control->task_anchor[r->task] = anchor;
    return go_to(r, 24);
}

static inline uint64_t chain_exchange(const struct request *r)
{
    struct control *c = r->control;
    unsigned descriptor = c->task_descriptor[r->task];
    uint64_t noted = c->task_anchor[r->task];
    unsigned n = PER_REGION[r->class];
    if (descriptor >= DESCRIPTORS || !has_chain(n, noted) || !is_anchor(c->anchor[descriptor]))
        return DAMAGED;
    if (c->anchor[descriptor] != noted)
        return lose(r, 23);
    if (c->descriptor_region[descriptor] >= r->regions)
        return DAMAGED;
    c->anchor[descriptor] = anchor_of(FULL, n, 0);
    c->task_region[r->task] = c->descriptor_region[descriptor];
    c->task_index[r->task] = (uint16_t)avail_of(noted);
    c->task_left[r->task] = (uint16_t)count_of(noted);
    return go_to(r, 25);
}

/* Puts a block on a cache of fewer than n, whose top has been tested. */
static inline void put_on_cache(const struct request *r, uint32_t unit)
{
    set_link(r->area, unit, r->control->top[r->task][r->class]);
    r->control->top[r->task][r->class] = (uint16_t)unit;
    r->control->count[r->task][r->class] += 1;
}

/* Whether the region and the index in the task's hands name a block, and the cache has room for it. */
static inline int can_put(const struct request *r)
{
    const struct control *c = r->control;
    unsigned count = c->count[r->task][r->class];
    return c->task_region[r->task] < r->regions && c->task_index[r->task] < PER_REGION[r->class]
        && count < PER_REGION[r->class] && is_top(r->regions, r->class, count, c->top[r->task][r->class]);
}

static inline uint32_t unit_in_hand(const struct request *r, unsigned index)
{
    return 512u * r->control->task_region[r->task] + UNITS[r->class] * index;
}

static inline uint64_t chain_move(const struct request *r)
{
    struct control *c = r->control;
    unsigned n = PER_REGION[r->class];
    unsigned left = c->task_left[r->task];
    uint32_t unit = unit_in_hand(r, c->task_index[r->task]);
    uint32_t next;
    if (!can_put(r) || left - 1 >= n)
        return DAMAGED;
    if (left == 1) {
        put_on_cache(r, unit);
        return go_to(r, 1);
    }
    next = link_of(r->area, unit); /* before the push overwrites it */
    if (next >= n)
        return DAMAGED;
    put_on_cache(r, unit);
    c->task_index[r->task] = (uint16_t)next;
    c->task_left[r->task] = (uint16_t)(left - 1);
    return 0;
}

static inline uint64_t region_open(const struct request *r)
{
    struct control *c = r->control;
    unsigned descriptor = c->task_descriptor[r->task];
    unsigned region = c->task_region[r->task];
    if (descriptor >= DESCRIPTORS || region >= r->regions)
        return DAMAGED;
    c->anchor[descriptor] = anchor_of(FULL, PER_REGION[r->class], 0);
    c->descriptor_region[descriptor] = (uint8_t)region;
    c->descriptor_class[descriptor] = (uint8_t)r->class;
    c->map[region] = (uint8_t)(descriptor + 1);
    c->task_index[r->task] = 0;
    return go_to(r, 27);
}

static inline uint64_t region_carve(const struct request *r)
{
    struct control *c = r->control;
    unsigned index = c->task_index[r->task];
    if (!can_put(r))
        return DAMAGED;
    put_on_cache(r, unit_in_hand(r, index));
    if (index + 1 == PER_REGION[r->class])
        return go_to(r, 1);
    c->task_index[r->task] = (uint16_t)(index + 1);
    return 0;
}

#endif
