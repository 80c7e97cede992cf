/* The steps of a free, written by hand, from the paper. Those of the return are leaving's, too. */
#ifndef BY_HAND_FREE_H
#define BY_HAND_FREE_H

#include "by_hand_leave.h"

static inline uint64_t new_group(const struct request *r)
{
    r->control->group_count[r->task] = 0;
    return go_to(r, 29);
}

static inline uint64_t put_freed(const struct request *r)
{
    struct control *c = r->control;
    unsigned count = c->count[r->task][r->class];
    unsigned n = PER_REGION[r->class];
    uint32_t unit = c->task_unit[r->task];
    if (count > n)
        return DAMAGED;
    if (count == n)
        return new_group(r);
    if (!is_block(r->regions, r->class, unit) || !is_top(r->regions, r->class, count, c->top[r->task][r->class]))
        return DAMAGED;
    put_on_cache(r, unit);
    return end(r, FINISHED);
}

/* Takes the cache's top, a block of `count`, out of the cache. */
static inline void drop_top(const struct request *r, uint32_t below, unsigned count)
{
    r->control->top[r->task][r->class] = (uint16_t)below;
    r->control->count[r->task][r->class] = (uint16_t)(count - 1);
}

/* A further block of a group that has `group` of the region: it is linked behind the last. */
static inline uint64_t group_more(const struct request *r, uint32_t unit, unsigned count, unsigned group)
{
    struct control *c = r->control;
    unsigned n = PER_REGION[r->class];
    unsigned last = c->group_last[r->task];
    unsigned index = unit % 512 / UNITS[r->class];
    uint32_t below = link_of(r->area, unit);
    if (group >= n || last >= n || !is_top(r->regions, r->class, count - 1, below))
        return DAMAGED;
    set_link(r->area, unit_in_hand(r, last), index);
    c->group_last[r->task] = (uint16_t)index;
    c->group_count[r->task] = (uint16_t)(group + 1);
    drop_top(r, below, count);
    return 0;
}

static inline uint64_t group_first(const struct request *r, uint32_t unit, unsigned count)
{
    struct control *c = r->control;
    unsigned index = unit % 512 / UNITS[r->class];
    uint32_t below = link_of(r->area, unit);
    if (!is_top(r->regions, r->class, count - 1, below))
        return DAMAGED;
    c->task_region[r->task] = (uint8_t)(unit / 512);
    c->group_first[r->task] = (uint16_t)index;
    c->group_last[r->task] = (uint16_t)index;
    c->group_count[r->task] = 1;
    drop_top(r, below, count);
    return 0;
}

static inline uint64_t group_take(const struct request *r)
{
    struct control *c = r->control;
    unsigned count = c->count[r->task][r->class];
    unsigned group = c->group_count[r->task];
    uint32_t unit = c->top[r->task][r->class];
    if (count > PER_REGION[r->class] || group > PER_REGION[r->class])
        return DAMAGED;
    if (count == 0)
        return go_to(r, 30);
    if (!is_block(r->regions, r->class, unit))
        return DAMAGED;
    if (group == 0)
        return group_first(r, unit, count);
    if (c->task_region[r->task] >= r->regions)
        return DAMAGED;
    if (unit / 512 != c->task_region[r->task])
        return go_to(r, 30);
    return group_more(r, unit, count, group);
}

static inline uint64_t return_read(const struct request *r)
{
    struct control *c = r->control;
    unsigned n = PER_REGION[r->class];
    unsigned group = c->group_count[r->task];
    unsigned entry;
    uint64_t anchor;
    if (c->task_region[r->task] >= r->regions || group - 1 >= n)
        return DAMAGED;
    entry = c->map[c->task_region[r->task]];
    if (entry - 1 >= DESCRIPTORS)
        return DAMAGED;
    anchor = c->anchor[entry - 1];
    if (!is_anchor(anchor) || !has_room(n, group, anchor))
        return DAMAGED;
    c->task_descriptor[r->task] = (uint8_t)(entry - 1);
    c->task_anchor[r->task] = anchor;
    return go_to(r, 31);
}

static inline uint64_t return_link(const struct request *r)
{
    struct control *c = r->control;
    unsigned n = PER_REGION[r->class];
    unsigned last = c->group_last[r->task];
    uint64_t noted = c->task_anchor[r->task];
    if (c->task_region[r->task] >= r->regions || last >= n || !is_anchor(noted) || !has_first(n, noted))
        return DAMAGED;
    set_link(r->area, unit_in_hand(r, last), avail_of(noted));
    return go_to(r, 32);
}

/* Where a return and its pushes lead: to another group, or, with the cache empty, to the cache or on with leaving. It
   is always put in line: a compiler that does not keeps the request in memory, and every step pays for that. */
static inline __attribute__((always_inline)) struct way after_return(const struct request *r)
{
    const struct control *c = r->control;
    unsigned count = c->count[r->task][r->class];
    struct way way = {0, r->class};
    if (count > PER_REGION[r->class])
        return way;
    if (count == 0 && c->task_unit[r->task] == LEAVING)
        return way_from(c, r->task, r->class + 1);
    if (count == 0)
        way.place = c->task_unit[r->task] > LEAVING ? 0 : 28;
    else
        way.place = 29;
    return way;
}

/* The same where the return goes on at a place of its own. */
static inline struct way way_to(const struct request *r, unsigned place)
{
    struct way way = {place, r->class};
    return way;
}

static inline uint64_t return_exchange(const struct request *r)
{
    struct control *c = r->control;
    unsigned n = PER_REGION[r->class];
    unsigned descriptor = c->task_descriptor[r->task];
    unsigned first = c->group_first[r->task];
    unsigned group = c->group_count[r->task];
    uint64_t noted = c->task_anchor[r->task];
    unsigned count = count_of(noted) + group;
    struct way way;
    if (descriptor >= DESCRIPTORS || first >= n || group - 1 >= n || !is_anchor(noted) || !has_room(n, group, noted)
        || !is_anchor(c->anchor[descriptor]))
        return DAMAGED;
    if (c->anchor[descriptor] != noted)
        return lose(r, 30);
    way = count == n ? way_to(r, 33) : state_of(noted) == FULL ? way_to(r, 20) : after_return(r);
    if (way.place == 0)
        return DAMAGED;
    c->anchor[descriptor] = anchor_of(count == n ? EMPTY : PARTIAL, first, count);
    c->task_state[r->task] = (uint8_t)state_of(noted);
    return go_way(c, r->task, way);
}

static inline uint64_t map_clear(const struct request *r)
{
    unsigned region = r->control->task_region[r->task];
    if (region >= r->regions)
        return DAMAGED;
    r->control->map[region] = 0;
    return go_to(r, 17);
}

static inline uint64_t release_exchange(const struct request *r)
{
    unsigned region = r->control->task_region[r->task];
    unsigned state = r->control->task_state[r->task];
    struct list list = regions(r, 17);
    int test = push_test(r, list, region);
    struct way way;
    if (test != 0)
        return test == DAMAGED ? DAMAGED : lose(r, list.place);
    way = state > FULL ? way_to(r, 0) : state == FULL ? way_to(r, 20) : after_return(r);
    if (way.place == 0)
        return DAMAGED;
    push_store(r, list, region);
    return go_way(r->control, r->task, way);
}

static inline uint64_t offer_exchange(const struct request *r)
{
    unsigned descriptor = r->control->task_descriptor[r->task];
    struct list list = descriptors(r, 20, r->class);
    int test = push_test(r, list, descriptor);
    struct way way;
    if (test != 0)
        return test == DAMAGED ? DAMAGED : lose(r, list.place);
    way = after_return(r);
    if (way.place == 0)
        return DAMAGED;
    push_store(r, list, descriptor);
    return go_way(r->control, r->task, way);
}

#endif
