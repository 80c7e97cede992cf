/*
 * Leaving, written by hand: the caches of a task are returned in rising order of class, each as a free returns a full
 * one. What a free does not have are its beginning, the way from one cache to the next, and its last step.
 */
#ifndef BY_HAND_LEAVE_H
#define BY_HAND_LEAVE_H

#include "by_hand_steps.h"

/* What stands in the place of a freed unit while a task leaves, and the place at which all its caches are empty. */
enum { LEAVING = 16384, LEAVE = 36 };

/* Where a return leads, and in which class. Place 0: a value is damaged. */
struct way {
    unsigned place;
    unsigned class;
};

/* The way to the first cache that is not empty, of the classes from this one on; to the last step where all are. */
static inline struct way way_from(const struct control *c, uint64_t task, unsigned class)
{
    struct way way = {29, class};
    while (way.class < CLASSES && c->count[task][way.class] == 0)
        way.class += 1;
    if (way.class == CLASSES) {
        way.place = LEAVE;
        way.class = c->task_class[task];
    } else if (c->count[task][way.class] > PER_REGION[way.class]) {
        way.place = 0;
    }
    return way;
}

static inline uint64_t go_way(struct control *c, uint64_t task, struct way way)
{
    c->task_place[task] = (uint8_t)way.place;
    c->task_class[task] = (uint8_t)way.class;
    if (way.place == 29)
        c->group_count[task] = 0;
    return 0;
}

static inline uint64_t leave_begin(struct control *c, uint64_t task)
{
    struct way way = way_from(c, task, 0);
    if (way.place == 0)
        return DAMAGED;
    c->task_unit[task] = LEAVING;
    c->task_lost[task] = 0;
    return go_way(c, task, way);
}

static inline uint64_t leave_end(const struct request *r)
{
    return end(r, FINISHED);
}

#endif
