/* The region's keepers, written by hand: for each region of the area the first that applies of a block in hand, a
   cached block, a running request and the list of spare regions. */
#ifndef BY_HAND_KEEPERS_H
#define BY_HAND_KEEPERS_H

#include "by_hand_reports.h"

enum { KEPT_IN_HAND = 1, KEPT_IN_CACHE, KEPT_BY_REQUEST, KEPT_SPARE, KEEPER_BYTES = 4, NO_KEEPER = 255 };

/* A keeper is one number: the kind above the task above the unit. So of two that apply the smaller one is named. */
FOR_EACH_REPORT void keep(struct report *r, unsigned region, unsigned kind, unsigned task, unsigned unit)
{
    uint32_t keeper = (uint32_t)kind << 24 | (uint32_t)task << 16 | unit;
    if (keeper < r->keepers[region])
        r->keepers[region] = keeper;
}

FOR_EACH_REPORT void keep_open(const struct control *c, struct report *r, unsigned class, unsigned region,
                               unsigned chain)
{
    unsigned word = 0;
    uint64_t marked = marked_in(c, class, region, 0);
    (void)chain;
    while (marked == 0 && word < 7)
        marked = marked_in(c, class, region, ++word);
    if (marked != 0)
        keep(r, region, KEPT_IN_HAND, 0, 512 * region + 64 * word + (unsigned)__builtin_ctzll(marked));
}

FOR_EACH_REPORT void keep_cached(struct report *r, unsigned task, unsigned class, uint32_t unit)
{
    (void)class;
    keep(r, unit / 512, KEPT_IN_CACHE, task, unit);
}

FOR_EACH_REPORT void keep_running(struct report *r, unsigned task, unsigned class, unsigned region, unsigned blocks)
{
    (void)class;
    (void)blocks;
    keep(r, region, KEPT_BY_REQUEST, task, 0);
}

static const struct notes KEEPING = {keep_open, keep_cached, keep_running};

/* The list has to end after at most as many items as there are regions. */
static inline int read_spare_regions(const struct control *c, struct report *r)
{
    uint32_t item = item_of(c->head[SPARE_REGIONS]);
    for (unsigned left = c->regions; item != 0; left--) {
        if (left == 0 || item > c->regions)
            return 0;
        keep(r, item - 1, KEPT_SPARE, 0, 0);
        item = c->region_next[item - 1];
    }
    return 1;
}

/* The regions that requests have themselves: popped and not yet opened, or emptied and not yet pushed. One that is
   open, or on the list, is not kept so. */
static inline int read_regions_of_tasks(const struct control *c, struct report *r)
{
    for (unsigned task = 0; task < TASKS; task++) {
        unsigned place = c->task_place[task];
        unsigned region = c->task_region[task];
        if (place != 26 && place != 33 && !(place >= 17 && place <= 19))
            continue;
        if (region >= c->regions)
            return 0;
        if (r->open[region] == CLASSES && r->keepers[region] >> 24 != KEPT_SPARE)
            keep(r, region, KEPT_BY_REQUEST, task, 0);
    }
    return 1;
}

FOR_EACH_REPORT uint64_t keepers_write(const struct control *c, const uint8_t *area, uint8_t *row,
                                       uint64_t row_length)
{
    struct report r;
    memset(r.keepers, NO_KEEPER, sizeof r.keepers);
    if (!read_pool(c, area, &KEEPING, &r) || !read_spare_regions(c, &r) || !read_regions_of_tasks(c, &r))
        return DAMAGED;
    for (unsigned region = 0; region < c->regions; region++)
        if (r.keepers[region] >> 24 == NO_KEEPER)
            return DAMAGED;
    if (row_length < KEEPER_BYTES * (uint64_t)c->regions)
        return TOO_SHORT;
    for (unsigned region = 0; region < c->regions; region++) {
        uint32_t keeper = r.keepers[region];
        const uint8_t bytes[KEEPER_BYTES] = {(uint8_t)(keeper >> 24), (uint8_t)(keeper >> 16), (uint8_t)keeper,
                                             (uint8_t)(keeper >> 8)};
        memcpy(row + KEEPER_BYTES * region, bytes, sizeof bytes);
    }
    return FINISHED;
}

#endif
