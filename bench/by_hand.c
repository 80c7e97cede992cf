/*
 * The pool written by hand in C, to compare the library with: the paper's step list over a packed struct, with every
 * range test that the paper demands and no proof. The prefix of the names can be set, so that one program can hold it
 * from two compilers.
 */
#include "by_hand_free.h"
#include "by_hand_holders.h"
#include "by_hand_keepers.h"
#include "by_hand_sheet.h"
#include "by_hand_strips.h"

#ifndef BY_HAND
#define BY_HAND(call) by_hand_##call
#endif

/* Tests 1, 4, 2 and 5. */
static inline unsigned tests(const struct control *c, uint64_t control_length, uint64_t area_length,
                             uint64_t strips_length, uint64_t task)
{
    if (control_length != sizeof *c)
        return 1;
    if (c->tasks > TASKS)
        return DAMAGED;
    if (c->tasks == 0)
        return 4;
    if (c->regions - 1u >= REGIONS)
        return DAMAGED;
    if (area_length != 4096 * (uint64_t)c->regions || strips_length != STRIPS)
        return 2;
    return task < c->tasks ? 0 : 5;
}

uint64_t BY_HAND(start)(uint8_t *control, uint64_t control_length, const uint8_t *area, uint64_t area_length,
                        const uint8_t *strips, uint64_t strips_length, uint64_t tasks)
{
    struct control *c = (struct control *)control;
    unsigned regions = (unsigned)(area_length / 4096);
    (void)area;
    (void)strips;
    if (control_length != sizeof *c)
        return 1;
    if (area_length % 4096 != 0 || area_length == 0 || area_length > 4096 * REGIONS || strips_length != STRIPS)
        return 2;
    if (tasks == 0 || tasks > TASKS)
        return 3;
    memset(c, 0, sizeof *c);
    c->tasks = (uint8_t)tasks;
    c->regions = (uint8_t)regions;
    c->head[SPARE_DESCRIPTORS] = 1;
    c->head[SPARE_REGIONS] = 1;
    c->free_nodes[0] = 1 << WHOLE;
    for (unsigned i = 0; i + 1 < DESCRIPTORS; i++)
        c->descriptor_next[i] = (uint8_t)(i + 2);
    for (unsigned i = 0; i + 1 < regions; i++)
        c->region_next[i] = (uint8_t)(i + 2);
    for (unsigned task = 0; task < TASKS; task++)
        for (unsigned cache = 0; cache < CACHES; cache++)
            c->top[task][cache] = NO_BLOCK;
    return 0;
}

uint64_t BY_HAND(begin_allocate)(uint8_t *control, uint64_t control_length, const uint8_t *area, uint64_t area_length,
                                 const uint8_t *strips, uint64_t strips_length, uint64_t task, uint64_t size)
{
    struct control *c = (struct control *)control;
    unsigned refused = tests(c, control_length, area_length, strips_length, task);
    (void)area;
    (void)strips;
    if (refused != 0)
        return refused;
    if (c->task_place[task] != 0)
        return c->task_place[task] >= PLACES ? DAMAGED : 6;
    if (size == 0)
        return 8;
    if (size > 256)
        return size > STRIPS ? 9 : strip_begin_take(c, task, size);
    c->task_place[task] = 1;
    c->task_class[task] = CLASS_OF_UNITS[(size + 7) / 8];
    c->task_lost[task] = 0;
    return 0;
}

/* The class of the open region in which a unit is the first of a block; else CLASSES plus the refusal's number. */
static inline unsigned class_of_block(const struct control *c, uint64_t unit)
{
    uint64_t region = unit / 512;
    unsigned entry, descriptor;
    if (region >= c->regions)
        return CLASSES + 10;
    entry = c->map[region];
    if (entry == 0)
        return CLASSES + 10;
    if (entry > DESCRIPTORS)
        return CLASSES + DAMAGED;
    descriptor = entry - 1;
    if (c->descriptor_region[descriptor] >= c->regions)
        return CLASSES + DAMAGED;
    if (c->descriptor_region[descriptor] != region)
        return CLASSES + 10;
    if (!is_anchor(c->anchor[descriptor]))
        return CLASSES + DAMAGED;
    if (state_of(c->anchor[descriptor]) == EMPTY)
        return CLASSES + 10;
    if (c->descriptor_class[descriptor] >= CLASSES)
        return CLASSES + DAMAGED;
    return is_first(c->descriptor_class[descriptor], (uint32_t)unit) ? c->descriptor_class[descriptor] : CLASSES + 10;
}

uint64_t BY_HAND(begin_free)(uint8_t *control, uint64_t control_length, const uint8_t *area, uint64_t area_length,
                             const uint8_t *strips, uint64_t strips_length, uint64_t task, uint64_t unit)
{
    struct control *c = (struct control *)control;
    unsigned refused = tests(c, control_length, area_length, strips_length, task);
    unsigned class;
    (void)area;
    (void)strips;
    if (refused != 0)
        return refused;
    if (c->task_place[task] != 0)
        return c->task_place[task] >= PLACES ? DAMAGED : 6;
    if (unit >= FIRST_STRIP)
        return strip_begin_give(c, task, unit);
    class = class_of_block(c, unit);
    if (class >= CLASSES)
        return class - CLASSES;
    if ((c->marks[unit / 64] >> unit % 64 & 1) == 0)
        return 11;
    c->task_place[task] = 28;
    c->task_class[task] = (uint8_t)class;
    c->task_unit[task] = (uint16_t)unit;
    c->task_lost[task] = 0;
    c->marks[unit / 64] &= ~((uint64_t)1 << unit % 64);
    return 0;
}

uint64_t BY_HAND(begin_leave)(uint8_t *control, uint64_t control_length, const uint8_t *area, uint64_t area_length,
                              const uint8_t *strips, uint64_t strips_length, uint64_t task)
{
    struct control *c = (struct control *)control;
    unsigned refused = tests(c, control_length, area_length, strips_length, task);
    (void)area;
    (void)strips;
    if (refused != 0)
        return refused;
    if (c->task_place[task] != 0)
        return c->task_place[task] >= PLACES ? DAMAGED : 6;
    return leave_begin(c, task);
}

/* The push of the descriptor in the task's hand to the spare ones, which leads to a place; 0 ends with 13. */
static inline uint64_t spare_exchange(const struct request *r, unsigned place, unsigned when_won)
{
    unsigned descriptor = r->control->task_descriptor[r->task];
    struct list list = descriptors(r, place, SPARE_DESCRIPTORS);
    int test = push_test(r, list, descriptor);
    if (test != 0)
        return test == DAMAGED ? DAMAGED : lose(r, list.place);
    push_store(r, list, descriptor);
    return when_won == 0 ? end(r, 13) : go_to(r, when_won);
}

/* The list moves, by the places of docs/LAYOUT.md. */
static uint64_t list_step(const struct request *r, unsigned place)
{
    struct control *c = r->control;
    switch (place) {
    case 2: return pop_read(r, descriptors(r, 2, r->class), 5);
    case 3: return pop_next(r, descriptors(r, 2, r->class));
    case 4: return pop_exchange(r, descriptors(r, 2, r->class), c->task_descriptor, 23);
    case 5: return pop_read(r, descriptors(r, 5, SPARE_DESCRIPTORS), 0);
    case 6: return pop_next(r, descriptors(r, 5, SPARE_DESCRIPTORS));
    case 7: return pop_exchange(r, descriptors(r, 5, SPARE_DESCRIPTORS), c->task_descriptor, 8);
    case 8: return pop_read(r, regions(r, 8), 14);
    case 9: return pop_next(r, regions(r, 8));
    case 10: return pop_exchange(r, regions(r, 8), c->task_region, 26);
    case 11: return push_read(r, descriptors(r, 11, SPARE_DESCRIPTORS));
    case 12: return push_next(r, descriptors(r, 11, SPARE_DESCRIPTORS), c->task_descriptor[r->task]);
    case 13: return spare_exchange(r, 11, 2);
    case 14: return push_read(r, descriptors(r, 14, SPARE_DESCRIPTORS));
    case 15: return push_next(r, descriptors(r, 14, SPARE_DESCRIPTORS), c->task_descriptor[r->task]);
    case 16: return spare_exchange(r, 14, 0);
    case 17: return push_read(r, regions(r, 17));
    case 18: return push_next(r, regions(r, 17), c->task_region[r->task]);
    case 19: return release_exchange(r);
    case 20: return push_read(r, descriptors(r, 20, r->class));
    case 21: return push_next(r, descriptors(r, 20, r->class), c->task_descriptor[r->task]);
    case 22: return offer_exchange(r);
    default: return DAMAGED;
    }
}

/* The other steps, among them the two of the hot path. */
static inline uint64_t step_at(const struct request *r, unsigned place)
{
    switch (place) {
    case 1: return take_from_cache(r);
    case 23: return chain_read(r);
    case 24: return chain_exchange(r);
    case 25: return chain_move(r);
    case 26: return region_open(r);
    case 27: return region_carve(r);
    case 28: return put_freed(r);
    case 29: return group_take(r);
    case 30: return return_read(r);
    case 31: return return_link(r);
    case 32: return return_exchange(r);
    case 33: return map_clear(r);
    case TAKE: return strip_take(r);
    case GIVE: return strip_give(r);
    case LEAVE: return leave_end(r);
    default: return list_step(r, place);
    }
}

uint64_t BY_HAND(step)(uint8_t *control, uint64_t control_length, uint8_t *area, uint64_t area_length,
                       const uint8_t *strips, uint64_t strips_length, uint64_t task)
{
    struct control *c = (struct control *)control;
    struct request request = {c, area, 0, (unsigned)task, 0};
    unsigned refused = tests(c, control_length, area_length, strips_length, task);
    (void)strips;
    if (refused != 0)
        return refused;
    if (c->task_place[task] == 0)
        return 7;
    request.regions = c->regions;
    request.class = c->task_class[task];
    if (request.class >= CLASSES)
        return DAMAGED;
    return step_at(&request, c->task_place[task]);
}

/* A report of numbers. */
FOR_EACH_REPORT uint64_t numbers(const uint8_t *control, uint64_t control_length, const uint8_t *area,
                                 uint64_t area_length, uint64_t strips_length, struct numbering number, uint8_t *row,
                                 uint64_t row_length)
{
    const struct control *c = (const struct control *)control;
    unsigned refused = tests(c, control_length, area_length, strips_length, 0);
    return refused != 0 ? refused : numbers_write(c, area, number, row, row_length);
}

uint64_t BY_HAND(sheet)(const uint8_t *control, uint64_t control_length, const uint8_t *area, uint64_t area_length,
                        const uint8_t *strips, uint64_t strips_length, uint8_t *sheet, uint64_t sheet_length)
{
    (void)strips;
    return numbers(control, control_length, area, area_length, strips_length, SHEET_NUMBERING, sheet, sheet_length);
}

uint64_t BY_HAND(holders)(const uint8_t *control, uint64_t control_length, const uint8_t *area, uint64_t area_length,
                          const uint8_t *strips, uint64_t strips_length, uint8_t *form, uint64_t form_length)
{
    (void)strips;
    return numbers(control, control_length, area, area_length, strips_length, FORM_NUMBERING, form, form_length);
}

uint64_t BY_HAND(keepers)(const uint8_t *control, uint64_t control_length, const uint8_t *area, uint64_t area_length,
                          const uint8_t *strips, uint64_t strips_length, uint8_t *row, uint64_t row_length)
{
    const struct control *c = (const struct control *)control;
    unsigned refused = tests(c, control_length, area_length, strips_length, 0);
    (void)strips;
    return refused != 0 ? refused : keepers_write(c, area, row, row_length);
}
