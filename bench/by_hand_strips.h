/*
 * The strips, written by hand: a buddy system over 128 slots of 512 bytes. The free pieces are the nodes of a tree in
 * heap order, a bit each: node 1 is the whole, 2 i and 2 i + 1 are the halves of i. A slot where a strip begins has a
 * byte: 1 + its order in hand, 9 + its order once its free has begun.
 */
#ifndef BY_HAND_STRIPS_H
#define BY_HAND_STRIPS_H

#include "by_hand_steps.h"

enum { STRIPS = 65536, ORDERS = 8, WHOLE = 1, FIRST_STRIP = 8192, SLOT_UNITS = 64, TAKE = 34, GIVE = 35 };
enum { IN_HAND = 1, BEGUN = 9, LAST_BYTE = 16 };

static inline unsigned lowest_bit(uint64_t word)
{
    return (unsigned)__builtin_ctzll(word);
}

static inline unsigned highest_bit(uint64_t word)
{
    return 63 - (unsigned)__builtin_clzll(word);
}

static inline int is_slot_unit(uint64_t unit)
{
    return unit - FIRST_STRIP < SLOTS * SLOT_UNITS && unit % SLOT_UNITS == 0;
}

static inline int can_begin(unsigned slot, unsigned order)
{
    return slot % (1u << order) == 0;
}

/* ---- the beginnings ---- */

static inline uint64_t strip_begin_take(struct control *c, uint64_t task, uint64_t size)
{
    c->task_place[task] = TAKE;
    c->task_class[task] = (uint8_t)(size <= 512 ? 0 : highest_bit((size - 1) / 512) + 1);
    c->task_lost[task] = 0;
    return 0;
}

static inline uint64_t strip_begin_give(struct control *c, uint64_t task, uint64_t unit)
{
    unsigned slot, byte;
    if (!is_slot_unit(unit))
        return 10;
    slot = (unsigned)(unit - FIRST_STRIP) / SLOT_UNITS;
    byte = c->slot[slot];
    if (byte == 0)
        return 10;
    if (byte > LAST_BYTE || !can_begin(slot, (byte - IN_HAND) % ORDERS))
        return DAMAGED;
    if (byte >= BEGUN)
        return 11;
    c->slot[slot] = (uint8_t)(byte + ORDERS);
    c->task_place[task] = GIVE;
    c->task_unit[task] = (uint16_t)unit;
    c->task_lost[task] = 0;
    return 0;
}

/* ---- the steps ---- */

static inline int is_free(const struct control *c, unsigned node)
{
    return (int)(c->free_nodes[node / 64] >> node % 64 & 1);
}

static inline void set_free(struct control *c, unsigned node)
{
    c->free_nodes[node / 64] |= (uint64_t)1 << node % 64;
}

static inline void clear_free(struct control *c, unsigned node)
{
    c->free_nodes[node / 64] &= ~((uint64_t)1 << node % 64);
}

/* The lowest of the smallest free pieces of this order or a larger one, or 0. The nodes of order 0 are in the words 2
   and 3, those of order 1 in word 1, all others in word 0, where the deepest level is that of the highest bit. */
static inline unsigned find_free(const struct control *c, unsigned wanted)
{
    uint64_t larger = c->free_nodes[0] & ~(uint64_t)1;
    unsigned first;
    if (wanted == 0 && c->free_nodes[2] != 0)
        return 128 + lowest_bit(c->free_nodes[2]);
    if (wanted == 0 && c->free_nodes[3] != 0)
        return 192 + lowest_bit(c->free_nodes[3]);
    if (wanted <= 1 && c->free_nodes[1] != 0)
        return 64 + lowest_bit(c->free_nodes[1]);
    if (wanted > 2)
        larger &= ((uint64_t)1 << (256u >> wanted)) - 1;
    if (larger == 0)
        return 0;
    first = 1u << highest_bit(highest_bit(larger));
    return first + lowest_bit(larger >> first);
}

static uint64_t strip_take(const struct request *r)
{
    struct control *c = r->control;
    unsigned node, slot;
    if (r->class >= ORDERS)
        return DAMAGED;
    node = find_free(c, r->class);
    if (node == 0)
        return end(r, NO_STRIP);
    clear_free(c, node);
    while (node < (unsigned)SLOTS >> r->class) {
        node = 2 * node; /* the lower half */
        set_free(c, node + 1);
    }
    slot = (node << r->class) - SLOTS;
    c->slot[slot] = (uint8_t)(IN_HAND + r->class);
    return end(r, FINISHED + 256 * (uint64_t)(FIRST_STRIP + SLOT_UNITS * slot));
}

static uint64_t strip_give(const struct request *r)
{
    struct control *c = r->control;
    unsigned unit = c->task_unit[r->task];
    unsigned slot, order, node;
    if (!is_slot_unit(unit))
        return DAMAGED;
    slot = (unit - FIRST_STRIP) / SLOT_UNITS;
    order = (unsigned)c->slot[slot] - BEGUN;
    if (order >= ORDERS || !can_begin(slot, order))
        return DAMAGED;
    c->slot[slot] = 0;
    node = (SLOTS + slot) >> order;
    while (node > WHOLE && is_free(c, node ^ 1)) {
        clear_free(c, node ^ 1);
        node /= 2;
    }
    set_free(c, node);
    return end(r, FINISHED);
}

#endif
