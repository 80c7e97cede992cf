/*
 * The control memory of the pool written by hand: the layout of docs/LAYOUT.md as a packed struct, so that its bytes
 * can be compared with the library's after every call. Packed, since the memory may lie at any address; may_alias,
 * since it is lent as bytes.
 */
#ifndef BY_HAND_CONTROL_H
#define BY_HAND_CONTROL_H

#include <stdint.h>
#include <string.h>

/* CACHES is the room for caches of a task: more than there are classes, so that an index is a shift. */
enum { CLASSES = 13, CACHES = 16, TASKS = 8, REGIONS = 16, DESCRIPTORS = 64, SLOTS = 128, PLACES = 37 };

/* The lists: the partial descriptors of each class, by its number, and behind them these two. */
enum { SPARE_DESCRIPTORS = CLASSES, SPARE_REGIONS, LISTS };

struct __attribute__((packed, may_alias)) control {
    uint64_t head[LISTS];
    uint8_t unused_120[136];
    uint64_t anchor[DESCRIPTORS];
    uint64_t marks[128];
    uint8_t unused_1792[3072];
    uint64_t task_head[TASKS];
    uint64_t task_anchor[TASKS];
    uint16_t top[TASKS][CACHES];
    uint16_t count[TASKS][CACHES];
    uint16_t task_unit[TASKS];
    uint16_t task_index[TASKS];
    uint16_t task_left[TASKS];
    uint16_t group_first[TASKS];
    uint16_t group_last[TASKS];
    uint16_t group_count[TASKS];
    uint32_t task_lost[TASKS];
    uint8_t task_place[TASKS];
    uint8_t task_class[TASKS];
    uint8_t task_next[TASKS];
    uint8_t task_descriptor[TASKS];
    uint8_t task_region[TASKS];
    uint8_t task_state[TASKS];
    uint8_t unused_5680[16];
    uint8_t descriptor_next[DESCRIPTORS];
    uint8_t region_next[REGIONS];
    uint8_t descriptor_region[DESCRIPTORS];
    uint8_t descriptor_class[DESCRIPTORS];
    uint8_t map[REGIONS];
    uint8_t unused_5920[24];
    uint8_t tasks;
    uint8_t regions;
    uint8_t unused_5946[70];
    uint64_t free_nodes[4];
    uint8_t slot[SLOTS];
    uint8_t unused_6176[2016];
};

typedef char control_is_8192_bytes[sizeof(struct control) == 8192 ? 1 : -1];

enum { NO_BLOCK = 8192, DAMAGED = 14, NO_STRIP = 16, FINISHED = 20 };
enum { EMPTY = 0, PARTIAL = 1, FULL = 2 };

static const uint8_t UNITS[CLASSES] = {1, 2, 4, 6, 8, 10, 12, 14, 16, 20, 24, 28, 32};
static const uint16_t PER_REGION[CLASSES] = {512, 256, 128, 85, 64, 51, 42, 36, 32, 25, 21, 18, 16};
/* The library's factors, by which it tells a first unit without a division: what they save is saved here, too. */
static const uint32_t FACTOR[CLASSES] = {128u, 2147483776u, 1073741953u, 3579139543u, 536871042u, 3006477238u,
                                         357914074u, 306783512u, 268435588u, 1503238690u, 178957107u, 460175205u,
                                         134217864u};
static const uint8_t CLASS_OF_UNITS[33] = {0, 0, 1, 2, 2, 3,  3,  4,  4,  5,  5,  6,  6,  7,  7,  8, 8,
                                           9, 9, 9, 9, 10, 10, 10, 10, 11, 11, 11, 11, 12, 12, 12, 12};

/* ---- words ---- */

static inline uint32_t item_of(uint64_t head)
{
    return (uint32_t)head;
}

/* The head after a won exchange: another item on top, and one more in the tag, which wraps by itself. */
static inline uint64_t advanced(uint64_t head, uint32_t item)
{
    return (((head >> 32) + 1) << 32) | item;
}

static inline unsigned state_of(uint64_t anchor)
{
    return anchor & 3;
}

static inline uint32_t avail_of(uint64_t anchor)
{
    return (uint32_t)(anchor >> 2) & 0x7FFFFFFF;
}

static inline uint32_t count_of(uint64_t anchor)
{
    return (uint32_t)(anchor >> 33);
}

static inline uint64_t anchor_of(unsigned state, uint32_t avail, uint32_t count)
{
    return (uint64_t)count << 33 | (uint64_t)avail << 2 | state;
}

/* ---- the link of a free block: its first four bytes, low byte first, as this machine has them ---- */

static inline uint32_t link_of(const uint8_t *area, uint32_t unit)
{
    uint32_t link;
    memcpy(&link, area + 8 * (size_t)unit, sizeof link);
    return link;
}

static inline void set_link(uint8_t *area, uint32_t unit, uint32_t link)
{
    memcpy(area + 8 * (size_t)unit, &link, sizeof link);
}

/* ---- the tests whose failure is 14 ---- */

static inline int is_first(unsigned class, uint32_t unit)
{
    return (uint32_t)(unit % 512 * FACTOR[class]) < 65536;
}

static inline int is_block(unsigned regions, unsigned class, uint32_t unit)
{
    return unit / 512 < regions && is_first(class, unit);
}

static inline int is_top(unsigned regions, unsigned class, unsigned count, uint32_t unit)
{
    return count == 0 ? unit == NO_BLOCK : is_block(regions, class, unit);
}

static inline int is_anchor(uint64_t anchor)
{
    return state_of(anchor) <= FULL && avail_of(anchor) <= 512 && count_of(anchor) <= 512;
}

static inline int has_first(unsigned n, uint64_t anchor)
{
    return count_of(anchor) == 0 || avail_of(anchor) < n;
}

static inline int has_room(unsigned n, unsigned group, uint64_t anchor)
{
    return has_first(n, anchor) && count_of(anchor) + group <= n;
}

static inline int has_chain(unsigned n, uint64_t anchor)
{
    return state_of(anchor) == PARTIAL && count_of(anchor) >= 1 && count_of(anchor) <= n && avail_of(anchor) < n;
}

#endif
