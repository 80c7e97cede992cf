/*
 * What the reports written by hand share: each region, each request and each cache is read and tested once, and each
 * report notes what it makes of the blocks that are found. The regions come first, for a block counts only where its
 * region is open in its class. The row is written last, for a refused call changes no byte of it.
 */
#ifndef BY_HAND_REPORTS_H
#define BY_HAND_REPORTS_H

#include "by_hand_leave.h"

enum { TOO_SHORT = 23, COUNTS_MOST = 4 * REGIONS * CLASSES };

struct report;

/* What a report makes of a region that is open in a class, with so many blocks in its chain; of a cached block of such
   a region; and of blocks of such a region that a running request has. */
struct notes {
    void (*open)(const struct control *c, struct report *r, unsigned class, unsigned region, unsigned chain);
    void (*cached)(struct report *r, unsigned task, unsigned class, uint32_t unit);
    void (*running)(struct report *r, unsigned task, unsigned class, unsigned region, unsigned blocks);
};

/* Which number of a report a block counts in: the first of its kind of holder, and so many further for each class, each
   region and, of caches and requests, each task. */
struct numbering {
    unsigned hands, caches, requests, chains;
    unsigned each_class, each_region, each_task;
    unsigned all; /* how many numbers there are */
};

/* What is noted: numbers as they stand in the row, low byte first as this machine has them, or the keeper of each
   region; and the class of each open region. */
struct report {
    struct numbering number;
    uint16_t counts[COUNTS_MOST];
    uint8_t open[REGIONS];
    uint32_t keepers[REGIONS];
};

/* The compiler makes these functions anew for each report, whose notes and numbering are constant: so they cost no
   instructions. */
#define FOR_EACH_REPORT static inline __attribute__((always_inline))

/* A word with the bits of every block's first unit, where the first block begins at bit 0. */
static const uint64_t EVERY[CLASSES] = {
    0xFFFFFFFFFFFFFFFFu, 0x5555555555555555u, 0x1111111111111111u, 0x1041041041041041u, 0x0101010101010101u,
    0x1004010040100401u, 0x1001001001001001u, 0x0100040010004001u, 0x0001000100010001u, 0x1000010000100001u,
    0x0001000001000001u, 0x0100000010000001u, 0x0000000100000001u};

/* A mark word of a region, of its eight, with the ones at the first units of blocks alone. */
static inline uint64_t marked_in(const struct control *c, unsigned class, unsigned region, unsigned word)
{
    unsigned units = UNITS[class];
    unsigned tail = units * PER_REGION[class];
    uint64_t mask = EVERY[class] << (units - 64 * word % units) % units;
    if (tail < 64 * word + 64)
        mask &= ((uint64_t)1 << tail % 64) - 1;
    return c->marks[8 * region + word] & mask;
}

/* The blocks of a region whose mark is set. */
static inline unsigned count_marked(const struct control *c, unsigned class, unsigned region)
{
    unsigned ones = 0;
    for (unsigned word = 0; word < 8; word++)
        ones += (unsigned)__builtin_popcountll(marked_in(c, class, region, word));
    return ones;
}

/* Adds blocks of a region to the number of a holder. */
FOR_EACH_REPORT void add(struct report *r, unsigned holder, unsigned class, unsigned region, unsigned blocks)
{
    r->counts[r->number.each_class * class + r->number.each_region * region + holder] += (uint16_t)blocks;
}

FOR_EACH_REPORT void count_open(const struct control *c, struct report *r, unsigned class, unsigned region,
                                unsigned chain)
{
    add(r, r->number.hands, class, region, count_marked(c, class, region));
    add(r, r->number.chains, class, region, chain);
}

FOR_EACH_REPORT void count_cached(struct report *r, unsigned task, unsigned class, uint32_t unit)
{
    add(r, r->number.caches + r->number.each_task * task, class, unit / 512, 1);
}

FOR_EACH_REPORT void count_running(struct report *r, unsigned task, unsigned class, unsigned region, unsigned blocks)
{
    add(r, r->number.requests + r->number.each_task * task, class, region, blocks);
}

static const struct notes COUNTING = {count_open, count_cached, count_running};

/* Each of these reads something, has it noted and tells whether all that it read is in range. */

FOR_EACH_REPORT int read_region(const struct control *c, const struct notes *note, struct report *r, unsigned region)
{
    unsigned entry = c->map[region];
    unsigned class;
    uint64_t anchor;
    r->open[region] = CLASSES;
    if (entry == 0)
        return 1;
    if (entry > DESCRIPTORS || c->descriptor_region[entry - 1] >= c->regions)
        return 0;
    if (c->descriptor_region[entry - 1] != region)
        return 1;
    anchor = c->anchor[entry - 1];
    if (!is_anchor(anchor))
        return 0;
    if (state_of(anchor) == EMPTY)
        return 1;
    class = c->descriptor_class[entry - 1];
    if (class >= CLASSES || count_of(anchor) > PER_REGION[class])
        return 0;
    r->open[region] = (uint8_t)class;
    note->open(c, r, class, region, count_of(anchor));
    return 1;
}

FOR_EACH_REPORT int read_cache(const struct control *c, const uint8_t *area, const struct notes *note,
                               struct report *r, unsigned task, unsigned class)
{
    unsigned count = c->count[task][class];
    uint32_t unit = c->top[task][class];
    if (count > PER_REGION[class])
        return 0;
    for (; count != 0; count--) {
        if (!is_block(c->regions, class, unit))
            return 0;
        if (r->open[unit / 512] == class)
            note->cached(r, task, class, unit);
        unit = link_of(area, unit);
    }
    return unit == NO_BLOCK;
}

FOR_EACH_REPORT void note_running(const struct notes *note, struct report *r, unsigned task, unsigned class,
                                  unsigned region, unsigned blocks)
{
    if (r->open[region] == class)
        note->running(r, task, class, region, blocks);
}

/* The blocks of the region in the task's hand, at its place: a chain, what is to be carved, a group. */
FOR_EACH_REPORT int read_blocks(const struct control *c, const struct notes *note, struct report *r, unsigned task,
                                unsigned place, unsigned class)
{
    unsigned n = PER_REGION[class];
    unsigned blocks = 0;
    unsigned least = place == 25 || place == 27 || (place >= 30 && place <= 32);
    if (place == 25)
        blocks = c->task_left[task];
    else if (place == 27)
        blocks = c->task_index[task] < n ? n - c->task_index[task] : 0;
    else if (place >= 29 && place <= 32)
        blocks = c->group_count[task];
    if (blocks < least || blocks > n)
        return 0;
    if (blocks == 0)
        return 1;
    if (c->task_region[task] >= c->regions)
        return 0;
    note_running(note, r, task, class, c->task_region[task], blocks);
    return 1;
}

FOR_EACH_REPORT int read_request(const struct control *c, const struct notes *note, struct report *r, unsigned task)
{
    unsigned place = c->task_place[task];
    unsigned class = c->task_class[task];
    unsigned unit = c->task_unit[task];
    int returns = (place >= 29 && place <= 33) || (place >= 17 && place <= 22);
    if (place == 0 || (place >= 34 && place < PLACES)) /* idle, a strip's request, the last step of leaving */
        return 1;
    if (place >= PLACES || class >= CLASSES || !read_blocks(c, note, r, task, place, class))
        return 0;
    if (place != 28 && (!returns || unit == LEAVING))
        return 1;
    if (!is_block(c->regions, class, unit))
        return 0;
    note_running(note, r, task, class, unit / 512, 1);
    return 1;
}

FOR_EACH_REPORT int read_pool(const struct control *c, const uint8_t *area, const struct notes *note,
                              struct report *r)
{
    for (unsigned region = 0; region < c->regions; region++)
        if (!read_region(c, note, r, region))
            return 0;
    for (unsigned task = 0; task < TASKS; task++)
        if (!read_request(c, note, r, task))
            return 0;
    for (unsigned task = 0; task < TASKS; task++)
        for (unsigned class = 0; class < CLASSES; class++)
            if (!read_cache(c, area, note, r, task, class))
                return 0;
    return 1;
}

/* A report of numbers. */
FOR_EACH_REPORT uint64_t numbers_write(const struct control *c, const uint8_t *area, struct numbering number,
                                       uint8_t *row, uint64_t row_length)
{
    struct report r;
    r.number = number;
    memset(r.counts, 0, 2 * number.all);
    if (!read_pool(c, area, &COUNTING, &r))
        return DAMAGED;
    if (row_length < 2 * number.all)
        return TOO_SHORT;
    memcpy(row, r.counts, 2 * number.all);
    return FINISHED;
}

#endif
