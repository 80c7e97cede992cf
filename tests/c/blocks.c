/* Blocks in users' hands: apart from each other, aligned, whole, freed by anyone. */
#include <stdio.h>
#include <string.h>

#include "check.h"
#include "classes.h"
#include "lent.h"
#include "pool.h"

/* Whether every byte of a block of the area was free until now; then it is taken. */
static int take_bytes(uint8_t *taken, uint64_t unit, unsigned block)
{
    uint8_t *bytes = (uint8_t *)POOL_BLOCK(taken, unit);
    for (unsigned i = 0; i < block; i++) {
        if (bytes[i] != 0)
            return 0;
        bytes[i] = 1;
    }
    return 1;
}

/* Two regions serve exactly 2 n blocks of a class, no two of which share a byte; then there is no region. */
static void all_blocks(const struct class *class)
{
    static uint8_t taken[2 * POOL_REGION_BYTES];
    struct lent lent = started(2, 1);
    unsigned count = 0;
    int apart = 1;
    uint64_t answer = allocate(&lent, 0, class->block);
    char name[80];
    memset(taken, 0, sizeof taken);
    while (POOL_CODE(answer) == POOL_FINISHED && count <= 2 * class->n && apart) {
        count += 1;
        apart = POOL_VALUE(answer) * POOL_UNIT_BYTES + class->block <= sizeof taken
            && take_bytes(taken, POOL_VALUE(answer), class->block);
        answer = allocate(&lent, 0, class->block);
    }
    sprintf(name, "blocks of %u bytes share no byte", class->block);
    check(name, apart);
    sprintf(name, "two regions have %u blocks of %u bytes, then none", 2 * class->n, class->block);
    check(name, count == 2 * class->n && POOL_CODE(answer) == POOL_NO_REGION && POOL_VALUE(answer) == 0);
}

/* Of the units of a region those are blocks at which one of the n begins: no other, and none behind the last block. */
static void first_units(const struct class *class)
{
    struct lent lent = started(1, 1);
    unsigned units = class->block / POOL_UNIT_BYTES;
    int told = 1;
    char name[80];
    (void)release(&lent, 0, POOL_VALUE(allocate(&lent, 0, class->block)));
    for (unsigned unit = 0; unit < REGION_UNITS; unit++) {
        int is_block = unit % units == 0 && unit / units < class->n;
        told = told && begin_free(&lent, 0, unit) == (is_block ? POOL_NOT_IN_USE : POOL_NOT_A_BLOCK);
    }
    sprintf(name, "a region of blocks of %u bytes: which of its units are blocks", class->block);
    check(name, told);
}

/* Two words that the compiler expects at a multiple of their size: it stores them together, by an instruction that
   fails elsewhere. */
typedef uint64_t pair __attribute__((vector_size(POOL_ALIGNMENT)));

static void fill(void *block, unsigned bytes, uint64_t unit)
{
    pair *row = (pair *)block;
    for (unsigned i = 0; i < bytes / sizeof *row; i++)
        row[i] = (pair){unit, i};
}

static int filled(const void *block, unsigned bytes, uint64_t unit)
{
    const pair *row = (const pair *)block;
    for (unsigned i = 0; i < bytes / sizeof *row; i++)
        if (row[i][0] != unit || row[i][1] != i)
            return 0;
    return 1;
}

/* All blocks of a class of 16 bytes or more, in as many regions as there may be. Each is aligned and is filled with
   pairs, which are whole when all blocks are handed out. */
static void aligned_blocks(const struct class *class)
{
    static uint64_t units[POOL_REGIONS_MOST * REGION_UNITS];
    struct lent lent = started(POOL_REGIONS_MOST, 1);
    unsigned count = 0;
    int aligned = 1;
    int whole = 1;
    uint64_t answer = allocate(&lent, 0, class->block);
    char name[80];
    while (POOL_CODE(answer) == POOL_FINISHED && count < POOL_REGIONS_MOST * class->n && aligned) {
        void *block = POOL_BLOCK(lent.area, POOL_VALUE(answer));
        aligned = (uintptr_t)block % POOL_ALIGNMENT == 0;
        if (aligned)
            fill(block, class->block, POOL_VALUE(answer));
        units[count++] = POOL_VALUE(answer);
        answer = allocate(&lent, 0, class->block);
    }
    for (unsigned i = 0; i < count && aligned; i++)
        whole = whole && filled(POOL_BLOCK(lent.area, units[i]), class->block, units[i]);
    sprintf(name, "blocks of %u bytes are aligned to %u", class->block, POOL_ALIGNMENT);
    check(name, aligned && count == POOL_REGIONS_MOST * class->n);
    sprintf(name, "blocks of %u bytes hold aligned pairs of words", class->block);
    check(name, aligned && whole);
}

/* The users fill their blocks; while others allocate and free, no byte of these changes. */
static void whole_in_hand(void)
{
    struct lent lent = started(3, 2);
    uint64_t units[8];
    int whole = 1;
    for (unsigned i = 0; i < 8; i++) {
        units[i] = POOL_VALUE(allocate(&lent, i % 2, 100));
        memset(POOL_BLOCK(lent.area, units[i]), (int)(0x50 + i), 112);
    }
    for (unsigned i = 0; i < 500; i++) {
        uint64_t answer = allocate(&lent, 1 - i % 2, i % 256 + 1);
        if (POOL_CODE(answer) == POOL_FINISHED)
            (void)release(&lent, i % 2, POOL_VALUE(answer));
    }
    for (unsigned i = 0; i < 8; i++)
        for (unsigned k = 0; k < 112; k++)
            whole = whole && ((uint8_t *)POOL_BLOCK(lent.area, units[i]))[k] == 0x50 + i;
    check("blocks in hand stay whole while others allocate and free", whole);
}

/* Whether every second block, from the first, still holds the byte of its number. */
static int every_second_whole(const struct lent *lent, const uint64_t *units)
{
    for (unsigned i = 0; i < REGION_UNITS; i += 2)
        for (unsigned k = 0; k < POOL_UNIT_BYTES; k++)
            if (((uint8_t *)POOL_BLOCK(lent->area, units[i]))[k] != (uint8_t)(i / 2))
                return 0;
    return 1;
}

/* The smallest blocks, of one unit each, lie side by side: what is written in a free one must not reach its neighbours,
   nor past the area. */
static void neighbours(void)
{
    struct lent lent = started(1, 2);
    uint64_t units[REGION_UNITS];
    for (unsigned i = 0; i < REGION_UNITS; i++) {
        units[i] = POOL_VALUE(allocate(&lent, 0, POOL_UNIT_BYTES));
        memset(POOL_BLOCK(lent.area, units[i]), (int)(i / 2), POOL_UNIT_BYTES);
    }
    for (unsigned i = 1; i < REGION_UNITS; i += 2)
        (void)release(&lent, i / 2 % 2, units[i]);
    check("a freed block leaves its neighbours whole", every_second_whole(&lent, units));
    for (unsigned i = 1; i < REGION_UNITS; i += 2)
        (void)allocate(&lent, i / 2 % 2, POOL_UNIT_BYTES);
    check("so does its next allocation", every_second_whole(&lent, units));
    for (unsigned i = 0; i < REGION_UNITS; i += 2)
        (void)release(&lent, 1, units[i]);
    check("the last block of the area is freed within the area", guards_whole(&lent));
}

/* All blocks of a region, which another task frees than the one that allocated them. */
static void freed_by_another(void)
{
    struct lent lent = started(1, 2);
    const struct class *class = &CLASS[LARGEST];
    uint64_t unit = 0;
    int freed = 1;
    for (unsigned i = 0; i < class->n; i++)
        (void)allocate(&lent, 0, class->block);
    for (unsigned i = 0; i < class->n; i++) {
        unit = i * class->block / POOL_UNIT_BYTES;
        freed = freed && release(&lent, 1, unit) == POOL_FINISHED;
    }
    check("any task may free any block", freed);
    check_answer("the blocks are in the cache of the task that freed them", allocate(&lent, 1, class->block),
                 POOL_FINISHED, unit);
}

static void unit_and_address(void)
{
    struct lent lent = started(1, 1);
    void *block = POOL_BLOCK(lent.area, 480);
    check("the block of unit 480 is 3,840 bytes into the area", (uint8_t *)block == lent.area + 3840);
    check("from the address back to the unit", POOL_UNIT(lent.area, block) == 480);
}

void check_blocks(void)
{
    for (const struct class *class = CLASS; class < CLASS + CLASSES; class++) {
        all_blocks(class);
        first_units(class);
        if (class->block >= POOL_ALIGNMENT)
            aligned_blocks(class);
    }
    whole_in_hand();
    neighbours();
    freed_by_another();
    unit_and_address();
}
