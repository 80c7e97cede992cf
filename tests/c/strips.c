/* Strips in users' hands: rounded up, apart from each other, aligned, whole, joined when they come back. */
#include <stdio.h>
#include <string.h>

#include "check.h"
#include "lent.h"
#include "pool.h"

enum {
    SLOTS = POOL_STRIPS_BYTES / POOL_STRIP_LEAST,
    SLOT_UNITS = POOL_STRIP_LEAST / POOL_UNIT_BYTES,
    ORDERS = 8
};

static uint64_t unit_of(unsigned slot)
{
    return POOL_STRIP_FIRST + (uint64_t)SLOT_UNITS * slot;
}

/* The bytes of the strip that serves a size: the next strip of 512 bytes shows where the first one ends. */
static uint64_t bytes_of(uint64_t size)
{
    struct lent lent = started(1, 1);
    uint64_t first = POOL_VALUE(allocate(&lent, 0, size));
    uint64_t behind = allocate(&lent, 0, POOL_STRIP_LEAST);
    if (POOL_CODE(behind) == POOL_NO_STRIP)
        return POOL_STRIPS_BYTES;
    return POOL_UNIT_BYTES * (POOL_VALUE(behind) - first);
}

static void rounding(void)
{
    int rounded = 1;
    int little = 1;
    uint64_t due = POOL_STRIP_LEAST;
    /* The multiples of 16, every power of two with them, and the sizes one above. */
    for (uint64_t size = POOL_BLOCK_MOST + 1; size <= POOL_STRIPS_BYTES; size += size % 16 == 0 ? 1 : 15) {
        while (due < size)
            due *= 2;
        rounded = rounded && bytes_of(size) == due;
        little = little && due >= size && (due < 2 * size || due == POOL_STRIP_LEAST);
    }
    check("sizes from 257 to 65,536 are rounded up to a power of two, at least 512", rounded && due == 65536);
    check("a strip is less than twice the size, or 512 bytes", little);
}

/* The strips of one order: how many there are, that they are aligned and apart and keep what their users write. */
static void all_strips(unsigned order)
{
    static uint8_t expected[POOL_STRIPS_BYTES];
    struct lent lent = started(1, 2);
    size_t bytes = (size_t)POOL_STRIP_LEAST << order;
    unsigned count = 0;
    int aligned = 1;
    uint64_t answer = allocate(&lent, 0, bytes);
    char name[80];
    while (POOL_CODE(answer) == POOL_FINISHED && count < SLOTS) {
        uint8_t *strip = (uint8_t *)POOL_STRIP(lent.strips, POOL_VALUE(answer));
        aligned = aligned && (size_t)(strip - lent.strips) % bytes == 0;
        memset(strip, (int)(count + 1), bytes);
        memset(expected + (strip - lent.strips), (int)(count + 1), bytes);
        count += 1;
        answer = allocate(&lent, count % 2, bytes);
    }
    snprintf(name, sizeof name, "there are %u strips of %zu bytes, then none", SLOTS >> order, bytes);
    check(name, count == (unsigned)SLOTS >> order && POOL_CODE(answer) == POOL_NO_STRIP && POOL_VALUE(answer) == 0);
    snprintf(name, sizeof name, "strips of %zu bytes begin at a multiple of their length", bytes);
    check(name, aligned);
    snprintf(name, sizeof name, "strips of %zu bytes keep every byte", bytes);
    check(name, memcmp(expected, lent.strips, sizeof expected) == 0 && guards_whole(&lent));
    for (unsigned slot = 0; slot < SLOTS; slot += 1u << order)
        (void)release(&lent, slot % 2, unit_of(slot));
    snprintf(name, sizeof name, "strips of %zu bytes, all given back, are one piece", bytes);
    check_answer(name, allocate(&lent, 1, POOL_STRIPS_BYTES), POOL_FINISHED, POOL_STRIP_FIRST);
    snprintf(name, sizeof name, "strips of %zu bytes, given back and taken as one: then there is none", bytes);
    check_answer(name, allocate(&lent, 0, POOL_BLOCK_MOST + 1), POOL_NO_STRIP, 0);
    snprintf(name, sizeof name, "strips of %zu bytes: no byte changes as they are given back", bytes);
    check(name, memcmp(expected, lent.strips, sizeof expected) == 0);
}

/* One step each, and what happens between a free's beginning and its step. */
static void steps(void)
{
    struct lent lent = started(1, 2);
    unsigned made;
    (void)begin_allocate(&lent, 0, POOL_STRIPS_BYTES);
    check_answer("the largest strip is all of the memory", finish(&lent, 0, &made), POOL_FINISHED, POOL_STRIP_FIRST);
    check("a strip takes one step", made == 1);
    check_answer("then there is no strip", allocate(&lent, 1, 257), POOL_NO_STRIP, 0);
    check_answer("after it the task is idle", step(&lent, 1), POOL_NO_REQUEST, 0);
    check("blocks are served as before", POOL_CODE(allocate(&lent, 1, POOL_BLOCK_MOST)) == POOL_FINISHED);
    check_answer("any task may free a strip", begin_free(&lent, 1, POOL_STRIP_FIRST), POOL_UNDER_WAY, 0);
    check_answer("a second free is refused", begin_free(&lent, 0, POOL_STRIP_FIRST), POOL_NOT_IN_USE, 0);
    check_answer("before the step it is not free", allocate(&lent, 0, 257), POOL_NO_STRIP, 0);
    check_answer("one step gives it back", step(&lent, 1), POOL_FINISHED, 0);
    check_answer("after the step no strip begins there", begin_free(&lent, 0, POOL_STRIP_FIRST), POOL_NOT_A_BLOCK, 0);
    check_answer("and it may be taken", allocate(&lent, 0, 257), POOL_FINISHED, POOL_STRIP_FIRST);
}

/* The smallest sufficient piece, the lowest of equal ones, and joining over several orders. */
static void pieces(void)
{
    struct lent lent = started(1, 1);
    for (unsigned i = 0; i < 4; i++)
        (void)allocate(&lent, 0, 16384);
    (void)release(&lent, 0, unit_of(32));
    (void)release(&lent, 0, unit_of(64));
    check_answer("two quarters free that are no half: no strip of a half", allocate(&lent, 0, 32768), POOL_NO_STRIP, 0);
    check_answer("the lower of two equal pieces", allocate(&lent, 0, 8000), POOL_FINISHED, unit_of(32));
    check_answer("the smallest sufficient piece", allocate(&lent, 0, 8000), POOL_FINISHED, unit_of(48));
    check_answer("a smaller strip from the next piece", allocate(&lent, 0, 512), POOL_FINISHED, unit_of(64));
    check_answer("of its halves the smallest", allocate(&lent, 0, 512), POOL_FINISHED, unit_of(65));
    check_answer("then the next", allocate(&lent, 0, 513), POOL_FINISHED, unit_of(66));
    (void)release(&lent, 0, unit_of(65));
    (void)release(&lent, 0, unit_of(66));
    (void)release(&lent, 0, unit_of(64));
    check_answer("a quarter in parts is one again", allocate(&lent, 0, 16384), POOL_FINISHED, unit_of(64));
}

/* Every unit of the strips' memory, with one strip in hand, one being freed and the rest free. */
static void units(void)
{
    struct lent lent = started(POOL_REGIONS_MOST, 3);
    int told = 1;
    (void)allocate(&lent, 0, 1024);
    (void)allocate(&lent, 0, 1024);
    (void)begin_free(&lent, 0, unit_of(2));
    for (uint64_t unit = POOL_STRIP_FIRST + 1; unit <= 16500; unit++)
        told = told && begin_free(&lent, 1, unit) == (unit == unit_of(2) ? POOL_NOT_IN_USE : POOL_NOT_A_BLOCK);
    check("which units are strips", told);
    check_answer("the strip in hand is one", begin_free(&lent, 1, POOL_STRIP_FIRST), POOL_UNDER_WAY, 0);
}

/* Users write in their strips while others take and give, blocks too. */
static void whole_in_hand(void)
{
    struct lent lent = started(3, 2);
    for (unsigned i = 0; i < 4; i++) {
        uint64_t unit = POOL_VALUE(allocate(&lent, i % 2, 3000 * (i + 1)));
        memset(POOL_STRIP(lent.strips, unit), (int)(0x60 + i), 3000 * (i + 1));
    }
    keep_strips(&lent);
    for (unsigned i = 0; i < 2000; i++) {
        uint64_t answer = allocate(&lent, i % 2, i * 37 % 20000 + 1);
        if (POOL_CODE(answer) == POOL_FINISHED && i % 3 != 0)
            (void)release(&lent, 1 - i % 2, POOL_VALUE(answer));
    }
    check("no byte of the strips' memory changes while others take and give", strips_as_kept(&lent));
    check("and none outside the memories", guards_whole(&lent));
}

static void unit_and_address(void)
{
    struct lent lent = started(1, 1);
    void *strip = POOL_STRIP(lent.strips, 8256);
    check("the strip of unit 8,256 is 512 bytes into the strips' memory", (uint8_t *)strip == lent.strips + 512);
    check("from the address back to the strip's unit", POOL_STRIP_UNIT(lent.strips, strip) == 8256);
}

void check_strips(void)
{
    rounding();
    for (unsigned order = 0; order < ORDERS; order++)
        all_strips(order);
    steps();
    pieces();
    units();
    whole_in_hand();
    unit_and_address();
}
