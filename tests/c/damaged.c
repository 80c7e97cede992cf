/* 14: values that somebody wrote where they had no business. The places are those of docs/LAYOUT.md. */
#include <string.h>

#include "check.h"
#include "classes.h"
#include "lent.h"
#include "pool.h"
#include "refused.h"

/* First bytes of the columns that are damaged here. */
enum {
    HEAD = 0,
    ANCHOR = 256,
    TOP = 4992,
    COUNT = 5248,
    TASK_UNIT = 5504,
    TASK_LOST = 5600,
    TASK_PLACE = 5632,
    TASK_CLASS = 5640,
    DESCRIPTOR_REGION = 5776,
    DESCRIPTOR_CLASS = 5840,
    MAP = 5904,
    TASKS = 5944,
    REGIONS = 5945,
    FREE_NODES = 6016,
    SLOTS = 6048
};

/* Of the two columns of caches, TOP and COUNT: the bytes of an entry, and the entries of a task, of which those from
   CLASSES on are of no class. */
enum { ENTRY = 2, ENTRIES = 16 };

/* A byte of the control memory and the value that damages it, and the call that reads it. */
struct damage {
    const char *name;
    unsigned byte;
    uint8_t value;
    enum kind kind;
    uint64_t number;
};

/* Damage to a pool of one region of 256-byte blocks, with unit 480 in hand and the task idle. */
static const struct damage WHILE_IDLE[] = {
    {"9 tasks", TASKS, POOL_TASKS_MOST + 1, ALLOCATE, 8},
    {"0 regions", REGIONS, 0, ALLOCATE, 8},
    {"17 regions", REGIONS, POOL_REGIONS_MOST + 1, STEP, 0},
    {"place 37", TASK_PLACE, 37, ALLOCATE, 8},
    {"place 37", TASK_PLACE, 37, ALLOCATE, 1000},
    {"place 37", TASK_PLACE, 37, FREE, 480},
    {"place 37", TASK_PLACE, 37, FREE, 8192},
    {"place 37", TASK_PLACE, 37, LEAVE, 0},
    {"place 37", TASK_PLACE, 37, STEP, 0},
    {"place 255", TASK_PLACE, 255, LEAVE, 0},
    {"place 255", TASK_PLACE, 255, STEP, 0},
    {"9 tasks", TASKS, POOL_TASKS_MOST + 1, LEAVE, 0},
    {"0 regions", REGIONS, 0, LEAVE, 0},
    {"a count above n of the one cache that is not empty", COUNT + ENTRY * LARGEST, 17, LEAVE, 0},
    {"a count above n of an empty cache below it", COUNT + ENTRY * (LARGEST - 1), 19, LEAVE, 0},
    {"a count above n of the first cache", COUNT + 1, 3, LEAVE, 0},
    {"a map entry of 65", MAP, 65, FREE, 480},
    {"a descriptor's region past the area", DESCRIPTOR_REGION, 1, FREE, 480},
    {"an anchor's state 3", ANCHOR, 3, FREE, 480},
    {"an anchor's count past any class", ANCHOR + 7, 1, FREE, 480},
    {"a descriptor's class past the last", DESCRIPTOR_CLASS, CLASSES, FREE, 480},
    {"a descriptor's class that only the columns of caches have room for", DESCRIPTOR_CLASS, ENTRIES - 1, FREE, 480},
    {"a descriptor's class 255", DESCRIPTOR_CLASS, 255, FREE, 480},
};

/* Damage to a pool of one region of 256-byte blocks, n = 16, with unit 480 in hand and an allocation of 256 bytes
   begun. */
static const struct damage WHILE_ALLOCATING[] = {
    {"a class past the last", TASK_CLASS, CLASSES, STEP, 0},
    {"a class that only the columns of caches have room for", TASK_CLASS, ENTRIES - 1, STEP, 0},
    {"class 255", TASK_CLASS, 255, STEP, 0},
    {"a cache count above n", COUNT + ENTRY * LARGEST, 17, STEP, 0},
    {"a cache top inside a block", TOP + ENTRY * LARGEST, 193, STEP, 0},
    {"a cache top past the area", TOP + ENTRY * LARGEST + 1, 2, STEP, 0},
};

/* Damage to a pool with strips in hand at slot 0, of 512 bytes, and at slot 1, of 512, and the task idle. */
static const struct damage WITH_STRIPS[] = {
    {"a slot of 17", SLOTS + 1, 17, FREE, 8256},
    {"a slot of 255", SLOTS, 255, FREE, 8192},
    {"a strip of 1,024 bytes at slot 1", SLOTS + 1, 2, FREE, 8256},
    {"a strip of 1,024 bytes at slot 1, being freed", SLOTS + 1, 10, FREE, 8256},
    {"a strip of 65,536 bytes at slot 1", SLOTS + 1, 8, FREE, 8256},
};

/* Damage to the same pool with a request for a strip of 512 bytes begun. */
static const struct damage WHILE_TAKING[] = {
    {"an order past the last", TASK_CLASS, 8, STEP, 0},
    {"an order that is the last class", TASK_CLASS, CLASSES - 1, STEP, 0},
    {"an order that is no class", TASK_CLASS, CLASSES, STEP, 0},
};

/* Damage to the same pool with the free of the strip at slot 1, unit 8,256 = 20 40, begun. */
static const struct damage WHILE_GIVING[] = {
    {"a class past the last, while a strip is given back", TASK_CLASS, CLASSES, STEP, 0},
    {"a unit of the area", TASK_UNIT + 1, 0, STEP, 0},
    {"a unit past the strips", TASK_UNIT + 1, 0x40, STEP, 0},
    {"a unit inside a slot", TASK_UNIT, 0x41, STEP, 0},
    {"a strip whose free has not begun", TASK_UNIT, 0, STEP, 0},
    {"no strip", TASK_UNIT, 0x80, STEP, 0},
    {"a slot of 0", SLOTS + 1, 0, STEP, 0},
    {"a slot of a strip in hand", SLOTS + 1, 1, STEP, 0},
    {"a slot of 17", SLOTS + 1, 17, STEP, 0},
    {"a strip of 1,024 bytes at slot 1", SLOTS + 1, 10, STEP, 0},
};

enum {
    IDLE = sizeof WHILE_IDLE / sizeof *WHILE_IDLE,
    ALLOCATING = sizeof WHILE_ALLOCATING / sizeof *WHILE_ALLOCATING,
    HOLDING = sizeof WITH_STRIPS / sizeof *WITH_STRIPS,
    TAKING = sizeof WHILE_TAKING / sizeof *WHILE_TAKING,
    GIVING = sizeof WHILE_GIVING / sizeof *WHILE_GIVING
};

static struct lent one_block_in_hand(void)
{
    struct lent lent = started(1, 1);
    (void)allocate(&lent, 0, 256);
    return lent;
}

static void fields(void)
{
    for (unsigned i = 0; i < IDLE; i++) {
        const struct damage *damage = &WHILE_IDLE[i];
        struct lent lent = one_block_in_hand();
        lent.control[damage->byte] = damage->value;
        check_refused(damage->name, &lent, damage->kind, 0, damage->number, POOL_DAMAGED);
    }
    for (unsigned i = 0; i < ALLOCATING; i++) {
        const struct damage *damage = &WHILE_ALLOCATING[i];
        struct lent lent = one_block_in_hand();
        (void)begin_allocate(&lent, 0, 256);
        lent.control[damage->byte] = damage->value;
        check_refused(damage->name, &lent, damage->kind, 0, damage->number, POOL_DAMAGED);
    }
}

static struct lent two_strips_in_hand(void)
{
    struct lent lent = started(1, 1);
    (void)allocate(&lent, 0, 512);
    (void)allocate(&lent, 0, 512);
    return lent;
}

static void strips(void)
{
    for (unsigned i = 0; i < HOLDING + TAKING + GIVING; i++) {
        const struct damage *damage = i < HOLDING ? &WITH_STRIPS[i]
            : i < HOLDING + TAKING                ? &WHILE_TAKING[i - HOLDING]
                                                  : &WHILE_GIVING[i - HOLDING - TAKING];
        struct lent lent = two_strips_in_hand();
        if (i >= HOLDING + TAKING)
            (void)begin_free(&lent, 0, 8256);
        else if (i >= HOLDING)
            (void)begin_allocate(&lent, 0, 512);
        lent.control[damage->byte] = damage->value;
        check_refused(damage->name, &lent, damage->kind, 0, damage->number, POOL_DAMAGED);
    }
}

/* Every value of the tree's words is in range: with all nodes free the lowest slot is taken, with none there is no
   strip. */
static void nodes(void)
{
    struct lent lent = two_strips_in_hand();
    memset(lent.control + FREE_NODES, 0xFF, SLOTS - FREE_NODES);
    check_answer("all nodes free: the lowest slot", allocate(&lent, 0, 512), POOL_FINISHED, 8192);
    memset(lent.control + FREE_NODES, 0, SLOTS - FREE_NODES);
    check_answer("no node free: no strip", allocate(&lent, 0, 512), POOL_NO_STRIP, 0);
    check_answer("the other strip is still to be freed", release(&lent, 0, 8256), POOL_FINISHED, 0);
    check_answer("its slot is taken again", allocate(&lent, 0, 512), POOL_FINISHED, 8256);
}

/* Every value of the lost exchanges is in range: it is told with what was asked for. */
static void lost_exchanges(void)
{
    struct lent lent = one_block_in_hand();
    (void)begin_allocate(&lent, 0, 256);
    memset(lent.control + TASK_LOST, 0xFF, TASK_PLACE - TASK_LOST);
    check_lost("any number of lost exchanges is in range", step(&lent, 0), POOL_FINISHED, 448, POOL_LOST_MOST);
    check_answer("and does not reach the next request", release(&lent, 0, 448), POOL_FINISHED, 0);
}

/* A write into a free block changes its link; the step that would take the block finds it. */
static void links(void)
{
    struct lent lent = one_block_in_hand();
    memset(POOL_BLOCK(lent.area, 448), 0xFF, 256);
    (void)begin_allocate(&lent, 0, 256);
    check_refused("a link that names no block", &lent, STEP, 0, 0, POOL_DAMAGED);
    check_refused("the same step again", &lent, STEP, 0, 0, POOL_DAMAGED);
    check_answer("a start mends the pool", start(&lent, 1), POOL_UNDER_WAY, 0);
    check_answer("and the first block comes again", allocate(&lent, 0, 256), POOL_FINISHED, 480);
}

/* The head of the class's partial list names descriptor 64; the third step of an allocation reads it. */
static void lists(void)
{
    struct lent lent = started(1, 1);
    lent.control[HEAD] = 65;
    (void)begin_allocate(&lent, 0, 8);
    check_answer("the cache is empty", step(&lent, 0), POOL_UNDER_WAY, 0);
    check_refused("a head that names no descriptor", &lent, STEP, 0, 0, POOL_DAMAGED);
}

/* A task's entries of no class, in one of the two columns. */
static uint8_t *of_no_class(const struct lent *lent, unsigned column, unsigned task)
{
    return lent->control + column + ENTRY * (ENTRIES * task + CLASSES);
}

/* What stands in the entries of no class does not matter. */
static void entries_of_no_class(void)
{
    struct lent lent = started(CLASSES, POOL_TASKS_MOST);
    uint8_t any[ENTRY * (ENTRIES - CLASSES)];
    int served = 1;
    int kept = 1;
    memset(any, 0xFF, sizeof any);
    for (unsigned task = 0; task < POOL_TASKS_MOST; task++) {
        memcpy(of_no_class(&lent, TOP, task), any, sizeof any);
        memcpy(of_no_class(&lent, COUNT, task), any, sizeof any);
    }
    for (unsigned i = 0; i < CLASSES; i++) {
        uint64_t answer = allocate(&lent, i % POOL_TASKS_MOST, CLASS[i].block);
        served = served && POOL_CODE(answer) == POOL_FINISHED
            && release(&lent, i % POOL_TASKS_MOST, POOL_VALUE(answer)) == POOL_FINISHED;
    }
    for (unsigned task = 0; task < POOL_TASKS_MOST; task++)
        kept = kept && memcmp(of_no_class(&lent, TOP, task), any, sizeof any) == 0
            && memcmp(of_no_class(&lent, COUNT, task), any, sizeof any) == 0;
    check("the entries of no class are not read", served);
    check("the entries of no class are not written", kept);
}

/* Control memory that holds anything: every call answers, and only an accepted one may change it. */
static void any_bytes(void)
{
    int answered = 1;
    for (unsigned value = 1; value < 256; value++) {
        struct lent lent = lend(1, 0);
        memset(lent.control, (int)value, lent.control_length);
        keep();
        for (unsigned task = 0; task < 2; task++)
            answered = answered && POOL_CODE(begin_allocate(&lent, task, 8)) <= POOL_DAMAGED
                && POOL_CODE(begin_free(&lent, task, 0)) <= POOL_DAMAGED
                && POOL_CODE(begin_free(&lent, task, 8192)) <= POOL_DAMAGED
                && POOL_CODE(begin_leave(&lent, task)) <= POOL_DAMAGED && guards_whole(&lent)
                && POOL_CODE(step(&lent, task)) <= POOL_DAMAGED && guards_whole(&lent);
    }
    check("control memory of any one byte is answered, within the memories", answered);
}

void check_damaged(void)
{
    fields();
    strips();
    nodes();
    lost_exchanges();
    links();
    lists();
    entries_of_no_class();
    any_bytes();
}
