/*
 * The instructions of the steps of strips, counted exactly (one_call.h): of some steps by name, and the largest of all.
 *
 * What a step does depends on the order and on the bits of the tree of free pieces, in few ways. The largest is taken
 * over each order that is wanted with each node that is found for it, and each strip with each number of joinings, on
 * trees that have nothing else free and on trees that have all else free. Random bytes in the control memory come on
 * top, which need not be of any pool. One instruction at a time is slow, so of the nodes of an order only those are
 * taken that are the first or the last of their word or of their order; with --all every node is, in some minutes.
 *
 * A line is workload, contender, measure, value.
 */
#define _GNU_SOURCE
#include <stdio.h>
#include <string.h>
#include <unistd.h>

#include "by_hand_control.h"
#include "contender.h"
#include "one_call.h"
#include "pool.h"
#include "schedule.h"

enum { ORDERS = 8, TAKE = 34, GIVE = 35, RANDOM_CASES = 200 };
enum { FRESH_TAKE, JOINED_GIVE, FOUND_TAKE, ALONE_GIVE, NO_TAKE, ANY_TAKE, ANY_GIVE, KINDS };

static const char *const NAMES[KINDS] = {
    "strip taken, seven halvings", "strip given, seven joinings",     "strip taken, no halving",
    "strip given, no joining",     "no strip found",                  "largest step that takes a strip",
    "largest step that gives a strip",
};

static int every_node;

static union {
    uint8_t bytes[POOL_CONTROL_BYTES];
    struct control fields;
} pool;
static uint8_t area[POOL_REGION_BYTES];

static void set_free(unsigned node, int is_free)
{
    uint64_t bit = (uint64_t)1 << node % 64;
    if (is_free)
        pool.fields.free_nodes[node / 64] |= bit;
    else
        pool.fields.free_nodes[node / 64] &= ~bit;
}

static void set_all_free(int is_free)
{
    memset(pool.fields.free_nodes, is_free ? 255 : 0, sizeof pool.fields.free_nodes);
}

/* Makes the step that stands ready, to be counted as one of this kind. */
static void step(const struct contender *contender, int *told, int kind)
{
    *told = kind;
    STOP_BEFORE_CALL();
    (void)contender->step(pool.bytes, sizeof pool.bytes, area, sizeof area, untouchable_strips(), POOL_STRIPS_BYTES, 0);
}

static void take(const struct contender *contender, int *told, int kind, unsigned order)
{
    pool.fields.task_place[0] = TAKE;
    pool.fields.task_class[0] = (uint8_t)order;
    step(contender, told, kind);
}

static void give(const struct contender *contender, int *told, int kind, unsigned order, unsigned slot)
{
    pool.fields.task_place[0] = GIVE;
    pool.fields.task_class[0] = 0;
    pool.fields.task_unit[0] = (uint16_t)(POOL_STRIP_FIRST + 64 * slot);
    pool.fields.slot[slot] = (uint8_t)(9 + order);
    step(contender, told, kind);
}

/* The node is the lowest of the smallest sufficient order that is free; beside it nothing is, or all else. */
static void found(int others, unsigned wanted, unsigned node)
{
    set_all_free(others);
    for (unsigned i = node + 1; others && i < 256u >> wanted; i++)
        set_free(i, (i & (i - 1)) != 0 && __builtin_clz(i) == __builtin_clz(node));
    for (unsigned i = node - 1; others && __builtin_clz(i | 1) == __builtin_clz(node); i--)
        set_free(i, 0);
    set_free(node, 1);
}

/* Whether a node is among those that are taken. */
static int is_chosen(unsigned node)
{
    return every_node || node % 64 == 0 || node % 64 == 63 || (node & (node - 1)) == 0 || (node & (node + 1)) == 0;
}

static void all_takes(const struct contender *contender, int *told)
{
    for (int others = 0; others < 2; others++)
        for (unsigned wanted = 0; wanted < ORDERS; wanted++) {
            for (unsigned node = 1; node < 256u >> wanted; node++) {
                if (!is_chosen(node))
                    continue;
                found(others, wanted, node);
                take(contender, told, ANY_TAKE, wanted);
            }
            set_all_free(others);
            for (unsigned node = 1; node < 256u >> wanted; node++)
                set_free(node, 0);
            take(contender, told, ANY_TAKE, wanted);
        }
}

/* The other half of the node is free, and of so many of the larger ones, then none; the rest is free or not. */
static void joins(int others, unsigned node, unsigned joinings)
{
    set_all_free(others);
    for (unsigned i = 0; i <= joinings && node >> i > 1; i++)
        set_free(node >> i ^ 1, i < joinings);
}

static void all_gives(const struct contender *contender, int *told)
{
    for (int others = 0; others < 2; others++)
        for (unsigned order = 0; order < ORDERS; order++)
            for (unsigned slot = 0; slot < SLOTS; slot += 1u << order)
                for (unsigned joinings = 0; joinings + order < ORDERS; joinings++) {
                    if (!is_chosen((SLOTS + slot) >> order))
                        continue;
                    joins(others, (SLOTS + slot) >> order, joinings);
                    give(contender, told, ANY_GIVE, order, slot);
                }
}

/* Steps on random bytes; the tests that every call makes are passed. */
static void random_steps(const struct contender *contender, int *told)
{
    struct schedule source = schedule_of(1, 1, 0, 0);
    for (unsigned i = 0; i < RANDOM_CASES; i++) {
        int gives = i % 2 == 1;
        for (size_t k = 0; k < sizeof pool.bytes; k++)
            pool.bytes[k] = (uint8_t)schedule_random(&source, 256);
        for (size_t k = 0; k < SLOTS; k++)
            pool.fields.slot[k] %= 20;
        for (uint64_t times = schedule_random(&source, 8); times > 0; times--)
            for (unsigned k = 0; k < 4; k++)
                pool.fields.free_nodes[k] &= schedule_random(&source, UINT64_MAX);
        pool.fields.tasks = 1;
        pool.fields.regions = 1;
        pool.fields.task_place[0] = gives ? GIVE : TAKE;
        pool.fields.task_class[0] = (uint8_t)schedule_random(&source, CLASSES);
        pool.fields.task_unit[0] = (uint16_t)(POOL_STRIP_FIRST + 64 * schedule_random(&source, SLOTS));
        step(contender, told, gives ? ANY_GIVE : ANY_TAKE);
    }
}

static void child(const struct contender *contender, int *told)
{
    let_parent_follow();
    (void)contender->start(pool.bytes, sizeof pool.bytes, area, sizeof area, untouchable_strips(), POOL_STRIPS_BYTES,
                           1);
    take(contender, told, FRESH_TAKE, 0);
    pool.fields.slot[0] = 0;
    give(contender, told, JOINED_GIVE, 0, 0);
    found(0, 0, SLOTS);
    take(contender, told, FOUND_TAKE, 0);
    joins(0, SLOTS, 0);
    give(contender, told, ALONE_GIVE, 0, 0);
    set_all_free(0);
    take(contender, told, NO_TAKE, 0);
    all_takes(contender, told);
    all_gives(contender, told);
    random_steps(contender, told);
    _exit(0);
}

int main(int count, char **arguments)
{
    int *told = seen_by_both(sizeof *told);
    every_node = count == 2 && strcmp(arguments[1], "--all") == 0;
    for (unsigned c = 0; c < CONTENDER_COUNT; c++) {
        unsigned most[KINDS] = {0};
        pid_t pid = fork();
        if (pid == 0)
            child(&CONTENDERS[c], told);
        while (child_stops(pid)) {
            unsigned count = count_call(pid, (unsigned long long)(uintptr_t)CONTENDERS[c].step);
            if (count > most[*told])
                most[*told] = count;
            child_runs_on(pid);
        }
        for (int kind = 0; kind < KINDS; kind++)
            printf("%s\t%s\tinstructions\t%u\n", NAMES[kind], CONTENDERS[c].name, most[kind]);
    }
    return 0;
}
