/*
 * The pairs of the workloads with malloc and free, for orientation: of the C library, or of whatever is loaded before
 * it. A heap is made for other ends than the pool: it has no steps, no bound on one call and no refusals, and it works
 * for threads.
 *
 *   heap NAME                  times the workloads; a line is workload, contender, measure, value
 *   heap NAME WORKLOAD TURNS   so many turns of one workload, to be counted; NAME `none` calls functions that only
 *                              return
 *   heap                       the workloads' names, with the pairs of a turn
 */
#define _POSIX_C_SOURCE 199309L
#include <stdio.h>
#include <stdlib.h>
#include <string.h>
#include <time.h>

enum { ROUNDS = 150, WORKLOADS = 4, HOT_PAIRS = 1000, HOT_TURNS = 40, COLD_PAIRS = 128, COLD_TURNS = 300 };

static void *blocks[COLD_PAIRS];

static double now(void)
{
    struct timespec time;
    clock_gettime(CLOCK_MONOTONIC, &time);
    return (double)time.tv_sec * 1e9 + (double)time.tv_nsec;
}

/* The compiler must not see that the block is not used. */
static void *volatile seen;

/* Called through pointers, so that the loop alone can be counted. */
static void *(*allocate)(size_t) = malloc;
static void (*release)(void *) = free;

static void *no_block(size_t size)
{
    (void)size;
    return blocks;
}

static void no_release(void *block)
{
    (void)block;
}

static void hot(size_t size)
{
    for (unsigned i = 0; i < HOT_PAIRS; i++) {
        seen = allocate(size);
        release(seen);
    }
}

/* All blocks, then all frees, alternately from the first half and the second if so asked. */
static void cold(size_t size, int alternately)
{
    for (unsigned i = 0; i < COLD_PAIRS; i++)
        blocks[i] = allocate(size);
    for (unsigned i = 0; i < COLD_PAIRS; i++)
        release(blocks[alternately ? i % 2 * (COLD_PAIRS / 2) + i / 2 : i]);
}

static const char *const NAMES[WORKLOADS] = {"hot pair of 64 bytes", "hot pair of 48 bytes", "cold pair, carving",
                                             "cold pair, chains"};

static unsigned pairs(unsigned workload)
{
    return workload < 2 ? HOT_PAIRS : COLD_PAIRS;
}

static void turns(unsigned workload, unsigned count)
{
    for (unsigned i = 0; i < count; i++) {
        switch (workload) {
        case 0: hot(64); break;
        case 1: hot(48); break;
        case 2: cold(64, 0); break;
        default: cold(64, 1); break;
        }
    }
}

/* Nanoseconds of a pair. */
static double timed(unsigned workload)
{
    unsigned count = workload < 2 ? HOT_TURNS : COLD_TURNS;
    double from = now();
    turns(workload, count);
    return (now() - from) / count / pairs(workload);
}

static double least(double a, double b)
{
    return a == 0 || b < a ? b : a;
}

static void times(const char *name)
{
    double best[WORKLOADS] = {0, 0, 0, 0};
    for (unsigned round = 0; round < ROUNDS; round++)
        for (unsigned workload = 0; workload < WORKLOADS; workload++)
            best[workload] = least(best[workload], timed(workload));
    for (unsigned workload = 0; workload < WORKLOADS; workload++)
        printf("%s\t%s\tns\t%.1f\n", NAMES[workload], name, best[workload]);
}

int main(int count, char **arguments)
{
    if (count == 4) {
        if (strcmp(arguments[1], "none") == 0) {
            allocate = no_block;
            release = no_release;
        }
        turns((unsigned)atoi(arguments[2]), (unsigned)atoi(arguments[3]));
    } else if (count == 2) {
        times(arguments[1]);
    } else {
        for (unsigned workload = 0; workload < WORKLOADS; workload++)
            printf("%s\t%u\t%u\n", NAMES[workload], workload, pairs(workload));
    }
    return 0;
}
