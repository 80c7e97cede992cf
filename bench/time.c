/*
 * Nanoseconds of each workload for each contender: the best of several rounds, since everything else that the machine
 * does can only add to them. The contenders take turns within a round. A line is workload, contender, measure, value.
 */
#define _POSIX_C_SOURCE 199309L
#include <stdio.h>
#include <time.h>

#include "contender.h"
#include "workload.h"

enum { ROUNDS = 300, CONTENDERS_MOST = 3 };

static double now(void)
{
    struct timespec time;
    clock_gettime(CLOCK_MONOTONIC, &time);
    return (double)time.tv_sec * 1e9 + (double)time.tv_nsec;
}

/* Nanoseconds of one pair, or of one start. */
static double sample(const struct contender *contender, const struct workload *workload)
{
    unsigned each = workload->pairs == 0 ? 1 : workload->pairs;
    unsigned turns = 1 + 40000 / each;
    double from;
    workload_ready(contender, workload);
    if (workload->pairs == 0)
        turns = 2000;
    from = now();
    for (unsigned i = 0; i < turns; i++)
        workload->turn(contender, workload);
    return (now() - from) / turns / each;
}

int main(void)
{
    for (unsigned w = 0; w < WORKLOAD_COUNT; w++) {
        double best[CONTENDERS_MOST];
        for (unsigned round = 0; round < ROUNDS; round++)
            for (unsigned c = 0; c < CONTENDER_COUNT; c++) {
                double one = sample(&CONTENDERS[c], &WORKLOADS[w]);
                if (round == 0 || one < best[c])
                    best[c] = one;
            }
        for (unsigned c = 0; c < CONTENDER_COUNT; c++)
            printf("%s\t%s\tns\t%.1f\n", WORKLOADS[w].name, CONTENDERS[c].name, best[c]);
    }
    return 0;
}
