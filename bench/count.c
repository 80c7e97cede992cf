/*
 * One workload of one contender, for so many turns, to be run under callgrind, which counts the instructions inside the
 * calls alone. Two runs with different numbers of turns differ by whole turns of the steady state.
 *
 * Without arguments it lists what there is: a line is workload, contender, their two numbers, and the pairs of a turn.
 */
#include <stdio.h>
#include <stdlib.h>

#include "contender.h"
#include "workload.h"

static void list(void)
{
    for (unsigned w = 0; w < WORKLOAD_COUNT; w++)
        for (unsigned c = 0; c < CONTENDER_COUNT; c++)
            printf("%s\t%s\t%u\t%u\t%u\n", WORKLOADS[w].name, CONTENDERS[c].name, w, c,
                   WORKLOADS[w].pairs == 0 ? 1 : WORKLOADS[w].pairs);
}

int main(int count, char **arguments)
{
    const struct workload *workload;
    const struct contender *contender;
    if (count != 4) {
        list();
        return 0;
    }
    workload = &WORKLOADS[atoi(arguments[1])];
    contender = &CONTENDERS[atoi(arguments[2])];
    workload_ready(contender, workload);
    for (int i = 0; i < atoi(arguments[3]); i++)
        workload->turn(contender, workload);
    return 0;
}
