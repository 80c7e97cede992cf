/*
 * What is measured. Each workload makes a pool ready once, then does the same work again and again, and leaves the pool
 * as it found it. A pair is the allocation of one block or strip and its free, each begun and stepped to its end.
 */
#ifndef WORKLOAD_H
#define WORKLOAD_H

#include "contender.h"

struct workload {
    const char *name;
    unsigned size;    /* of the blocks or strips */
    unsigned regions; /* of the area */
    unsigned pairs;   /* done by one turn of the work; 0 for a start */
    void (*turn)(const struct contender *contender, const struct workload *workload);
    void (*before)(const struct contender *contender, const struct workload *workload); /* the first turn, or NULL */
};

extern const struct workload WORKLOADS[];
extern const unsigned WORKLOAD_COUNT;

/* Starts the pool and does one turn, so that what comes after it is the steady state. */
void workload_ready(const struct contender *contender, const struct workload *workload);

#endif
