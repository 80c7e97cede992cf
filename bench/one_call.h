/*
 * The instructions of a single call, exactly. A child stops itself before a call that is to be counted; the parent then
 * runs it one instruction at a time, from the first instruction of the call to its return address, and counts. (A
 * repeated string instruction counts once for each repetition.)
 */
#ifndef ONE_CALL_H
#define ONE_CALL_H

#include <sys/types.h>

/* In the child, before a call that is to be counted. */
#define STOP_BEFORE_CALL() __asm__ volatile("int3")

/* In the child, before anything else: the parent follows it. */
void let_parent_follow(void);

/* In the parent: waits until the child stops, and tells whether it did; else it has ended. */
int child_stops(pid_t pid);

/* In the parent: the instructions of the call that the child is about to make, which begins at this address. */
unsigned count_call(pid_t pid, unsigned long long entry);

/* In the parent: lets the child run on. */
void child_runs_on(pid_t pid);

/* A memory that parent and child both see. */
void *seen_by_both(unsigned long bytes);

#endif
