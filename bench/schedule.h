/*
 * A random schedule of calls by several tasks, the same for the same seed and the same answers. Tasks are stepped in
 * random order, so that exchanges are lost; phases of filling and emptying follow each other, so that regions open,
 * empty and change their class, strips are halved and joined, and the ends 12, 13 and 16 occur.
 */
#ifndef SCHEDULE_H
#define SCHEDULE_H

#include <stdint.h>

#include "contender.h"

enum kind { BEGIN_ALLOCATE, BEGIN_FREE, STEP, BEGIN_LEAVE };

struct call {
    enum kind kind;
    unsigned task;
    uint64_t number;        /* the size or the unit; else unused */
    uint64_t strips_length; /* that is lent */
};

struct schedule {
    uint64_t random;
    unsigned tasks;
    unsigned sizes;       /* how many sizes are asked for in this phase, from few to many */
    unsigned left;        /* calls left of this phase */
    int filling;          /* whether this phase mostly allocates */
    int sweeping;         /* whether this phase frees from the lowest unit up, so that regions empty; else any block */
    int odd_calls;        /* whether calls that are to be refused are mixed in */
    int leaves;           /* whether tasks leave, too */
    int busy[8];          /* whether the task has a request in hand */
    enum kind request[8]; /* how it was begun */
    uint16_t held[8192];  /* the blocks in users' hands */
    unsigned held_count;
    uint16_t strips[128]; /* the strips in users' hands */
    unsigned strip_count;
};

struct schedule schedule_of(uint64_t seed, unsigned tasks, int odd_calls, int leaves);
uint64_t schedule_random(struct schedule *schedule, uint64_t below);

/* The next call; and what it was answered, which the calls after it depend on. */
struct call schedule_next(struct schedule *schedule);
void schedule_answered(struct schedule *schedule, struct call call, uint64_t answer);

/* Makes a call of a schedule. The strips' memory that it lends cannot be read or written. */
uint64_t make_call(const struct contender *contender, struct call call, uint8_t *control, uint8_t *area,
                   uint64_t area_length);

/* A memory for strips that stops the program where it is read or written. */
const uint8_t *untouchable_strips(void);

#endif
