/* Runs in which several tasks lose exchanges: each request tells its own, and no other. */
#include <stdio.h>
#include <string.h>

#include "check.h"
#include "classes.h"
#include "lost.h"
#include "pool.h"

/* Steps all tasks in turn, a step each, until all requests are over; the answers of their ends. */
static void finish_in_turn(const struct lent *lent, uint64_t ends[POOL_TASKS_MOST])
{
    unsigned running = POOL_TASKS_MOST;
    memset(ends, 0, POOL_TASKS_MOST * sizeof *ends);
    for (unsigned turn = 0; running > 0 && turn < 10000; turn++)
        for (unsigned task = 0; task < POOL_TASKS_MOST; task++)
            if (ends[task] == POOL_UNDER_WAY) {
                ends[task] = step(lent, task);
                running -= ends[task] != POOL_UNDER_WAY;
            }
}

/* Eight tasks note the same head. The first wins, the others note the next one, and so on: task t loses t times. */
static void eight_in_turn(void)
{
    struct lent lent = started(POOL_REGIONS_MOST, POOL_TASKS_MOST);
    uint64_t ends[POOL_TASKS_MOST];
    char name[80];
    for (unsigned task = 0; task < POOL_TASKS_MOST; task++)
        (void)begin_allocate(&lent, task, 256);
    finish_in_turn(&lent, ends);
    for (unsigned task = 0; task < POOL_TASKS_MOST; task++) {
        snprintf(name, sizeof name, "eight tasks open regions in turn: task %u loses %u times", task, task);
        check_lost(name, ends[task], POOL_FINISHED, REGION_UNITS * task + 480, task);
        (void)begin_leave(&lent, task);
    }
    finish_in_turn(&lent, ends);
    for (unsigned task = 0; task < POOL_TASKS_MOST; task++) {
        snprintf(name, sizeof name, "eight tasks return regions in turn: task %u loses %u times", task, task);
        check_lost(name, ends[task], POOL_FINISHED, 0, task);
    }
}

/* A random run of some tasks in which exchanges are lost. They are counted here by the places of the tasks: only a lost
   exchange leads back to where the word was noted. */
enum { TASKS = 4, REGIONS = 4, TURNS = 200000, HELD_MOST = 40, PLACES = 37, EXCHANGES = 9 };

static struct {
    uint64_t state;
    uint64_t held[HELD_MOST + TASKS];
    unsigned held_count;
    int allocating[TASKS];
    uint32_t lost[TASKS];     /* of the request in hand */
    unsigned lost_at[PLACES]; /* of all, by the place of the exchange */
} run;

static unsigned below(unsigned bound)
{
    run.state ^= run.state << 13;
    run.state ^= run.state >> 7;
    run.state ^= run.state << 17;
    return (unsigned)((run.state >> 11) % bound);
}

/* Begins any request by an idle task; whether it was accepted, and tells nothing. */
static int begin_any(const struct lent *lent, unsigned task)
{
    static const unsigned SIZES[] = {256, 224, 192, 700};
    run.lost[task] = 0;
    run.allocating[task] = below(2) && run.held_count < HELD_MOST;
    if (run.allocating[task])
        return begin_allocate(lent, task, SIZES[below(sizeof SIZES / sizeof *SIZES)]) == POOL_UNDER_WAY;
    if (run.held_count == 0 || below(8) == 0)
        return begin_leave(lent, task) == POOL_UNDER_WAY;
    return begin_free(lent, task, run.held[--run.held_count]) == POOL_UNDER_WAY;
}

/* Whether a step that led from one place to another has lost an exchange. */
static int is_lost(unsigned from, unsigned to)
{
    return (from <= 22 && from > 2 && to == from - 2) || (from == 24 && to == 23) || (from == 32 && to == 30);
}

static int is_end(unsigned code)
{
    return code == POOL_FINISHED || code == POOL_NO_DESCRIPTOR || code == POOL_NO_REGION || code == POOL_NO_STRIP;
}

/* A step of a task; whether its answer tells what was counted here, at the end of the request, and else nothing. */
static int step_any(const struct lent *lent, unsigned task)
{
    unsigned from = place_of(lent, task);
    uint64_t answer = step(lent, task);
    if (POOL_CODE(answer) == POOL_UNDER_WAY) {
        unsigned lost = (unsigned)is_lost(from, place_of(lent, task));
        run.lost[task] += lost;
        run.lost_at[from] += lost;
        return answer == POOL_UNDER_WAY;
    }
    if (POOL_CODE(answer) == POOL_FINISHED && run.allocating[task])
        run.held[run.held_count++] = POOL_VALUE(answer);
    return is_end(POOL_CODE(answer)) && POOL_LOST(answer) == run.lost[task];
}

static void counted_by_places(void)
{
    struct lent lent = started(REGIONS, TASKS);
    unsigned places = 0;
    int told = 1;
    memset(&run, 0, sizeof run);
    run.state = 88172645463325252u;
    for (unsigned turn = 0; turn < TURNS && told; turn++) {
        unsigned task = below(TASKS);
        told = place_of(&lent, task) == 0 ? begin_any(&lent, task) : step_any(&lent, task);
    }
    for (unsigned place = 0; place < PLACES; place++)
        places += run.lost_at[place] > 0;
    check("a random run: each request tells the exchanges that it has lost", told);
    check("in this run each exchange of the step list is lost at least once", places == EXCHANGES);
}

void check_lost_runs(void)
{
    eight_in_turn();
    counted_by_places();
}
