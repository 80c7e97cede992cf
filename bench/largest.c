/*
 * The largest number of instructions of any single call of mixed schedules, counted exactly (one_call.h). The child
 * leaves the place of the step in a memory that both see, so that the largest number is known for each place. The steps
 * of leaving, which share places with those of a free, are told apart. The steps of strips have more cases than a
 * schedule meets; strips.c counts them all, and leave.c those in which leaving goes from cache to cache.
 *
 * One instruction at a time is slow, so not every call is counted: of each place, and of each beginning, the first 120,
 * with --each of each place and what came of it, and every 97th call besides.
 *
 * A line is workload, contender, measure, value; with --places also one line for each place. With --each a line is
 * one counted call of the library: its kind, the place before it, its instructions, and what came of it. Only the
 * schedules without leaving are made then (bench/against).
 */
#define _GNU_SOURCE
#include <stdio.h>
#include <stdlib.h>
#include <string.h>
#include <unistd.h>

#include "contender.h"
#include "one_call.h"
#include "pool.h"
#include "schedule.h"

enum { CALLS = 60000, FIRST = 120, EVERY = 97, PLACES = 37, STRIP_TAKE = 34, STRIP_GIVE = 35, TASK_PLACE = 5632 };

/* The kinds of calls, with the steps of leaving as one of their own. */
enum { LEAVING_STEP = BEGIN_LEAVE + 1, ROWS };

static const char *const NAMES[ROWS] = {
    [BEGIN_ALLOCATE] = "largest beginning of an allocation",
    [BEGIN_FREE] = "largest beginning of a free",
    [STEP] = "largest step for a block",
    [BEGIN_LEAVE] = "largest beginning of leaving, in schedules",
    [LEAVING_STEP] = "largest step of leaving, in schedules",
};

/* Schedules that between them reach every place, with few tasks and with many; in the last ones tasks leave, too. */
static const struct {
    uint64_t seed;
    unsigned tasks;
    unsigned regions;
    int leaves;
} SCHEDULES[] = {{2, 2, 5, 0}, {21, 4, 5, 0}, {2, 8, 5, 0}, {2, 2, 5, 1}, {21, 8, 5, 1}};

/* What comes of a call: a step may lose an exchange or end its request. */
enum { GOES_ON, LOSES, ENDS, OUTCOMES };

static const char *const CAME[OUTCOMES] = {[LOSES] = "an exchange lost", [ENDS] = "the request over", [GOES_ON] = ""};

/* What the child tells the parent. */
struct told {
    unsigned row;
    unsigned place;
    unsigned outcome;
};

static int each_call;

static uint8_t control[POOL_CONTROL_BYTES];
static uint8_t area[5 * POOL_REGION_BYTES];

/* Whether a step led back from an exchange to where its word is noted, by the places of docs/LAYOUT.md: of a list from
   its third place to its first, of an anchor from 24 to 23 and from 32 to 30. */
static int leads_back(unsigned from, unsigned to)
{
    return (from <= 22 && to + 2 == from) || (from == 24 && to == 23) || (from == 32 && to == 30);
}

/* What comes of a call; the memories stay as they are. */
static unsigned outcome(const struct contender *contender, struct call call, uint64_t area_length)
{
    static uint8_t control_before[sizeof control];
    static uint8_t area_before[sizeof area];
    unsigned from = control[TASK_PLACE + call.task];
    unsigned code, to;
    memcpy(control_before, control, sizeof control);
    memcpy(area_before, area, sizeof area);
    code = POOL_CODE(make_call(contender, call, control, area, area_length));
    to = control[TASK_PLACE + call.task];
    memcpy(control, control_before, sizeof control);
    memcpy(area, area_before, sizeof area);
    if (call.kind != STEP)
        return GOES_ON;
    return code != POOL_UNDER_WAY ? ENDS : leads_back(from, to) ? LOSES : GOES_ON;
}

static void run(const struct contender *contender, unsigned which, struct told *told)
{
    static unsigned counted[ROWS][PLACES][OUTCOMES];
    uint64_t area_length = SCHEDULES[which].regions * (uint64_t)POOL_REGION_BYTES;
    struct schedule schedule = schedule_of(SCHEDULES[which].seed, SCHEDULES[which].tasks, 0, SCHEDULES[which].leaves);
    (void)contender->start(control, sizeof control, area, area_length, untouchable_strips(), POOL_STRIPS_BYTES,
                           SCHEDULES[which].tasks);
    for (unsigned i = 0; i < CALLS; i++) {
        struct call call = schedule_next(&schedule);
        int leaving = call.kind == STEP && schedule.request[call.task] == BEGIN_LEAVE;
        uint64_t answer;
        told->row = leaving ? LEAVING_STEP : call.kind;
        told->place = control[TASK_PLACE + call.task];
        told->outcome = each_call ? outcome(contender, call, area_length) : GOES_ON;
        if (counted[told->row][told->place][told->outcome]++ < FIRST || i % EVERY == 0)
            STOP_BEFORE_CALL();
        answer = make_call(contender, call, control, area, area_length);
        schedule_answered(&schedule, call, answer);
    }
}

static void child(const struct contender *contender, struct told *told)
{
    let_parent_follow();
    for (unsigned which = 0; which < sizeof SCHEDULES / sizeof *SCHEDULES; which++)
        if (!each_call || !SCHEDULES[which].leaves)
            run(contender, which, told);
    _exit(0);
}

static unsigned long long entry_of(const struct contender *contender, unsigned row)
{
    return row == BEGIN_ALLOCATE ? (unsigned long long)(uintptr_t)contender->begin_allocate
         : row == BEGIN_FREE     ? (unsigned long long)(uintptr_t)contender->begin_free
         : row == BEGIN_LEAVE    ? (unsigned long long)(uintptr_t)contender->begin_leave
                                 : (unsigned long long)(uintptr_t)contender->step;
}

/* The largest number of each row, without the steps of strips, and of each place. */
static void follow(const struct contender *contender, unsigned rows[ROWS], unsigned places[ROWS][PLACES])
{
    struct told *told = seen_by_both(sizeof *told);
    pid_t pid = fork();
    if (pid == 0)
        child(contender, told);
    while (child_stops(pid)) {
        unsigned count = count_call(pid, entry_of(contender, told->row));
        int for_strip = told->row == STEP && (told->place == STRIP_TAKE || told->place == STRIP_GIVE);
        if (count > rows[told->row] && !for_strip)
            rows[told->row] = count;
        if (count > places[told->row][told->place])
            places[told->row][told->place] = count;
        if (each_call)
            printf("%s\t%u\t%u\t%s\n", NAMES[told->row] + sizeof "largest", told->place, count,
                   CAME[told->outcome]);
        child_runs_on(pid);
    }
}

static void print_places(const char *name, const char *contender, const unsigned places[PLACES])
{
    for (unsigned place = 1; place < PLACES; place++)
        if (places[place] != 0)
            printf("%s at place %u\t%s\tinstructions\t%u\n", name, place, contender, places[place]);
}

int main(int count, char **arguments)
{
    int with_places = count == 2 && strcmp(arguments[1], "--places") == 0;
    each_call = count == 2 && strcmp(arguments[1], "--each") == 0;
    for (unsigned c = 0; c < (each_call ? 1 : CONTENDER_COUNT); c++) {
        unsigned rows[ROWS] = {0};
        unsigned places[ROWS][PLACES] = {{0}};
        unsigned made = 0;
        follow(&CONTENDERS[c], rows, places);
        if (each_call)
            return 0;
        for (unsigned row = 0; row < ROWS; row++)
            printf("%s\t%s\tinstructions\t%u\n", NAMES[row], CONTENDERS[c].name, rows[row]);
        for (unsigned place = 1; place < PLACES; place++)
            made += places[STEP][place] != 0 || places[LEAVING_STEP][place] != 0;
        if (with_places) {
            print_places("step", CONTENDERS[c].name, places[STEP]);
            print_places("step of leaving", CONTENDERS[c].name, places[LEAVING_STEP]);
        }
        printf("places where a step was made\t%s\tof 36\t%u\n", CONTENDERS[c].name, made);
    }
    return 0;
}
