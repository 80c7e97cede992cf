/*
 * That the contenders do the same: on random schedules each is fed the same calls on memories of its own, and after
 * every call the answers and every byte of the control memories and areas are equal. The strips' memory cannot be read
 * or written. In half of the schedules each call is first made on memories that were damaged, the same way in each, so
 * that the tests for 14 are compared, too; then the damage and what came of it are taken back. In half of either tasks
 * leave, too. Now and then the reports of all are compared, also those of damaged memories.
 */
#include <inttypes.h>
#include <stdio.h>
#include <string.h>

#include "contender.h"
#include "damage.h"
#include "pool.h"
#include "schedule.h"

enum { CALLS = 60000, SEEDS = 96, CONTENDERS_MOST = 3, PLACES_MOST = 36 };
enum { AREA_MOST = POOL_REGIONS_MOST * POOL_REGION_BYTES, REPORT_EVERY = 53, FURTHER = 8 };

static uint8_t controls[CONTENDERS_MOST][POOL_CONTROL_BYTES];
static uint8_t areas[CONTENDERS_MOST][AREA_MOST];
static uint64_t code_counts[256];
static uint64_t damaged_counts[256];
static uint64_t place_counts[256];
static uint64_t report_counts[REPORTS][256];
static uint64_t told_counts[2]; /* answers that tell lost exchanges, and how many they tell */

/* Whether this report of all contenders is the same, with what stands behind it in the row, and changes nothing. */
static int agree_report(unsigned which, size_t area_length)
{
    static uint8_t rows[CONTENDERS_MOST][POOL_SHEET_BYTES + FURTHER];
    uint64_t answers[CONTENDERS_MOST] = {0};
    for (unsigned i = 0; i < CONTENDER_COUNT; i++) {
        memset(rows[i], 0x5C, sizeof rows[i]);
        answers[i] = CONTENDERS[i].reports[which](controls[i], POOL_CONTROL_BYTES, areas[i], area_length,
                                                  untouchable_strips(), POOL_STRIPS_BYTES, rows[i],
                                                  NAMED_REPORTS[which].bytes + FURTHER);
        if (answers[i] != answers[0] || memcmp(rows[i], rows[0], sizeof rows[0]) != 0) {
            printf("%s differs in the %s: %" PRIu64 " and %" PRIu64 "\n", CONTENDERS[i].name,
                   NAMED_REPORTS[which].name, answers[i], answers[0]);
            return 0;
        }
    }
    report_counts[which][POOL_CODE(answers[0])] += 1;
    return 1;
}

static int agree_reports(size_t area_length)
{
    for (unsigned which = 0; which < REPORTS; which++)
        if (!agree_report(which, area_length))
            return 0;
    return 1;
}

/* Whether all contenders answer the same and leave the same bytes. *answer is the library's. */
static int agree(struct call call, size_t area_length, uint64_t *answer)
{
    static unsigned calls;
    if (++calls % REPORT_EVERY == 0 && !agree_reports(area_length))
        return 0;
    *answer = make_call(&CONTENDERS[0], call, controls[0], areas[0], area_length);
    for (unsigned i = 1; i < CONTENDER_COUNT; i++) {
        uint64_t other = make_call(&CONTENDERS[i], call, controls[i], areas[i], area_length);
        if (other != *answer || memcmp(controls[i], controls[0], POOL_CONTROL_BYTES) != 0
            || memcmp(areas[i], areas[0], area_length) != 0) {
            printf("%s differs: kind %d task %u number %" PRIu64 ": %" PRIu64 " and %" PRIu64 "\n", CONTENDERS[i].name,
                   (int)call.kind, call.task, call.number, other, *answer);
            return 0;
        }
    }
    return 1;
}

/* Starts all contenders on memories that hold anything. */
static int begin(struct schedule *schedule, size_t area_length, unsigned tasks)
{
    for (size_t i = 0; i < POOL_CONTROL_BYTES; i++)
        controls[0][i] = (uint8_t)schedule_random(schedule, 256);
    for (size_t i = 0; i < area_length; i++)
        areas[0][i] = (uint8_t)schedule_random(schedule, 256);
    for (unsigned i = 1; i < CONTENDER_COUNT; i++) {
        memcpy(controls[i], controls[0], POOL_CONTROL_BYTES);
        memcpy(areas[i], areas[0], area_length);
    }
    for (unsigned i = 0; i < CONTENDER_COUNT; i++)
        if (CONTENDERS[i].start(controls[i], POOL_CONTROL_BYTES, areas[i], area_length, untouchable_strips(),
                                POOL_STRIPS_BYTES, tasks)
                != 0
            || memcmp(controls[i], controls[0], POOL_CONTROL_BYTES) != 0) {
            printf("%s differs at the start\n", CONTENDERS[i].name);
            return 0;
        }
    return 1;
}

/* A call of all contenders on damaged memories; afterwards all are again what the library's were. */
static int agree_damaged(struct schedule *schedule, struct call call, size_t area_length)
{
    static uint8_t control[POOL_CONTROL_BYTES];
    static uint8_t area[AREA_MOST];
    struct damage damage = damage_of(schedule, controls[0], area_length, call.task % schedule->tasks);
    uint64_t answer;
    memcpy(control, controls[0], sizeof control);
    memcpy(area, areas[0], area_length);
    for (unsigned i = 0; i < CONTENDER_COUNT; i++)
        damage_do(damage, controls[i], areas[i]);
    if (!agree(call, area_length, &answer))
        return 0;
    damaged_counts[POOL_CODE(answer)] += 1;
    for (unsigned i = 0; i < CONTENDER_COUNT; i++) {
        memcpy(controls[i], control, sizeof control);
        memcpy(areas[i], area, area_length);
    }
    return 1;
}

/* One call of all contenders, counted by its answer and, for a step, by its place. */
static int one_call(struct schedule *schedule, size_t area_length, int damaged)
{
    struct call call = schedule_next(schedule);
    uint64_t answer;
    if (damaged && !agree_damaged(schedule, call, area_length))
        return 0;
    if (call.kind == STEP && call.task < schedule->tasks)
        place_counts[controls[0][5632 + call.task]] += 1;
    if (!agree(call, area_length, &answer))
        return 0;
    code_counts[POOL_CODE(answer)] += 1;
    told_counts[0] += POOL_LOST(answer) != 0;
    told_counts[1] += POOL_LOST(answer);
    schedule_answered(schedule, call, answer);
    return 1;
}

static int run(uint64_t seed)
{
    unsigned tasks = 1 + (unsigned)(seed % 8);
    int damaged = seed % 4 >= 2;
    size_t area_length = POOL_REGION_BYTES * (size_t)(seed % 12 == 0 ? POOL_REGIONS_MOST : 1 + seed % 5);
    struct schedule schedule = schedule_of(seed, tasks, 1, seed / 8 % 2 == 0);
    if (!begin(&schedule, area_length, tasks))
        return 0;
    for (unsigned i = 0; i < CALLS; i++)
        if (!one_call(&schedule, area_length, damaged)) {
            printf("seed %" PRIu64 ", call %u\n", seed, i);
            return 0;
        }
    return 1;
}

static void print_counts(const char *name, const uint64_t counts[256])
{
    printf("%s, by code:", name);
    for (unsigned code = 0; code < 256; code++)
        if (counts[code] != 0)
            printf(" %u: %" PRIu64, code, counts[code]);
    printf("\n");
}

int main(void)
{
    unsigned passed = 0;
    unsigned places = 0;
    for (uint64_t seed = 1; seed <= SEEDS; seed++)
        passed += (unsigned)run(seed);
    for (unsigned place = 1; place <= PLACES_MOST; place++)
        places += place_counts[place] != 0;
    printf("%u contenders; steps were made at %u of %d places\n", CONTENDER_COUNT, places, PLACES_MOST);
    print_counts("answers", code_counts);
    printf("%" PRIu64 " of them tell lost exchanges, %" PRIu64 " in all\n", told_counts[0], told_counts[1]);
    print_counts("answers on damaged memories", damaged_counts);
    for (unsigned which = 0; which < REPORTS; which++)
        print_counts(NAMED_REPORTS[which].many, report_counts[which]);
    printf("%u passed, %u failed\n", passed, SEEDS - passed);
    return passed == SEEDS ? 0 : 1;
}
