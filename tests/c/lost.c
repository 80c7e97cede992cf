/* The number of lost exchanges: which answers tell it, and what sets it to 0. */
#include "lost.h"

#include <stdio.h>
#include <string.h>

#include "check.h"
#include "classes.h"
#include "pool.h"
#include "refused.h"

uint32_t lost_of(const struct lent *lent, unsigned task)
{
    const uint8_t *bytes = lent->control + TASK_LOST + 4 * task;
    return bytes[0] + 0x100u * bytes[1] + 0x10000u * bytes[2] + 0x1000000u * bytes[3];
}

void set_lost(const struct lent *lent, unsigned task, uint32_t lost)
{
    for (unsigned i = 0; i < 4; i++)
        lent->control[TASK_LOST + 4 * task + i] = (uint8_t)(lost >> 8 * i);
}

unsigned place_of(const struct lent *lent, unsigned task)
{
    return lent->control[TASK_PLACE + task];
}

int stand_at(const struct lent *lent, unsigned task, unsigned place)
{
    enum { STEPS_MOST = 10000 };
    for (unsigned i = 0; i < STEPS_MOST && place_of(lent, task) != place; i++)
        if (step(lent, task) != POOL_UNDER_WAY)
            return 0;
    return place_of(lent, task) == place;
}

/* A different number for each task, with no byte 0. */
static uint32_t any_lost(unsigned task)
{
    return 0xFEDCBA98u - 0x01010101u * task;
}

static void set_all_lost(const struct lent *lent)
{
    for (unsigned task = 0; task < POOL_TASKS_MOST; task++)
        set_lost(lent, task, any_lost(task));
}

/* Whether the numbers of all tasks are as they were set, but that of one task, which is this. */
static int all_lost_but(const struct lent *lent, unsigned one, uint32_t lost)
{
    int as_set = 1;
    for (unsigned task = 0; task < POOL_TASKS_MOST; task++)
        as_set = as_set && lost_of(lent, task) == (task == one ? lost : any_lost(task));
    return as_set;
}

/* ---- the parts of an answer ---- */

static void parts(void)
{
    uint64_t answer = UINT64_C(0xFEDCBA98) << 32 | UINT64_C(16320) << 8 | POOL_FINISHED;
    check("the code beside lost exchanges", POOL_CODE(answer) == POOL_FINISHED);
    check("the value beside lost exchanges", POOL_VALUE(answer) == 16320);
    check("the lost exchanges beside a value", POOL_LOST(answer) == 0xFEDCBA98);
    check("the value has 24 bits", POOL_VALUE(UINT64_MAX) == 0xFFFFFF && POOL_VALUE(UINT64_C(1) << 32) == 0);
    check("the lost exchanges have 32 bits", POOL_LOST(UINT64_MAX) == POOL_LOST_MOST && POOL_LOST(0xFFFFFFFFu) == 0);
    check("the value is a number of 64 bits, the lost exchanges one of 32",
          sizeof POOL_VALUE(answer) == sizeof answer && sizeof POOL_LOST(answer) == sizeof(uint32_t));
}

/* ---- what sets the number to 0 ---- */

/* An accepted beginning by task 3, on numbers that are not 0. */
static void check_beginning(const char *name, const struct lent *lent, uint64_t answer)
{
    char full[120];
    snprintf(full, sizeof full, "%s begins and tells no lost exchange", name);
    check_answer(full, answer, POOL_UNDER_WAY, 0);
    snprintf(full, sizeof full, "%s begins with no lost exchange, and leaves the numbers of other tasks", name);
    check(full, all_lost_but(lent, 3, 0));
    (void)finish(lent, 3, NULL);
    set_all_lost(lent);
}

static void beginnings(void)
{
    struct lent lent = started(2, POOL_TASKS_MOST);
    uint64_t unit = POOL_VALUE(allocate(&lent, 3, 256));
    uint64_t strip = POOL_VALUE(allocate(&lent, 3, 1000));
    set_all_lost(&lent);
    check_beginning("an allocation of a block", &lent, begin_allocate(&lent, 3, 256));
    check_beginning("an allocation of a strip", &lent, begin_allocate(&lent, 3, 1000));
    check_beginning("a free of a block", &lent, begin_free(&lent, 3, unit));
    check_beginning("a free of a strip", &lent, begin_free(&lent, 3, strip));
    check_beginning("leaving", &lent, begin_leave(&lent, 3));
    check_beginning("leaving with nothing cached", &lent, begin_leave(&lent, 3));
    check_answer("a start tells no lost exchange", start(&lent, 1), POOL_UNDER_WAY, 0);
    static const uint8_t NONE[4 * POOL_TASKS_MOST];
    check("a start sets all numbers to 0", memcmp(lent.control + TASK_LOST, NONE, sizeof NONE) == 0);
}

/* ---- which answers tell it ---- */

/* Refusals of calls on numbers that are not 0; no byte changes. */
static void refusals(void)
{
    struct lent lent = started(1, POOL_TASKS_MOST - 1);
    struct lent other = lent;
    uint64_t strip = POOL_VALUE(allocate(&lent, 0, 512));
    (void)begin_allocate(&lent, 1, 8);
    (void)begin_free(&lent, 2, strip);
    set_all_lost(&lent);
    other.control_length = POOL_CONTROL_BYTES + 1;
    check_refused("numbers of lost exchanges", &other, STEP, 0, 0, POOL_BAD_CONTROL);
    other.control_length = POOL_CONTROL_BYTES;
    other.area_length = 2 * POOL_REGION_BYTES;
    check_refused("numbers of lost exchanges", &other, STEP, 0, 0, POOL_BAD_AREA);
    check_refused("numbers of lost exchanges", &lent, START, 0, 9, POOL_BAD_TASKS);
    check_refused("numbers of lost exchanges", &lent, STEP, POOL_TASKS_MOST - 1, 0, POOL_NO_SUCH_TASK);
    check_refused("numbers of lost exchanges", &lent, ALLOCATE, 1, 8, POOL_REQUEST_IN_HAND);
    check_refused("numbers of lost exchanges", &lent, LEAVE, 1, 0, POOL_REQUEST_IN_HAND);
    check_refused("numbers of lost exchanges", &lent, STEP, 0, 0, POOL_NO_REQUEST);
    check_refused("numbers of lost exchanges", &lent, ALLOCATE, 0, 0, POOL_SIZE_ZERO);
    check_refused("numbers of lost exchanges", &lent, ALLOCATE, 0, 65537, POOL_SIZE_TOO_LARGE);
    check_refused("numbers of lost exchanges", &lent, FREE, 0, 0, POOL_NOT_A_BLOCK);
    check_refused("numbers of lost exchanges", &lent, FREE, 0, strip, POOL_NOT_IN_USE);
    lent.control[TASK_PLACE + 1] = 37;
    check_refused("numbers of lost exchanges", &lent, STEP, 1, 0, POOL_DAMAGED);
    check_refused("numbers of lost exchanges", &lent, ALLOCATE, 1, 8, POOL_DAMAGED);
    lent = lend(1, 0);
    set_all_lost(&lent);
    check_refused("numbers of lost exchanges", &lent, STEP, 1, 0, POOL_NOT_STARTED);
}

/* The reports neither read the numbers nor tell them, and a refused one does not either. */
static void reports(void)
{
    static uint8_t row[POOL_SHEET_BYTES];
    struct lent lent = started(1, POOL_TASKS_MOST);
    (void)begin_allocate(&lent, 1, 8);
    set_all_lost(&lent);
    keep();
    check_answer("the sheet tells no lost exchange", pool_sheet(LENT(&lent), row, sizeof row), POOL_FINISHED, 0);
    check_answer("nor does a refused one", pool_sheet(LENT(&lent), row, 1), POOL_SHORT_ROW, 0);
    check_answer("the form tells no lost exchange", pool_holders(LENT(&lent), row, sizeof row), POOL_FINISHED, 0);
    check_answer("nor does a refused one", pool_holders(LENT(&lent), row, 1), POOL_SHORT_ROW, 0);
    check_answer("the keepers tell no lost exchange", pool_keepers(LENT(&lent), row, sizeof row), POOL_FINISHED, 0);
    check_answer("nor do refused ones", pool_keepers(LENT(&lent), row, 1), POOL_SHORT_ROW, 0);
    check("and none changes the numbers", as_kept());
}

/* The end of task 3's request, which has been begun, with a number that was written: it is told and stays. */
static void check_end_by(const char *name, const struct lent *lent, unsigned code, uint64_t value)
{
    char full[120];
    int under_way = 1;
    uint64_t answer;
    set_all_lost(lent);
    do {
        answer = step(lent, 3);
        under_way = under_way && (POOL_CODE(answer) != POOL_UNDER_WAY || answer == POOL_UNDER_WAY);
    } while (POOL_CODE(answer) == POOL_UNDER_WAY);
    snprintf(full, sizeof full, "%s tells the number of its task", name);
    check_lost(full, answer, code, value, any_lost(3));
    snprintf(full, sizeof full, "%s: no earlier step does, and no number changes", name);
    check(full, under_way && all_lost_but(lent, 3, any_lost(3)));
}

/* Every kind of end. No exchange is lost here. */
static void ends(void)
{
    struct lent lent = started(1, POOL_TASKS_MOST);
    (void)begin_allocate(&lent, 3, 256);
    check_end_by("the first block of a region", &lent, POOL_FINISHED, 480);
    (void)begin_allocate(&lent, 3, 256);
    check_end_by("a block of the cache", &lent, POOL_FINISHED, 448);
    (void)begin_free(&lent, 3, 448);
    check_end_by("a free", &lent, POOL_FINISHED, 0);
    (void)begin_allocate(&lent, 3, 8);
    check_end_by("13", &lent, POOL_NO_REGION, 0);
    (void)begin_leave(&lent, 3);
    check_end_by("leaving", &lent, POOL_FINISHED, 0);
    (void)begin_leave(&lent, 3);
    check_end_by("leaving with nothing cached", &lent, POOL_FINISHED, 0);
    (void)begin_allocate(&lent, 3, 65536);
    check_end_by("a strip", &lent, POOL_FINISHED, POOL_STRIP_FIRST);
    (void)begin_allocate(&lent, 3, 257);
    check_end_by("16", &lent, POOL_NO_STRIP, 0);
    (void)begin_free(&lent, 3, POOL_STRIP_FIRST);
    check_end_by("the free of a strip", &lent, POOL_FINISHED, 0);
}

void check_lost_exchanges(void)
{
    parts();
    beginnings();
    refusals();
    reports();
    ends();
}
