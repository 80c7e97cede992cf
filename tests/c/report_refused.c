/* What every report refuses, and in which order. */
#include <stdio.h>

#include "check.h"
#include "classes.h"
#include "report.h"

/* First bytes of columns of the control memory, by docs/LAYOUT.md. */
enum { ANCHOR = 256, TOP = 4992, COUNT = 5248, TASK_PLACE = 5632, DESCRIPTOR_CLASS = 5840, MAP = 5904, TASKS = 5944 };
enum { REGIONS = 5945, ENTRY = 2 };

/* Rows with all bytes of the report, with a few more and with a few less; and with next to none or none. */
static void lengths(const struct report *report)
{
    enum { AROUND = 6 };
    struct lent lent = started(2, 1);
    unsigned bytes = bytes_of(report, &lent);
    char name[80];
    (void)allocate(&lent, 0, 256);
    for (unsigned length = bytes - AROUND; length < bytes; length++) {
        snprintf(name, sizeof name, "a row of %u bytes", length);
        check_unwritten(report, name, &lent, length, POOL_SHORT_ROW);
    }
    for (unsigned length = bytes; length <= bytes + AROUND; length++) {
        snprintf(name, sizeof name, "%s: a row of %u bytes", report->name, length);
        check_answer(name, make_report(report, &lent, length), POOL_FINISHED, 0);
        snprintf(name, sizeof name, "%s: a row of %u bytes: the numbers, nothing more", report->name, length);
        check(name, report->one_in_hand() && row_as_before(bytes));
    }
    check_unwritten(report, "a row of one byte", &lent, 1, POOL_SHORT_ROW);
    check_unwritten(report, "a row of no byte", &lent, 0, POOL_SHORT_ROW);
    snprintf(name, sizeof name, "23, %s: no row at all", report->name);
    check_answer(name, report->call(LENT(&lent), NULL, 0), POOL_SHORT_ROW, 0);
}

/* Each test before the next: what is wrong is put right one by one, and the row is too short all the time. */
static void order(const struct report *report)
{
    struct lent lent = lend(2, 0);
    lent.control_length = POOL_CONTROL_BYTES - 1;
    check_unwritten(report, "everything is wrong", &lent, 0, POOL_BAD_CONTROL);
    lent.control_length = POOL_CONTROL_BYTES + 1;
    check_unwritten(report, "a control memory of 8,193 bytes", &lent, 0, POOL_BAD_CONTROL);
    lent.control_length = POOL_CONTROL_BYTES;
    lent.area_length = POOL_REGION_BYTES - 1;
    lent.strips_length = 0;
    check_unwritten(report, "not started, bad lengths", &lent, 0, POOL_NOT_STARTED);
    lent.control[TASKS] = POOL_TASKS_MOST + 1;
    check_unwritten(report, "9 tasks, bad lengths", &lent, 0, POOL_DAMAGED);
    lent.control[TASKS] = 1;
    check_unwritten(report, "0 regions, bad lengths", &lent, 0, POOL_DAMAGED);
    lent.control[REGIONS] = POOL_REGIONS_MOST + 1;
    check_unwritten(report, "17 regions, bad lengths", &lent, 0, POOL_DAMAGED);
    lent = started(2, 1);
    lent.control[MAP] = 65;
    lent.area_length = POOL_REGION_BYTES;
    check_unwritten(report, "an area of another length, a bad value", &lent, 0, POOL_BAD_AREA);
    lent.area_length = 2 * POOL_REGION_BYTES;
    lent.strips_length = POOL_STRIPS_BYTES - 1;
    check_unwritten(report, "strips of another length, a bad value", &lent, 0, POOL_BAD_AREA);
    lent.strips_length = POOL_STRIPS_BYTES;
    check_unwritten(report, "a bad value and no row", &lent, 0, POOL_DAMAGED);
    lent.control[MAP] = 0;
    check_unwritten(report, "no row alone", &lent, 0, POOL_SHORT_ROW);
    check_written(report, "nothing is wrong", &lent, report->none_open);
}

/* A byte of the control memory and the value that damages it, in a pool of two regions, the first of 256-byte blocks,
   n = 16, with unit 480 in hand and the task idle. */
static const struct {
    const char *name;
    unsigned byte;
    uint8_t value;
} DAMAGE[] = {
    {"a place past the step list", TASK_PLACE, 37},
    {"a place past the step list, of a task not started", TASK_PLACE + POOL_TASKS_MOST - 1, 37},
    {"a cache count above n", COUNT + ENTRY * LARGEST, 17},
    {"a cache count one too small", COUNT + ENTRY * LARGEST, 14},
    {"a cache top inside a block", TOP + ENTRY * LARGEST, 193},
    {"a cache top past the area", TOP + ENTRY * LARGEST + 1, 4},
    {"the top of an empty cache", TOP, 1},
    {"a map entry of 65", MAP, 65},
    {"an anchor's state 3", ANCHOR, 3},
    {"an anchor's count of 17", ANCHOR + 4, 34},
    {"a descriptor's class past the last", DESCRIPTOR_CLASS, POOL_CLASSES},
};

static void damaged(const struct report *report)
{
    for (unsigned i = 0; i < sizeof DAMAGE / sizeof *DAMAGE; i++) {
        struct lent lent = started(2, 1);
        (void)allocate(&lent, 0, 256);
        lent.control[DAMAGE[i].byte] = DAMAGE[i].value;
        check_unwritten(report, DAMAGE[i].name, &lent, bytes_of(report, &lent), POOL_DAMAGED);
    }
    struct lent lent = started(2, 1);
    (void)allocate(&lent, 0, 256);
    /* The cache's blocks are linked from unit 448 down to unit 0, whose link is the bottom. */
    lent.area[1] = 0x1F;
    check_unwritten(report, "a link at the bottom of a cache that is not 8,192", &lent, bytes_of(report, &lent),
                    POOL_DAMAGED);
    lent.area[1] = 0x20;
    lent.area[480 * POOL_UNIT_BYTES] = 0xFF;
    check_written(report, "any bytes in a block in hand", &lent, report->one_in_hand);
}

void check_refused_reports(const struct report *report)
{
    lengths(report);
    order(report);
    damaged(report);
}
