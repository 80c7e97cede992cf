#include "report.h"

#include <stdio.h>
#include <string.h>

#include "check.h"
#include "classes.h"

/* First bytes of columns of the control memory, by docs/LAYOUT.md. */
enum { MARKS = 768, MAP = 5904 };

/* What lies in front of the row and behind the longest one, and what all of these bytes hold before a report. */
enum { FRONT = 17, FURTHER = 16, BEFORE = 0x5C };
static uint8_t memory[FRONT + POOL_SHEET_BYTES + FURTHER];
uint8_t *const row = memory + FRONT;

unsigned bytes_of(const struct report *report, const struct lent *lent)
{
    return report->bytes + report->region_bytes * (unsigned)(lent->area_length / POOL_REGION_BYTES);
}

uint64_t make_report(const struct report *report, const struct lent *lent, uint64_t length)
{
    memset(memory, BEFORE, sizeof memory);
    keep();
    return report->call(LENT(lent), row, length);
}

int row_as_before(size_t from)
{
    for (size_t i = 0; i < sizeof memory; i++)
        if ((i < FRONT || i >= FRONT + from) && memory[i] != BEFORE)
            return 0;
    return 1;
}

void check_written(const struct report *report, const char *name, const struct lent *lent, int (*numbers)(void))
{
    char full[160];
    snprintf(full, sizeof full, "%s: %s", report->name, name);
    check_answer(full, make_report(report, lent, bytes_of(report, lent) + FURTHER), POOL_FINISHED, 0);
    snprintf(full, sizeof full, "%s: %s: no byte of the memories changes", report->name, name);
    check(full, as_kept() && guards_whole(lent));
    snprintf(full, sizeof full, "%s: %s: the row's further bytes stay", report->name, name);
    check(full, row_as_before(bytes_of(report, lent)));
    snprintf(full, sizeof full, "%s: %s: the numbers", report->name, name);
    check(full, numbers());
}

void check_unwritten(const struct report *report, const char *name, const struct lent *lent, uint64_t length,
                     unsigned code)
{
    char full[160];
    snprintf(full, sizeof full, "%u, %s: %s", code, report->name, name);
    check_answer(full, make_report(report, lent, length), code, 0);
    snprintf(full, sizeof full, "%u, %s: %s: no byte changes", code, report->name, name);
    check(full, as_kept() && row_as_before(0));
}

/* A block from its allocation to its region's chain. */
static void one_block(const struct report *report)
{
    struct lent lent = started(2, 2);
    check_written(report, "a fresh pool", &lent, report->none_open);
    uint64_t unit = POOL_VALUE(allocate(&lent, 0, 256));
    check_written(report, "a block in hand", &lent, report->one_in_hand);
    (void)begin_free(&lent, 1, unit);
    check_written(report, "a block whose free has begun", &lent, report->one_being_freed);
    (void)step(&lent, 1);
    check_written(report, "a block that was freed", &lent, report->all_cached);
    (void)leave(&lent, 0);
    check_written(report, "a task that has left", &lent, report->some_in_chain);
    (void)leave(&lent, 1);
    check_written(report, "all tasks have left", &lent, report->none_open);
}

void set_mark(const struct lent *lent, unsigned unit)
{
    lent->control[MARKS + unit / 8] |= (uint8_t)(1 << unit % 8);
}

/* The first block of each class, each in a region of its own; and what is not counted. */
static void classes(const struct report *report)
{
    struct lent lent = started(POOL_REGIONS_MOST, 1);
    for (unsigned i = 0; i < CLASSES; i++)
        (void)allocate(&lent, 0, CLASS[i].block);
    check_written(report, "a block of each class", &lent, report->one_of_each_class);
    (void)allocate(&lent, 0, 3000);
    (void)begin_allocate(&lent, 0, 300);
    check_written(report, "strips are not on it", &lent, report->one_of_each_class);
    /* Region 12 has blocks of 32 units. Region 3 has 85 of 6: its last units are too few for one more. */
    set_mark(&lent, 12 * REGION_UNITS + 1);
    set_mark(&lent, 3 * REGION_UNITS + 6 * CLASS[3].n);
    check_written(report, "marks where no block begins", &lent, report->one_of_each_class);
    set_mark(&lent, 15 * REGION_UNITS);
    lent.control[MAP + 15] = lent.control[MAP];
    check_written(report, "a region whose map entry has another's descriptor", &lent, report->one_of_each_class);
}

void check_report(const struct report *report)
{
    one_block(report);
    classes(report);
    check_refused_reports(report);
}
