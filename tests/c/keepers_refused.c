/* The region's keepers on memories that no run has left: what is refused, and what is not read. */
#include <stdio.h>

#include "check.h"
#include "classes.h"
#include "keepers.h"

/* First bytes of columns of the control memory, by docs/LAYOUT.md, and of the cache of a task and class. */
enum { SPARE_REGIONS = 8 * 14, MARKS = 768, TOP = 4992, COUNT = 5248, TASK_PLACE = 5632, TASK_CLASS = 5640 };
enum { TASK_REGION = 5664, REGION_NEXT = 5760, DESCRIPTOR_CLASS = 5840 };
#define CACHE(column, task, class) ((column) + 2 * (16 * (task) + (class)))

static const struct keeper BOTH_SPARE[] = {SPARE, SPARE};

/* For each number of regions a row that lacks a byte, one that just holds the keepers, and longer ones. */
static void lengths(void)
{
    static const struct keeper DUE[POOL_REGIONS_MOST] = {SPARE, SPARE, SPARE, SPARE, SPARE, SPARE, SPARE, SPARE,
                                                         SPARE, SPARE, SPARE, SPARE, SPARE, SPARE, SPARE, SPARE};
    for (unsigned regions = 1; regions <= POOL_REGIONS_MOST; regions++) {
        struct lent lent = started(regions, 1);
        unsigned bytes = POOL_KEEPER_BYTES * regions;
        char name[80];
        snprintf(name, sizeof name, "%u regions, a row of %u bytes", regions, bytes - 1);
        check_unwritten(&KEEPERS, name, &lent, bytes - 1, POOL_SHORT_ROW);
        snprintf(name, sizeof name, "keepers: %u regions, a row of %u bytes", regions, bytes);
        check_answer(name, make_report(&KEEPERS, &lent, bytes), POOL_FINISHED, 0);
        check("keepers: nothing more is written", row_as_before(bytes));
        snprintf(name, sizeof name, "keepers: %u regions, a row for sixteen", regions);
        check_answer(name, make_report(&KEEPERS, &lent, POOL_KEEPER_BYTES * POOL_REGIONS_MOST), POOL_FINISHED, 0);
        check("keepers: nothing more is written", row_as_before(bytes));
        snprintf(name, sizeof name, "%u regions", regions);
        check_row(name, &lent, DUE);
    }
}

/* A byte of the control memory of a fresh pool of two regions, and a value. Both are spare, region 0 on top. */
struct byte {
    const char *name;
    unsigned byte;
    uint8_t value;
};

static const struct byte DAMAGE[] = {
    {"a head past the last region", SPARE_REGIONS, 3},
    {"a head of 257", SPARE_REGIONS + 1, 1},
    {"a head of 2^24 and one", SPARE_REGIONS + 3, 1},
    {"a next past the last region", REGION_NEXT, 3},
    {"a list that comes back to its first region", REGION_NEXT + 1, 1},
    {"a list that stays at a region", REGION_NEXT, 1},
    {"an empty list", SPARE_REGIONS, 0},
    {"a list that lacks the first region", SPARE_REGIONS, 2},
    {"a list that lacks the last region", REGION_NEXT, 0},
};

static const struct byte UNREAD[] = {
    {"any tag", SPARE_REGIONS + 4, 255},
    {"the high byte of a tag", SPARE_REGIONS + 7, 255},
    {"the next of a region that is not in the area", REGION_NEXT + 2, 255},
    {"the region of an idle task", TASK_REGION, 255},
};

/* The sheet is given in all of these memories. */
static void list(void)
{
    for (unsigned i = 0; i < sizeof DAMAGE / sizeof *DAMAGE; i++) {
        struct lent lent = started(2, 1);
        lent.control[DAMAGE[i].byte] = DAMAGE[i].value;
        check_unwritten(&KEEPERS, DAMAGE[i].name, &lent, sizeof BOTH_SPARE, POOL_DAMAGED);
        check_unwritten(&KEEPERS, DAMAGE[i].name, &lent, 0, POOL_DAMAGED);
    }
    for (unsigned i = 0; i < sizeof UNREAD / sizeof *UNREAD; i++) {
        struct lent lent = started(2, 1);
        lent.control[UNREAD[i].byte] = UNREAD[i].value;
        check_row(UNREAD[i].name, &lent, BOTH_SPARE);
    }
}

/* The list is tested also where each region has another keeper. */
static void list_not_needed(void)
{
    static const struct keeper DUE[] = {IN_HAND(0), IN_HAND(REGION_UNITS + 480)};
    struct lent lent = started(2, 1);
    for (unsigned i = 0; i < CLASS[LARGEST].n + 1; i++)
        (void)allocate(&lent, 0, 256);
    check_row("two regions in hand, an empty list", &lent, DUE);
    lent.control[SPARE_REGIONS] = 1;
    check_row("two regions in hand that are on the list", &lent, DUE);
    lent.control[REGION_NEXT + 1] = 1;
    check_unwritten(&KEEPERS, "two regions in hand, a list that never ends", &lent, 0, POOL_DAMAGED);
    lent.control[REGION_NEXT] = 3;
    check_unwritten(&KEEPERS, "two regions in hand, a next past the last region", &lent, 0, POOL_DAMAGED);
    lent.control[SPARE_REGIONS] = 3;
    check_unwritten(&KEEPERS, "two regions in hand, a head past the last region", &lent, 0, POOL_DAMAGED);
}

/* The places at which a request has a region itself, and their neighbours, at which it has none or only blocks. */
static const struct place {
    uint8_t place;
    int has_region;
} PLACES[] = {{10, 0}, {16, 0}, {17, 1}, {18, 1}, {19, 1}, {20, 0},
              {23, 0}, {24, 0}, {26, 1}, {33, 1}, {34, 0}, {36, 0}};

/* Puts a task, also one that is not started, at a place with a region in hand. Its class and its unit are 0. */
static void stand_at(const struct lent *lent, unsigned task, uint8_t place, unsigned region)
{
    lent->control[TASK_PLACE + task] = place;
    lent->control[TASK_CLASS + task] = 0;
    lent->control[TASK_REGION + task] = (uint8_t)region;
}

/* A task in a fresh pool of two regions has region 1, which is on the list and then off it, and one past the area. */
static void region_not_open(unsigned task, struct place at)
{
    struct lent lent = started(2, 1);
    const struct keeper by_request[] = {SPARE, BY_REQUEST(task)};
    char name[80];
    stand_at(&lent, task, at.place, 1);
    snprintf(name, sizeof name, "task %u at place %u, a region on the list", task, at.place);
    check_row(name, &lent, BOTH_SPARE);
    lent.control[REGION_NEXT] = 0;
    snprintf(name, sizeof name, "task %u at place %u, a region off the list", task, at.place);
    if (at.has_region)
        check_row(name, &lent, by_request);
    else
        check_unwritten(&KEEPERS, name, &lent, 0, POOL_DAMAGED);
    lent = started(2, 1);
    stand_at(&lent, task, at.place, 2);
    snprintf(name, sizeof name, "task %u at place %u, a region past the area", task, at.place);
    if (at.has_region)
        check_unwritten(&KEEPERS, name, &lent, 0, POOL_DAMAGED);
    else
        check_row(name, &lent, BOTH_SPARE);
}

/* Region 0 is open in the largest class. Its blocks are in nobody's hands, in no cache and in no request. */
static struct lent open_without_blocks(void)
{
    struct lent lent = started(2, 1);
    (void)allocate(&lent, 0, 256);
    lent.control[MARKS + 480 / 8] = 0;
    lent.control[CACHE(COUNT, 0, LARGEST)] = 0;
    lent.control[CACHE(TOP, 0, LARGEST)] = 0;
    lent.control[CACHE(TOP, 0, LARGEST) + 1] = POOL_STRIP_FIRST / 256;
    return lent;
}

/* A task that has an open region itself does not keep it: the list does, if it has the region, and else nobody. */
static void region_open(unsigned task, struct place at)
{
    struct lent lent = open_without_blocks();
    char name[80];
    stand_at(&lent, task, at.place, 0);
    snprintf(name, sizeof name, "task %u at place %u, an open region off the list", task, at.place);
    check_unwritten(&KEEPERS, name, &lent, 0, POOL_DAMAGED);
    lent.control[SPARE_REGIONS] = 1;
    snprintf(name, sizeof name, "task %u at place %u, an open region on the list", task, at.place);
    check_row(name, &lent, BOTH_SPARE);
}

static void regions_of_tasks(void)
{
    for (unsigned i = 0; i < sizeof PLACES / sizeof *PLACES; i++)
        for (unsigned task = 0; task < POOL_TASKS_MOST; task++) {
            region_not_open(task, PLACES[i]);
            if (PLACES[i].has_region)
                region_open(task, PLACES[i]);
        }
}

/* Three tasks have the same region: off the list, on it, then open with a block in hand, and with cached blocks. */
static void lowest_task(void)
{
    struct lent lent = started(2, 1);
    for (unsigned task = 3; task < 6; task++)
        stand_at(&lent, task, 26, 0);
    lent.control[SPARE_REGIONS] = 2;
    check_row("three tasks with a region", &lent, (struct keeper[]){BY_REQUEST(3), SPARE});
    lent.control[SPARE_REGIONS] = 1;
    check_row("three tasks with a region that is on the list", &lent, BOTH_SPARE);
    (void)allocate(&lent, 0, 256);
    check_row("they have a region with a block in hand", &lent, (struct keeper[]){IN_HAND(480), SPARE});
    (void)release(&lent, 0, 480);
    check_row("they have a region with cached blocks", &lent, (struct keeper[]){IN_CACHE(0, 0), SPARE});
}

/* Blocks count only in a region that is open in their class. */
static void other_classes(void)
{
    struct lent lent = started(2, 2);
    lent.control[CACHE(COUNT, 7, LARGEST)] = 1;
    lent.control[CACHE(TOP, 7, LARGEST)] = 0;
    lent.control[CACHE(TOP, 7, LARGEST) + 1] = 2;
    for (unsigned i = 0; i < 4; i++)
        lent.area[POOL_REGION_BYTES + i] = i == 1 ? 0x20 : 0;
    set_mark(&lent, REGION_UNITS);
    check_row("a mark and a cached block of a region that is not open", &lent, BOTH_SPARE);
    lent = started(2, 2);
    (void)allocate(&lent, 0, 256);
    lent.control[DESCRIPTOR_CLASS] = 8;
    check_row("a block in hand, of another class", &lent, (struct keeper[]){IN_HAND(480), SPARE});
    lent.control[MARKS + 480 / 8] = 0;
    check_unwritten(&KEEPERS, "cached blocks of another class alone", &lent, 0, POOL_DAMAGED);
    lent = started(2, 2);
    (void)begin_allocate(&lent, 1, 256);
    make_steps(&lent, 1, 9);
    check_row("blocks to carve", &lent, (struct keeper[]){BY_REQUEST(1), SPARE});
    lent.control[DESCRIPTOR_CLASS] = 8;
    check_unwritten(&KEEPERS, "blocks to carve of another class alone", &lent, 0, POOL_DAMAGED);
    lent.control[DESCRIPTOR_CLASS] = LARGEST;
    lent.control[TASK_REGION + 1] = 1;
    check_unwritten(&KEEPERS, "blocks to carve of another region alone", &lent, 0, POOL_DAMAGED);
}

void check_refused_keepers(void)
{
    lengths();
    list();
    list_not_needed();
    regions_of_tasks();
    lowest_task();
    other_classes();
}
