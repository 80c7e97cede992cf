/* The form by holder: its numbers as firmware reads them, and that they are those of the sheet, added up. */
#include <stdio.h>

#include "check.h"
#include "classes.h"
#include "report.h"

/* First bytes of columns of the control memory, by docs/LAYOUT.md, and of the cache of a task and class. */
enum { TOP = 4992, COUNT = 5248, TASK_REGION = 5664, DESCRIPTOR_CLASS = 5840, MAP = 5904 };
#define CACHE(column, task, class) ((column) + 2 * (16 * (task) + (class)))

/* The line of a class. */
struct line {
    unsigned hands;
    unsigned caches[POOL_TASKS_MOST];
    unsigned requests[POOL_TASKS_MOST];
    unsigned chains;
};

static struct line line_of(unsigned class)
{
    struct line line;
    line.hands = POOL_FORM_NUMBER(row, class, POOL_HOLDER_HANDS);
    for (unsigned task = 0; task < POOL_TASKS_MOST; task++) {
        line.caches[task] = POOL_FORM_NUMBER(row, class, POOL_HOLDER_CACHE(task));
        line.requests[task] = POOL_FORM_NUMBER(row, class, POOL_HOLDER_REQUEST(task));
    }
    line.chains = POOL_FORM_NUMBER(row, class, POOL_HOLDER_CHAINS);
    return line;
}

static int has_line(unsigned class, struct line due)
{
    struct line line = line_of(class);
    int same = line.hands == due.hands && line.chains == due.chains;
    for (unsigned task = 0; task < POOL_TASKS_MOST; task++)
        same = same && line.caches[task] == due.caches[task] && line.requests[task] == due.requests[task];
    return same;
}

/* Whether the form has this line for the class, and zeros for the others. */
static int has_line_alone(unsigned class, struct line due)
{
    int same = 1;
    for (unsigned i = 0; i < POOL_CLASSES; i++)
        same = same && has_line(i, i == class ? due : (struct line){0});
    return same;
}

static int zeros(void)
{
    return has_line_alone(LARGEST, (struct line){0});
}

static int one_in_hand(void)
{
    return has_line_alone(LARGEST, (struct line){.hands = 1, .caches = {15}});
}

static int one_being_freed(void)
{
    return has_line_alone(LARGEST, (struct line){.caches = {15}, .requests = {0, 1}});
}

static int all_cached(void)
{
    return has_line_alone(LARGEST, (struct line){.caches = {15, 1}});
}

static int some_in_chain(void)
{
    return has_line_alone(LARGEST, (struct line){.caches = {0, 1}, .chains = 15});
}

static int one_of_each_class(void)
{
    int each = 1;
    for (unsigned i = 0; i < CLASSES; i++)
        each = each && has_line(i, (struct line){.hands = 1, .caches = {CLASS[i].n - 1}});
    return each;
}

static const struct report FORM = {
    "form", pool_holders, POOL_FORM_BYTES, 0,
    zeros, one_in_hand, one_being_freed, all_cached, some_in_chain, one_of_each_class};

/* A column of the sheet for a class, all regions together. */
static unsigned of_sheet(const uint8_t *sheet, unsigned class, unsigned column)
{
    unsigned sum = 0;
    for (unsigned region = 0; region < POOL_REGIONS_MOST; region++)
        sum += POOL_SHEET_NUMBER(sheet, class, region, column);
    return sum;
}

/* Whether each class has as many blocks with each kind of holder as on the sheet of the same memories. */
static int as_on_sheet(const struct lent *lent)
{
    static uint8_t sheet[POOL_SHEET_BYTES];
    int same = pool_sheet(LENT(lent), sheet, sizeof sheet) == POOL_FINISHED;
    for (unsigned class = 0; class < POOL_CLASSES; class++) {
        struct line line = line_of(class);
        unsigned caches = 0;
        unsigned requests = 0;
        for (unsigned task = 0; task < POOL_TASKS_MOST; task++) {
            caches += line.caches[task];
            requests += line.requests[task];
        }
        same = same && line.hands == of_sheet(sheet, class, POOL_IN_HAND)
            && caches == of_sheet(sheet, class, POOL_IN_CACHES)
            && requests == of_sheet(sheet, class, POOL_WITH_REQUESTS)
            && line.chains == of_sheet(sheet, class, POOL_IN_CHAIN);
    }
    return same;
}

/* The line that is due alone, for a check by its name. */
static unsigned due_class;
static struct line due_line;

static int as_due(void)
{
    return has_line_alone(due_class, due_line);
}

static void check_line(const char *name, const struct lent *lent, unsigned class, struct line line)
{
    char full[160];
    due_class = class;
    due_line = line;
    check_written(&FORM, name, lent, as_due);
    snprintf(full, sizeof full, "form: %s: as on the sheet", name);
    check(full, as_on_sheet(lent));
}

/* Eight tasks, each with a region that it carves: after nine steps it is open, and each further one carves a block. */
static void carving(void)
{
    struct lent lent = started(POOL_TASKS_MOST, POOL_TASKS_MOST);
    struct line line = {0};
    for (unsigned task = 0; task < POOL_TASKS_MOST; task++) {
        (void)begin_allocate(&lent, task, 256);
        make_steps(&lent, task, 9 + 2 * task);
        line.caches[task] = 2 * task;
        line.requests[task] = 16 - 2 * task;
    }
    check_line("eight tasks that carve", &lent, LARGEST, line);
}

/* Takes so many blocks of 8 bytes, by task 0; their units. */
static const uint64_t *take(const struct lent *lent, unsigned count)
{
    static uint64_t units[POOL_REGIONS_MOST * REGION_UNITS];
    for (unsigned i = 0; i < count; i++)
        units[i] = POOL_VALUE(allocate(lent, 0, 8));
    return units;
}

/* Two regions of one class: task t frees t blocks and begins to free one more. */
static void two_regions(void)
{
    struct lent lent = started(3, POOL_TASKS_MOST);
    const uint64_t *unit = take(&lent, 600);
    struct line line = {.hands = 565, .caches = {424}};
    for (unsigned task = 1; task < POOL_TASKS_MOST; task++) {
        for (unsigned i = 0; i < task; i++)
            (void)release(&lent, task, *unit++);
        (void)begin_free(&lent, task, *unit++);
        line.caches[task] = task;
        line.requests[task] = 1;
    }
    check_line("two regions of a class", &lent, SMALLEST, line);
}

/* The largest numbers that hands and chains can have: the chain of an open region lacks a block. */
static void largest_numbers(void)
{
    enum { ALL = POOL_REGIONS_MOST * REGION_UNITS };
    struct lent lent = started(POOL_REGIONS_MOST, 2);
    const uint64_t *unit = take(&lent, ALL);
    check_line("all blocks in hand", &lent, SMALLEST, (struct line){.hands = ALL});
    for (unsigned i = 0; i < ALL; i++)
        if (i % REGION_UNITS != 0)
            (void)release(&lent, 1, unit[i]);
    (void)leave(&lent, 1);
    check_line("a block of each region in hand", &lent, SMALLEST,
               (struct line){.hands = POOL_REGIONS_MOST, .chains = ALL - POOL_REGIONS_MOST});
}

/* A cache that overflows: the step that finds it full, then one for each block of the group. */
static void overflow(void)
{
    struct lent lent = started(2, 2);
    uint64_t unit[32];
    for (unsigned i = 0; i < 32; i++)
        unit[i] = POOL_VALUE(allocate(&lent, 0, 256));
    for (unsigned i = 0; i < 16; i++)
        (void)release(&lent, 1, unit[i]);
    (void)begin_free(&lent, 1, unit[16]);
    make_steps(&lent, 1, 1);
    check_line("a group that is empty", &lent, LARGEST,
               (struct line){.hands = 15, .caches = {0, 16}, .requests = {0, 1}});
    make_steps(&lent, 1, 5);
    check_line("a group and a block being freed", &lent, LARGEST,
               (struct line){.hands = 15, .caches = {0, 11}, .requests = {0, 6}});
}

/* Task 0 leaves, and task 1 takes the chain that it left behind. */
static void group_and_chain(void)
{
    struct lent lent = started(1, 2);
    (void)allocate(&lent, 0, 256);
    (void)begin_leave(&lent, 0);
    make_steps(&lent, 0, 4);
    check_line("a task that leaves", &lent, LARGEST, (struct line){.hands = 1, .caches = {11}, .requests = {4}});
    (void)finish(&lent, 0, NULL);
    (void)begin_allocate(&lent, 1, 256);
    make_steps(&lent, 1, 6 + 4);
    check_line("a chain that was taken", &lent, LARGEST,
               (struct line){.hands = 1, .caches = {0, 4}, .requests = {0, 11}});
}

/* A region whose blocks are all in a group, before and after the exchange by which it is EMPTY. */
static void emptied(void)
{
    struct lent lent = started(1, 1);
    (void)release(&lent, 0, POOL_VALUE(allocate(&lent, 0, 256)));
    (void)begin_leave(&lent, 0);
    make_steps(&lent, 0, 16 + 1 + 2);
    check_line("the group of a whole region", &lent, LARGEST, (struct line){.requests = {16}});
    make_steps(&lent, 0, 1);
    check_line("a region that is not open any more", &lent, LARGEST, (struct line){0});
}

/* A block of 256 bytes in hand and fifteen cached by task 0; two tasks, two regions. */
static struct lent first_block(void)
{
    struct lent lent = started(2, 2);
    (void)allocate(&lent, 0, 256);
    return lent;
}

/* Memories that no run has left, but with every value in its range. */
static void in_range(void)
{
    struct lent lent = first_block();
    lent.control[CACHE(COUNT, 7, LARGEST)] = 1;
    lent.control[CACHE(TOP, 7, LARGEST)] = 0;
    lent.control[CACHE(TOP, 7, LARGEST) + 1] = 0;
    check_line("a block in two caches, one of a task that is not started", &lent, LARGEST,
               (struct line){.hands = 1, .caches = {15, 0, 0, 0, 0, 0, 0, 1}});
    lent.control[CACHE(TOP, 7, LARGEST) + 1] = 2;
    lent.area[POOL_REGION_BYTES] = 0;
    lent.area[POOL_REGION_BYTES + 1] = 0x20;
    lent.area[POOL_REGION_BYTES + 2] = 0;
    lent.area[POOL_REGION_BYTES + 3] = 0;
    check_line("a cached block of a region that is not open", &lent, LARGEST,
               (struct line){.hands = 1, .caches = {15}});
    lent = first_block();
    lent.control[DESCRIPTOR_CLASS] = 8;
    check_line("a region of another class than its cached blocks", &lent, 8, (struct line){.hands = 1});
    lent.control[MAP] = 0;
    check_line("marks of a region that is not open", &lent, LARGEST, (struct line){0});
    lent = started(2, 2);
    (void)begin_allocate(&lent, 1, 256);
    make_steps(&lent, 1, 9 + 5);
    check_line("a region that is carved", &lent, LARGEST, (struct line){.caches = {0, 5}, .requests = {0, 11}});
    lent.control[TASK_REGION + 1] = 1;
    check_line("blocks to carve of a region that is not open", &lent, LARGEST, (struct line){.caches = {0, 5}});
}

void check_holders(void)
{
    check_report(&FORM);
    carving();
    two_regions();
    largest_numbers();
    overflow();
    group_and_chain();
    emptied();
    in_range();
}
