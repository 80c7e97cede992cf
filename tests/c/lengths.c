/* Any lengths, and null pointers where the length is 0. */
#include <inttypes.h>
#include <stdio.h>

#include "check.h"
#include "lent.h"
#include "pool.h"
#include "refused.h"

static const uint64_t CONTROL_LENGTHS[] = {0, 1, 4096, 8191, 8193, 16384};
static const uint64_t AREA_LENGTHS[] = {0, 1, 8, 4095, 4097, 8191, 8193, 65535, 65537, 69632};
static const uint64_t STRIPS_LENGTHS[] = {0, 1, 512, 4096, 8192, 32768, 65535, 65537, 66048, 69632};

enum {
    CONTROLS = sizeof CONTROL_LENGTHS / sizeof *CONTROL_LENGTHS,
    AREAS = sizeof AREA_LENGTHS / sizeof *AREA_LENGTHS,
    STRIPS = sizeof STRIPS_LENGTHS / sizeof *STRIPS_LENGTHS
};

/* One check of each kind of call that the length refuses. */
static void each_call(const char *what, const struct lent *lent, uint64_t length, unsigned code)
{
    char name[80];
    snprintf(name, sizeof name, "%s of %" PRIu64 " bytes", what, length);
    check_refused(name, lent, START, 0, 1, code);
    check_refused(name, lent, ALLOCATE, 0, 1, code);
    check_refused(name, lent, FREE, 0, 0, code);
    check_refused(name, lent, LEAVE, 0, 0, code);
    check_refused(name, lent, STEP, 0, 0, code);
}

static void control_lengths(void)
{
    struct lent lent = started(1, 1);
    for (unsigned i = 0; i < CONTROLS; i++) {
        lent.control_length = CONTROL_LENGTHS[i];
        each_call("control", &lent, lent.control_length, POOL_BAD_CONTROL);
    }
}

static void area_lengths(void)
{
    struct lent lent = started(POOL_REGIONS_MOST, 1);
    for (unsigned i = 0; i < AREAS; i++) {
        lent.area_length = AREA_LENGTHS[i];
        each_call("area", &lent, lent.area_length, POOL_BAD_AREA);
    }
}

/* Also where a request for a strip is begun, and a strip is in hand. */
static void strips_lengths(void)
{
    struct lent lent = started(1, 2);
    struct lent other = lent;
    uint64_t unit = POOL_VALUE(allocate(&lent, 1, 1000));
    for (unsigned i = 0; i < STRIPS; i++) {
        other.strips_length = STRIPS_LENGTHS[i];
        each_call("strips' memory", &other, other.strips_length, POOL_BAD_AREA);
        check_refused("a strip, another length", &other, ALLOCATE, 1, 1000, POOL_BAD_AREA);
        check_refused("a strip, another length", &other, FREE, 1, unit, POOL_BAD_AREA);
    }
    (void)begin_allocate(&lent, 0, 1000);
    other.strips_length = 0;
    check_refused("a strip begun, no strips' memory", &other, STEP, 0, 0, POOL_BAD_AREA);
    check_answer("the true length is accepted still", step(&lent, 0), POOL_FINISHED, unit + 128);
}

/* A task that leaves is stepped with the true lengths only. */
static void lengths_while_leaving(void)
{
    struct lent lent = started(2, 1);
    struct lent other = lent;
    (void)allocate(&lent, 0, 256);
    (void)begin_leave(&lent, 0);
    other.area_length = 4096;
    check_refused("a task leaves, another area", &other, STEP, 0, 0, POOL_BAD_AREA);
    other = lent;
    other.strips_length = 512;
    check_refused("a task leaves, other strips", &other, STEP, 0, 0, POOL_BAD_AREA);
    other = lent;
    other.control_length = 8193;
    check_refused("a task leaves, another control", &other, STEP, 0, 0, POOL_BAD_CONTROL);
    check_answer("with the true lengths it comes to its end", finish(&lent, 0, NULL), POOL_FINISHED, 0);
}

/* Every number of regions is started, and then no other length is taken. */
static void each_started_length(void)
{
    int taken = 1;
    int refused = 1;
    for (unsigned regions = 1; regions <= POOL_REGIONS_MOST; regions++) {
        struct lent lent = lend(regions, 0);
        struct lent other = lent;
        taken = taken && start(&lent, 1) == POOL_UNDER_WAY && POOL_CODE(allocate(&lent, 0, 32)) == POOL_FINISHED;
        for (other.area_length = 0; other.area_length <= 65536; other.area_length += 4096)
            if (other.area_length != lent.area_length)
                refused = refused && begin_allocate(&other, 0, 1) == POOL_BAD_AREA;
    }
    check("an area of 1 to 16 regions is started and serves", taken);
    check("a call with another number of regions is refused", refused);
}

static void null_pointers(void)
{
    struct lent lent = started(1, 1);
    struct lent no_control = lent;
    struct lent no_area = lent;
    struct lent no_strips = lent;
    no_control.control = NULL;
    no_control.control_length = 0;
    no_area.area = NULL;
    no_area.area_length = 0;
    no_strips.strips = NULL;
    no_strips.strips_length = 0;
    for (enum kind kind = START; kind <= STEP; kind++) {
        check_refused("null control", &no_control, kind, 0, 1, POOL_BAD_CONTROL);
        check_refused("null area", &no_area, kind, 0, 1, POOL_BAD_AREA);
        check_refused("null strips", &no_strips, kind, 0, 1, POOL_BAD_AREA);
    }
    no_strips.control = NULL;
    no_strips.control_length = 0;
    no_strips.area = NULL;
    no_strips.area_length = 0;
    for (enum kind kind = START; kind <= STEP; kind++)
        check_refused("three null pointers", &no_strips, kind, 0, 1, POOL_BAD_CONTROL);
}

void check_lengths(void)
{
    control_lengths();
    area_lengths();
    strips_lengths();
    lengths_while_leaving();
    each_started_length();
    null_pointers();
}
