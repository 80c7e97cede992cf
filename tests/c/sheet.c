/* The stock sheet: its numbers as firmware reads them. */
#include "check.h"
#include "classes.h"
#include "report.h"

/* The sum of all numbers. */
static unsigned sum(void)
{
    unsigned all = 0;
    for (unsigned class = 0; class < POOL_CLASSES; class++)
        for (unsigned region = 0; region < POOL_REGIONS_MOST; region++)
            for (unsigned column = POOL_IN_HAND; column <= POOL_IN_CHAIN; column++)
                all += POOL_SHEET_NUMBER(row, class, region, column);
    return all;
}

static int shows(unsigned class, unsigned region, unsigned hand, unsigned caches, unsigned requests, unsigned chain)
{
    return POOL_SHEET_NUMBER(row, class, region, POOL_IN_HAND) == hand
        && POOL_SHEET_NUMBER(row, class, region, POOL_IN_CACHES) == caches
        && POOL_SHEET_NUMBER(row, class, region, POOL_WITH_REQUESTS) == requests
        && POOL_SHEET_NUMBER(row, class, region, POOL_IN_CHAIN) == chain;
}

static int zeros(void)
{
    return sum() == 0;
}

static int one_in_hand(void)
{
    return shows(LARGEST, 0, 1, 15, 0, 0) && sum() == 16;
}

static int one_being_freed(void)
{
    return shows(LARGEST, 0, 0, 15, 1, 0) && sum() == 16;
}

static int all_cached(void)
{
    return shows(LARGEST, 0, 0, 16, 0, 0) && sum() == 16;
}

static int some_in_chain(void)
{
    return shows(LARGEST, 0, 0, 1, 0, 15) && sum() == 16;
}

static int one_of_each_class(void)
{
    int each = 1;
    unsigned all = 0;
    for (unsigned i = 0; i < CLASSES; i++) {
        each = each && shows(i, i, 1, CLASS[i].n - 1, 0, 0);
        all += CLASS[i].n;
    }
    return each && sum() == all;
}

static const struct report SHEET = {
    "sheet", pool_sheet, POOL_SHEET_BYTES, 0,
    zeros, one_in_hand, one_being_freed, all_cached, some_in_chain, one_of_each_class};

void check_sheet(void)
{
    check_report(&SHEET);
}
