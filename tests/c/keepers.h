/* Rows of keepers that are due. */
#ifndef KEEPERS_H
#define KEEPERS_H

#include "pool.h"
#include "report.h"

struct keeper {
    unsigned kind;
    unsigned task;
    unsigned unit;
};

/* The keepers of each kind, with what the row tells of them. */
#define IN_HAND(unit) {POOL_KEPT_IN_HAND, 0, unit}
#define IN_CACHE(task, unit) {POOL_KEPT_IN_CACHE, task, unit}
#define BY_REQUEST(task) {POOL_KEPT_BY_REQUEST, task, 0}
#define SPARE {POOL_KEPT_SPARE, 0, 0}

extern const struct report KEEPERS;

/* A row of keepers that is written, with these of the area's regions: four checks. */
void check_row(const char *name, const struct lent *lent, const struct keeper *due);

/* What keepers refuse beside what every report refuses, and rows of each number of regions. */
void check_refused_keepers(void);

#endif
