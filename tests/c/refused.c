#include "refused.h"

#include <stdio.h>

#include "check.h"

static uint64_t call(const struct lent *lent, enum kind kind, uint64_t task, uint64_t number)
{
    switch (kind) {
    case START:
        return start(lent, number);
    case ALLOCATE:
        return begin_allocate(lent, task, number);
    case FREE:
        return begin_free(lent, task, number);
    case LEAVE:
        return begin_leave(lent, task);
    default:
        return step(lent, task);
    }
}

void check_refused(const char *name, const struct lent *lent, enum kind kind, uint64_t task, uint64_t number,
                   unsigned code)
{
    static const char *const KINDS[] = {"start", "begin allocate", "begin free", "begin leave", "step"};
    char full[160];
    keep();
    snprintf(full, sizeof full, "%u, %s: %s", code, KINDS[kind], name);
    check_answer(full, call(lent, kind, task, number), code, 0);
    snprintf(full, sizeof full, "%u, %s: %s: no byte changes", code, KINDS[kind], name);
    check(full, as_kept());
}
