/* A call that is to be refused: by which number, and that no byte changes. */
#ifndef REFUSED_H
#define REFUSED_H

#include "lent.h"

enum kind { START, ALLOCATE, FREE, LEAVE, STEP };

/* Makes the call and counts two checks: the number with value 0, and that no memory and no guard changed.
   `task` is not used by a start; `number` is its tasks, a size, a unit, or unused by leaving and a step. */
void check_refused(const char *name, const struct lent *lent, enum kind kind, uint64_t task, uint64_t number,
                   unsigned code);

#endif
