/* The number of lost exchanges that the control memory has for each task, by docs/LAYOUT.md. */
#ifndef LOST_H
#define LOST_H

#include "lent.h"

/* The first bytes of two columns: four bytes of lost exchanges for each task, and the place at which it stands. */
enum { TASK_LOST = 5600, TASK_PLACE = 5632 };

uint32_t lost_of(const struct lent *lent, unsigned task);
void set_lost(const struct lent *lent, unsigned task, uint32_t lost);

unsigned place_of(const struct lent *lent, unsigned task);

/* Steps a task until it stands at a place; whether it has come there. */
int stand_at(const struct lent *lent, unsigned task, unsigned place);

#endif
