/* A write where nobody has business to write, to compare what the contenders make of it. */
#ifndef DAMAGE_H
#define DAMAGE_H

#include <stddef.h>

#include "schedule.h"

struct damage {
    int in_area; /* else in the control memory */
    size_t place;
    size_t bytes; /* of the value, low byte first */
    uint64_t value;
};

/* A field of the control memory or a link in the area, mostly one that a call of this task reads next, gets a number
   near one of the bounds that it is tested against. */
struct damage damage_of(struct schedule *schedule, const uint8_t *control, size_t area_length, unsigned task);

void damage_do(struct damage damage, uint8_t *control, uint8_t *area);

#endif
