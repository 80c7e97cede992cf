/* The form by holder, written by hand: for each class the blocks in hand, in the cache of each task, with the request
   of each task and in the chains of open regions. */
#ifndef BY_HAND_HOLDERS_H
#define BY_HAND_HOLDERS_H

#include "by_hand_reports.h"

static const struct numbering FORM_NUMBERING = {
    .hands = 0, .caches = 1, .requests = 1 + TASKS, .chains = 1 + 2 * TASKS,
    .each_class = 2 + 2 * TASKS, .each_region = 0, .each_task = 1, .all = (2 + 2 * TASKS) * CLASSES};

#endif
