/* The stock sheet, written by hand: for each class and region the blocks in hand, in caches, with running requests and
   in the chain. */
#ifndef BY_HAND_SHEET_H
#define BY_HAND_SHEET_H

#include "by_hand_reports.h"

static const struct numbering SHEET_NUMBERING = {
    .hands = 0, .caches = 1, .requests = 2, .chains = 3,
    .each_class = 4 * REGIONS, .each_region = 4, .each_task = 0, .all = 4 * REGIONS * CLASSES};

#endif
