/* The classes of blocks. */
#ifndef CLASSES_H
#define CLASSES_H

#include "pool.h"

enum { CLASSES = 13, SMALLEST = 0, LARGEST = CLASSES - 1 };

struct class {
    unsigned block; /* its bytes */
    unsigned n;     /* how many a region has */
};

static const struct class CLASS[CLASSES] = {{8, 512},  {16, 256}, {32, 128}, {48, 85},  {64, 64},  {80, 51}, {96, 42},
                                            {112, 36}, {128, 32}, {160, 25}, {192, 21}, {224, 18}, {256, 16}};

enum { REGION_UNITS = POOL_REGION_BYTES / POOL_UNIT_BYTES };

#endif
