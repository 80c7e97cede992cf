/* The pools that are compared, each as its five calls and its reports. */
#ifndef CONTENDER_H
#define CONTENDER_H

#include <stdint.h>

enum { SHEET, FORM, KEEPERS, REPORTS };

typedef uint64_t report(const uint8_t *, uint64_t, const uint8_t *, uint64_t, const uint8_t *, uint64_t, uint8_t *row,
                        uint64_t row_length);

struct contender {
    const char *name;
    uint64_t (*start)(uint8_t *, uint64_t, const uint8_t *, uint64_t, const uint8_t *, uint64_t, uint64_t tasks);
    uint64_t (*begin_allocate)(uint8_t *, uint64_t, const uint8_t *, uint64_t, const uint8_t *, uint64_t, uint64_t task,
                               uint64_t size);
    uint64_t (*begin_free)(uint8_t *, uint64_t, const uint8_t *, uint64_t, const uint8_t *, uint64_t, uint64_t task,
                           uint64_t unit);
    uint64_t (*begin_leave)(uint8_t *, uint64_t, const uint8_t *, uint64_t, const uint8_t *, uint64_t, uint64_t task);
    uint64_t (*step)(uint8_t *, uint64_t, uint8_t *, uint64_t, const uint8_t *, uint64_t, uint64_t task);
    report *reports[REPORTS];
};

/* The name of each report, alone and for several, and the most bytes that it writes. */
struct named_report {
    const char *name;
    const char *many;
    unsigned bytes;
};

/* The library first, then the pool written by hand, from gcc and, where it was compiled in, from clang. */
extern const struct contender CONTENDERS[];
extern const unsigned CONTENDER_COUNT;
extern const struct named_report NAMED_REPORTS[REPORTS];

#endif
