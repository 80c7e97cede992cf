#include "contender.h"

#include "pool.h"

#define DECLARE(prefix) \
    uint64_t prefix##_start(uint8_t *, uint64_t, const uint8_t *, uint64_t, const uint8_t *, uint64_t, uint64_t); \
    uint64_t prefix##_begin_allocate(uint8_t *, uint64_t, const uint8_t *, uint64_t, const uint8_t *, uint64_t, \
                                     uint64_t, uint64_t); \
    uint64_t prefix##_begin_free(uint8_t *, uint64_t, const uint8_t *, uint64_t, const uint8_t *, uint64_t, \
                                 uint64_t, uint64_t); \
    uint64_t prefix##_begin_leave(uint8_t *, uint64_t, const uint8_t *, uint64_t, const uint8_t *, uint64_t, \
                                  uint64_t); \
    uint64_t prefix##_step(uint8_t *, uint64_t, uint8_t *, uint64_t, const uint8_t *, uint64_t, uint64_t); \
    report prefix##_sheet, prefix##_holders, prefix##_keepers;

#define CALLS(prefix) \
    prefix##_start, prefix##_begin_allocate, prefix##_begin_free, prefix##_begin_leave, prefix##_step, \
        {prefix##_sheet, prefix##_holders, prefix##_keepers}

#ifdef LIBRARY_ALONE
/* An earlier library may lack these calls; where it has them, its own are linked. */
__attribute__((weak)) uint64_t pool_begin_leave(uint8_t *control, uint64_t control_length, const uint8_t *area,
                                                uint64_t area_length, const uint8_t *strips, uint64_t strips_length,
                                                uint64_t task)
{
    (void)control, (void)control_length, (void)area, (void)area_length, (void)strips, (void)strips_length;
    return task;
}

#define LACKED_REPORT(name) \
    __attribute__((weak)) uint64_t name(const uint8_t *control, uint64_t control_length, const uint8_t *area, \
                                        uint64_t area_length, const uint8_t *strips, uint64_t strips_length, \
                                        uint8_t *row, uint64_t row_length) \
    { \
        (void)control, (void)control_length, (void)area, (void)area_length, (void)strips, (void)strips_length; \
        (void)row; \
        return row_length; \
    }

LACKED_REPORT(pool_sheet)
LACKED_REPORT(pool_holders)
LACKED_REPORT(pool_keepers)
#else
DECLARE(by_hand_gcc)
#endif
#ifdef WITH_CLANG
DECLARE(by_hand_clang)
#endif

const struct contender CONTENDERS[] = {
    {"library", CALLS(pool)},
#ifndef LIBRARY_ALONE
    {"by hand, gcc", CALLS(by_hand_gcc)},
#endif
#ifdef WITH_CLANG
    {"by hand, clang", CALLS(by_hand_clang)},
#endif
};

const unsigned CONTENDER_COUNT = sizeof CONTENDERS / sizeof *CONTENDERS;

const struct named_report NAMED_REPORTS[REPORTS] = {
    [SHEET] = {"sheet", "sheets", POOL_SHEET_BYTES},
    [FORM] = {"form", "forms", POOL_FORM_BYTES},
    [KEEPERS] = {"keepers", "keepers", POOL_REGIONS_MOST * POOL_KEEPER_BYTES},
};
