// The header read by a C++ compiler, with one use of each of its macros.
#include "pool.h"

#include "pool.h" // a second time: the guard

#include <cstddef>
#include <type_traits>

static_assert(POOL_CODE(UINT64_C(20) + 256 * 480) == POOL_FINISHED, "the code of an answer");
static_assert(POOL_VALUE(UINT64_C(20) + 256 * 480) == 480, "the value of an answer");
static_assert(POOL_LOST(UINT64_C(20) + 256 * 480) == 0, "no lost exchange");

constexpr uint64_t WITH_LOST = UINT64_C(20) + 256 * 16320 + (UINT64_C(7) << 32);
static_assert(POOL_CODE(WITH_LOST) == POOL_FINISHED, "the code beside lost exchanges");
static_assert(POOL_VALUE(WITH_LOST) == 16320, "the value beside lost exchanges");
static_assert(POOL_LOST(WITH_LOST) == 7, "the lost exchanges beside a value");
static_assert(POOL_CODE(UINT64_MAX) == 255 && POOL_VALUE(UINT64_MAX) == 0xFFFFFF, "8 bits and 24");
static_assert(POOL_LOST(UINT64_MAX) == POOL_LOST_MOST, "and 32");
static_assert(std::is_same<decltype(POOL_CODE(WITH_LOST)), unsigned>::value, "the type of a code");
static_assert(std::is_same<decltype(POOL_VALUE(WITH_LOST)), uint64_t>::value, "the type of a value");
static_assert(std::is_same<decltype(POOL_LOST(WITH_LOST)), uint32_t>::value, "the type of a number of lost exchanges");

static_assert(POOL_ALIGNMENT % alignof(std::max_align_t) == 0, "what malloc's blocks may hold");

alignas(POOL_ALIGNMENT) uint8_t area[POOL_REGIONS_MOST * POOL_REGION_BYTES];
alignas(POOL_ALIGNMENT) uint8_t strips[POOL_STRIPS_BYTES];

void *block_of(uint64_t answer)
{
    return POOL_BLOCK(area, POOL_VALUE(answer));
}

uint64_t unit_of(const void *block)
{
    return POOL_UNIT(area, block);
}

void *strip_of(uint64_t answer)
{
    return POOL_STRIP(strips, POOL_VALUE(answer));
}

uint64_t unit_of_strip(const void *strip)
{
    return POOL_STRIP_UNIT(strips, strip);
}

uint64_t first_call(uint8_t *control)
{
    return pool_start(control, POOL_CONTROL_BYTES, area, sizeof area, strips, sizeof strips, POOL_TASKS_MOST);
}

static_assert(POOL_SHEET_AT(POOL_CLASSES, 0) == POOL_SHEET_BYTES, "the sheet has a row for each class and region");

uint8_t sheet[POOL_SHEET_BYTES];

unsigned blocks_in_hand(const uint8_t *control)
{
    pool_sheet(control, POOL_CONTROL_BYTES, area, sizeof area, strips, sizeof strips, sheet, sizeof sheet);
    return POOL_SHEET_NUMBER(sheet, 0, POOL_REGIONS_MOST - 1, POOL_IN_HAND);
}

static_assert(POOL_FORM_AT(POOL_CLASSES) == POOL_FORM_BYTES, "the form has a line for each class");
static_assert(POOL_FORM_AT(1) == 2 * (POOL_HOLDER_CHAINS + 1), "the chains are the last number of a line");
static_assert(POOL_HOLDER_CACHE(0) == POOL_HOLDER_HANDS + 1, "the caches begin behind the hands");
static_assert(POOL_HOLDER_REQUEST(0) == POOL_HOLDER_CACHE(POOL_TASKS_MOST), "the requests begin behind the caches");
static_assert(POOL_HOLDER_CHAINS == POOL_HOLDER_REQUEST(POOL_TASKS_MOST), "the chains come behind the requests");

uint8_t form[POOL_FORM_BYTES];

unsigned blocks_with_request(const uint8_t *control, uint64_t task)
{
    pool_holders(control, POOL_CONTROL_BYTES, area, sizeof area, strips, sizeof strips, form, sizeof form);
    return POOL_FORM_NUMBER(form, POOL_CLASSES - 1, POOL_HOLDER_REQUEST(task));
}

static_assert(POOL_KEEPER_AT(1) == POOL_KEEPER_BYTES, "the keepers of the regions stand one after the other");
static_assert(POOL_KEPT_SPARE == POOL_KEPT_IN_HAND + 3, "there are four kinds of keepers");

uint8_t keepers[POOL_REGIONS_MOST * POOL_KEEPER_BYTES];

uint64_t kept_in_cache(const uint8_t *control, uint64_t region)
{
    pool_keepers(control, POOL_CONTROL_BYTES, area, sizeof area, strips, sizeof strips, keepers, sizeof keepers);
    return POOL_KEEPER_KIND(keepers, region) == POOL_KEPT_IN_CACHE && POOL_KEEPER_TASK(keepers, region) == 0
             ? POOL_KEEPER_UNIT(keepers, region)
             : 0;
}

uint64_t last_request(uint8_t *control, uint64_t task)
{
    return pool_begin_leave(control, POOL_CONTROL_BYTES, area, sizeof area, strips, sizeof strips, task);
}
