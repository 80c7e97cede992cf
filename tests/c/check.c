#include "check.h"

#include <inttypes.h>
#include <stdio.h>

#include "pool.h"

static unsigned passed;
static unsigned failed;

void check(const char *name, int holds)
{
    if (holds)
        passed += 1;
    else
        failed += 1;
    printf("%s: %s\n", holds ? "passed" : "FAILED", name);
}

void check_lost(const char *name, uint64_t answer, unsigned code, uint64_t value, uint32_t lost)
{
    int holds = POOL_CODE(answer) == code && POOL_VALUE(answer) == value && POOL_LOST(answer) == lost;
    check(name, holds);
    if (!holds)
        printf("    expected code %u value %" PRIu64 " lost %" PRIu32 ", answered code %u value %" PRIu64
               " lost %" PRIu32 "\n",
               code, value, lost, POOL_CODE(answer), POOL_VALUE(answer), POOL_LOST(answer));
}

void check_answer(const char *name, uint64_t answer, unsigned code, uint64_t value)
{
    check_lost(name, answer, code, value, 0);
}

int check_end(void)
{
    printf("%u passed, %u failed\n", passed, failed);
    return failed == 0 ? 0 : 1;
}
