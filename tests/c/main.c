/* The library as firmware calls it: through the header, from C, on memories that the caller lends. */
#include "check.h"

int main(void)
{
    check_examples();
    check_sizes();
    check_blocks();
    check_strips();
    check_leaving();
    check_collisions();
    check_lost_exchanges();
    check_lost_runs();
    check_sheet();
    check_holders();
    check_keepers();
    check_no_region();
    check_ends();
    check_regions();
    check_refusals();
    check_lengths();
    check_damaged();
    check_memories();
    return check_end();
}
