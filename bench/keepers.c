/* The instructions of the region's keepers. */
#include "contender.h"
#include "count_report.h"

int main(void)
{
    return count_report(KEEPERS);
}
