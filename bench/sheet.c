/* The instructions of the stock sheet. */
#include "contender.h"
#include "count_report.h"

int main(void)
{
    return count_report(SHEET);
}
