/* The instructions of the form by holder. */
#include "contender.h"
#include "count_report.h"

int main(void)
{
    return count_report(FORM);
}
