/*
 * The instructions of a report, counted exactly (one_call.h): of fresh pools, of pools with full caches, and the most
 * that were found in a pool and of any memories.
 *
 * What a report takes grows with the cached blocks, whose links it follows. In a pool the most are cached where eight
 * tasks have full caches of 8 and of 16 bytes, which are the blocks of all sixteen regions. In memories that no run has
 * left, the caches of all classes may be full: two of them then have the same blocks, which the report does not notice.
 * There the class of the regions and the place of the tasks are tried one by one, with empty caches, and those that
 * take most are put together with full ones. So is the class of the longest caches, for a report may follow the caches
 * of the class in which a region is open once more.
 */
#ifndef COUNT_REPORT_H
#define COUNT_REPORT_H

/* Counts this report, SHEET, FORM or KEEPERS, of every contender, and prints lines of workload, contender, measure,
   value. It answers the status of the program. */
int count_report(unsigned which);

#endif
