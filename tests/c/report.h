/* The reports as the tests make them. The stock sheet, the form by holder and the region's keepers are lent the same
   memories, refuse by the same tests and write a row, so that most checks are made for all of them. */
#ifndef REPORT_H
#define REPORT_H

#include "lent.h"

/* A report, and whether the row has its numbers for the pools in which check_report makes it: of two regions, and for
   the last of sixteen. */
struct report {
    const char *name;
    uint64_t (*call)(const uint8_t *control, uint64_t control_length, const uint8_t *area, uint64_t area_length,
                     const uint8_t *strips, uint64_t strips_length, uint8_t *row, uint64_t row_length);
    unsigned bytes;        /* of the whole area, */
    unsigned region_bytes; /* and so many more for each region of it */
    int (*none_open)(void);
    int (*one_in_hand)(void); /* by task 0, of 256 bytes; so are the next three */
    int (*one_being_freed)(void);
    int (*all_cached)(void);
    int (*some_in_chain)(void);
    int (*one_of_each_class)(void);
};

/* The row of the last report. Its address is odd. */
extern uint8_t *const row;

/* The bytes that the report writes for these memories. */
unsigned bytes_of(const struct report *report, const struct lent *lent);

/* Makes the report in a row of so many bytes. */
uint64_t make_report(const struct report *report, const struct lent *lent, uint64_t length);

/* Whether the bytes from this one of the row on, and those in front of the row, are what they were before. */
int row_as_before(size_t from);

/* A report that is written: four checks, of which the last is on the numbers. */
void check_written(const struct report *report, const char *name, const struct lent *lent, int (*numbers)(void));

/* A report that is refused: two checks, of its answer and that no byte changes. */
void check_unwritten(const struct report *report, const char *name, const struct lent *lent, uint64_t length,
                     unsigned code);

/* Sets the mark of a unit in the control memory. */
void set_mark(const struct lent *lent, unsigned unit);

/* All that is checked of every report, and the part of it that is on refusals. */
void check_report(const struct report *report);
void check_refused_reports(const struct report *report);

#endif
