/*
 * The three memories as a test lends them. All lie in one larger memory, with guard bytes before, between and behind
 * them, so that a write outside them shows. The guards are long enough that a test may lend more than 8,192 or 65,536
 * bytes and still speak the truth about the length.
 */
#ifndef LENT_H
#define LENT_H

#include <stddef.h>
#include <stdint.h>

struct lent {
    uint8_t *control;
    uint64_t control_length;
    uint8_t *area;
    uint64_t area_length;
    uint8_t *strips;
    uint64_t strips_length;
};

/* The three memories and their lengths, as every call is lent them. */
#define LENT(lent)                                                                                                     \
    (lent)->control, (lent)->control_length, (lent)->area, (lent)->area_length, (lent)->strips, (lent)->strips_length

/* Fresh memories: a control memory of zeros that lies `shift` bytes past an address aligned to POOL_ALIGNMENT, and an
   area of so many regions and the strips, filled with patterns, that lie `shift` bytes past others. */
struct lent lend(unsigned regions, unsigned shift);

/* Fresh memories, aligned, with an accepted start. */
struct lent started(unsigned regions, unsigned tasks);

/* Keeps a copy of everything; whether everything is still as it was kept; whether the guards are. */
void keep(void);
int as_kept(void);
int guards_whole(const struct lent *lent);

/* Keeps a copy of the strips' memory; whether it is still as it was kept. */
void keep_strips(const struct lent *lent);
int strips_as_kept(const struct lent *lent);

/* The calls on these memories. */
uint64_t start(const struct lent *lent, uint64_t tasks);
uint64_t begin_allocate(const struct lent *lent, uint64_t task, uint64_t size);
uint64_t begin_free(const struct lent *lent, uint64_t task, uint64_t unit);
uint64_t begin_leave(const struct lent *lent, uint64_t task);
uint64_t step(const struct lent *lent, uint64_t task);

/* Steps a task until the code is not POOL_UNDER_WAY. *steps counts the steps; it may be null. */
uint64_t finish(const struct lent *lent, uint64_t task, unsigned *steps);

/* Makes so many steps of a task. */
void make_steps(const struct lent *lent, uint64_t task, unsigned count);

/* A whole request: begin, then steps. A refused beginning is answered as it is. */
uint64_t allocate(const struct lent *lent, uint64_t task, uint64_t size);
uint64_t release(const struct lent *lent, uint64_t task, uint64_t unit);
uint64_t leave(const struct lent *lent, uint64_t task);

#endif
