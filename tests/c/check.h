/* Named checks, counted. */
#ifndef CHECK_H
#define CHECK_H

#include <stdint.h>

/* Counts one check and prints its name. */
void check(const char *name, int holds);

/* Counts one check of all parts of an answer and prints its name; where the answer is another one, both are printed. */
void check_lost(const char *name, uint64_t answer, unsigned code, uint64_t value, uint32_t lost);

/* The same of an answer that tells no lost exchange. */
void check_answer(const char *name, uint64_t answer, unsigned code, uint64_t value);

/* Prints 'N passed, M failed'; 0 only where nothing failed. */
int check_end(void);

/* Each file of checks, in order. */
void check_examples(void);
void check_sizes(void);
void check_blocks(void);
void check_strips(void);
void check_leaving(void);
void check_collisions(void);
void check_lost_exchanges(void);
void check_lost_runs(void);
void check_sheet(void);
void check_holders(void);
void check_keepers(void);
void check_no_region(void);
void check_ends(void);
void check_regions(void);
void check_refusals(void);
void check_lengths(void);
void check_damaged(void);
void check_memories(void);

#endif
