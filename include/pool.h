/*
 * A pool of blocks for requests of 1 to 65,536 bytes of 1 to 8 tasks, worked one step at a time.
 *
 * ---- The three memories ----
 *
 * The pool lives in three memories that the firmware lends to every call:
 *
 *   control  8,192 bytes, the pool's own: lists, descriptors, marks, caches, strips, and what each task is doing;
 *   area     1 to 16 regions of 4,096 bytes, from which the blocks of 1 to 256 bytes are cut;
 *   strips   65,536 bytes, from which the strips are cut, for requests of 257 to 65,536 bytes.
 *
 * A unit is 8 bytes. A block is named by its first unit, counted from the start of the area: 0 to 8,191. A strip is
 * named by its first unit, too, counted from 8,192 at the start of the strips' memory: 8,192 to 16,383.
 *
 * The strips' memory is lent to every call so that its length can be tested. No call reads or writes a byte of it:
 * which strips there are stands in the control memory.
 *
 * ---- Strips ----
 *
 * A size from 257 up is rounded up to a power of two, at least 512. A strip has as many bytes: 512, 1,024, 2,048,
 * 4,096, 8,192, 16,384, 32,768 or 65,536. All of them are the user's, also those behind the size.
 *
 * A start leaves the strips' memory as one free piece. A request takes the smallest free piece that is large enough, of
 * equal ones that at the lowest place, and halves it until it fits: the lower half is halved further, the upper one
 * stays a free piece. A strip that is given back becomes a free piece, and two halves of a piece that are both free
 * become one again.
 *
 * A request for a strip, or the free of one, is over with its first step. A strip whose free has begun is out of its
 * user's hands and not yet free: another task gets it only after that step.
 *
 * ---- Alignment ----
 *
 * A block of 16 bytes or more begins at a multiple of 16 bytes of the area, a block of 8 bytes at a multiple of 8. A
 * size of 1 to 8 bytes gets a block of 8, every larger one a block of 16 or more. No alignment above 16 is promised for
 * blocks. A strip begins at a multiple of its own length, counted from the start of the strips' memory.
 *
 * So the area has to be aligned to 16 itself (POOL_ALIGNMENT), if the blocks are to be, and the strips' memory as its
 * user wants it. No call tests it: a start takes any area, and on one that is aligned to 8 only, no block of 16 bytes
 * or more is aligned to 16. In C11, C++11 and later, with the alignas in front:
 *
 *     #include <stdalign.h>
 *     alignas(POOL_ALIGNMENT) static uint8_t area[4 * POOL_REGION_BYTES];
 *     alignas(POOL_ALIGNMENT) static uint8_t strips[POOL_STRIPS_BYTES];
 *     static uint8_t control[POOL_CONTROL_BYTES];
 *
 * In C99 and C++98, with gcc or clang:
 *
 *     static uint8_t area[4 * POOL_REGION_BYTES] __attribute__((aligned(POOL_ALIGNMENT)));
 *
 * The calls themselves need no alignment of any memory.
 *
 * ---- How a request is driven ----
 *
 * Begin it, then step until the code is not POOL_UNDER_WAY:
 *
 *     uint64_t answer = pool_begin_allocate(control, sizeof control, area, sizeof area, strips, sizeof strips, task,
 *                                           size);
 *     while (POOL_CODE(answer) == POOL_UNDER_WAY)
 *         answer = pool_step(control, sizeof control, area, sizeof area, strips, sizeof strips, task);
 *     if (POOL_CODE(answer) == POOL_FINISHED)
 *         block = size <= POOL_BLOCK_MOST ? POOL_BLOCK(area, POOL_VALUE(answer))
 *                                         : POOL_STRIP(strips, POOL_VALUE(answer));
 *
 * Between any two of these calls other tasks may begin requests and step theirs. Any task may free any block or strip.
 *
 * A task that leaves is driven in the same way. It returns the blocks of its caches, and may begin again afterwards:
 *
 *     uint64_t answer = pool_begin_leave(control, sizeof control, area, sizeof area, strips, sizeof strips, task);
 *     while (POOL_CODE(answer) == POOL_UNDER_WAY)
 *         answer = pool_step(control, sizeof control, area, sizeof area, strips, sizeof strips, task);
 *
 * ---- Lost exchanges: how often tasks collide ----
 *
 * The step that ends a request also tells how often another task was there first:
 *
 *     if (POOL_LOST(answer) > worst)
 *         worst = POOL_LOST(answer);
 *
 * To take an item from a list, or to put one on it, a request notes the list's head. In a later step it exchanges the
 * head for another, if it is still the noted one. If it is not, because another task has changed it, the exchange is
 * lost: the list stays as it is, and the request notes the new head. It is the same with a region's anchor, which
 * describes the region's chain. POOL_LOST is the number of exchanges, of heads and of anchors, that the request has
 * lost since its accepted beginning, or 4,294,967,295 where there were more. What other tasks have lost is not in it,
 * nor what earlier requests of the same task have.
 *
 * Compare these numbers to tune the table of slots in which your tasks are stepped: for each lost exchange the request
 * has made two or three steps in vain. A request that the task's own cache can serve loses none, and a request for a
 * strip or the free of one never does. All tasks share the lists of spare regions and of spare descriptors. Those that
 * use a class share its partial list, and those that return blocks to a region or take its chain share its anchor.
 *
 * The number stands in the answer of the step that ends the request: POOL_FINISHED, POOL_NO_DESCRIPTOR, POOL_NO_REGION
 * or POOL_NO_STRIP. Every other answer has 0 in its place: that of an earlier step, a beginning, a start, a report or a
 * refused call.
 *
 * ---- What is proved ----
 *
 * Of each call, for any bytes in the memories and any numbers: its answer, and every byte of the memories afterwards,
 * are those that the definition of the call gives. So a refused call changes no byte. This needs premises 1 and 2.
 *
 * Of all calls of a run together, under all six premises:
 *
 *   - each block of an open region is in exactly one place: a user's hands, a task or its region's chain;
 *   - each unit of the strips' memory is in exactly one strip or free piece;
 *   - no call changes a byte of a block or strip that is in a user's hands;
 *   - the unit of a finished allocation of 1 to 256 bytes is the first of the smallest block that holds the size (see
 *     pool_begin_allocate), at a multiple of 16 bytes of the area where that block has 16 bytes or more;
 *   - a finished strip is at least as large as asked for and less than twice it, or 512 bytes;
 *   - POOL_NO_STRIP comes exactly where no aligned stretch of the rounded size is free, slot of 512 bytes by slot;
 *   - POOL_LOST of the step that ends a request is the number of exchanges which that request has lost, or
 *     4,294,967,295 where there were more;
 *   - POOL_DAMAGED does not occur.
 *
 * The premises, which the firmware has to see to:
 *
 *   1. The three memories do not overlap, and each really has the length that is lent with it. A pointer may be null
 *      where its length is 0.
 *   2. Calls do not overlap in time: mask interrupts or lock around each single call. But for a report, which is a tool
 *      (see "Reports" below), the longest is a step of at most 327 instructions; docs/BENCHMARKS.md says what this
 *      bound rests on. A start, which comes before the others, also fills 8,192 bytes by your memset.
 *   3. Each call but a start lends the control memory, the area and the strips' memory of the last accepted start. If
 *      it lends another length, it is refused and does no harm.
 *   4. Users write only inside blocks and strips that they hold. A block or strip is held from the step that finishes
 *      with its unit to the accepted beginning of its free, or to the next accepted start.
 *   5. Only the calls write the control memory. The claims hold from an accepted start on, whatever it held before. If
 *      it was not started, as one of zeros, they hold also before that start.
 *   6. Fewer than 2^32 changes of a list come between a task's read of its head and the same task's exchange.
 *
 * A write outside a held strip, but inside the strips' memory, harms no part of the pool: it harms other users.
 *
 * Not proved: how many steps a request for a block takes while other tasks step between, and how long a call takes.
 *
 * ---- What keeps regions: POOL_NO_REGION and POOL_NO_DESCRIPTOR ----
 *
 * Strips need no region. A region serves blocks of one size, its class, while it is open. It stays open while any of
 * its blocks is in a user's hands, in a task's cache or under way in a request. A task's cache of a class keeps freed
 * blocks, up to as many as a region has.
 *
 * So POOL_NO_REGION may come though nobody holds a block. An example, with one task and one region: allocate 8 bytes,
 * free them, then allocate 16. The region's blocks of 8 bytes are all in the task's cache. If the task leaves after the
 * free, the region is spare again, and the 16 bytes can be had.
 *
 * A free that finds its cache full returns the cached blocks to their regions, and leaving does so with all caches of
 * its task. A region with all its blocks back in its chain is released to the list of spare regions.
 *
 * Each open region uses one of 64 descriptors. A region that has emptied leaves its descriptor on the partial list of
 * its class, until an allocation of that class pops it. A running request may have one in hand, too.
 *
 * pool_keepers tells of each region what keeps it. What you can do:
 *
 *   - lend enough regions: docs/POOL.md, "How many regions do I need?";
 *   - let the same task free and allocate blocks of a class: it reuses its cache;
 *   - let a task leave (pool_begin_leave) that has done its work: its caches keep no region any more;
 *   - start again: that gives everything back, and all blocks and strips are void.
 *
 * ---- Reports ----
 *
 * A report is a tool: it tells where the blocks are, without changing the pool. There are three: the stock sheet for
 * the fitter, the form by holder for the fleet office, and the region's keepers for the fitter who wants to know why a
 * request ended with POOL_NO_REGION. Tasks need none of them.
 *
 * Each block of an open region has one holder: a user's hands, a task's cache, a task's running request or the region's
 * chain. With a running request are a block being freed, the group or chain that is under way, and blocks that are
 * still to be carved. The classes of blocks are numbered: 0 has 8 bytes, then 16, 32, 48, 64, 80, 96, 112, 128, 160,
 * 192 and 224, and 12 has 256. Strips are in no report.
 *
 * A report is one call like the others: no other call may run meanwhile. It takes much longer than they do, for it
 * follows the links of all cached blocks: see pool_sheet, pool_holders and pool_keepers.
 *
 * ---- The stock sheet ----
 *
 * For each class and each region the sheet has four numbers: how many blocks of the region are in users' hands, in
 * tasks' caches, with running requests, and in the region's chain. The four numbers of an open region add up to the
 * blocks that a region of its class has. A region that is not open in the class, or not in the area, shows four zeros.
 *
 *     static uint8_t sheet[POOL_SHEET_BYTES];
 *     if (pool_sheet(control, sizeof control, area, sizeof area, strips, sizeof strips, sheet, sizeof sheet)
 *         == POOL_FINISHED)
 *         cached = POOL_SHEET_NUMBER(sheet, class, region, POOL_IN_CACHES);
 *
 * ---- The form by holder ----
 *
 * The form has a line for each class, in which the regions are added up and the tasks are told apart. Its 18 numbers
 * are the blocks in users' hands, in the cache of each of eight tasks, with the request of each, and in the chains of
 * open regions. They add up to what the sheet has of the class.
 *
 *     static uint8_t form[POOL_FORM_BYTES];
 *     if (pool_holders(control, sizeof control, area, sizeof area, strips, sizeof strips, form, sizeof form)
 *         == POOL_FINISHED)
 *         cached = POOL_FORM_NUMBER(form, class, POOL_HOLDER_CACHE(task));
 *
 * ---- The region's keepers ----
 *
 * For each region of the area the row names what keeps it: the lowest block in a user's hands, else a cached block with
 * its task, else the task whose request has the region, else the list of spare regions. Call it right after a step
 * that answered POOL_NO_REGION, before any other call. Then it says why there was no region:
 *
 *     static uint8_t keepers[POOL_REGIONS_MOST * POOL_KEEPER_BYTES];
 *     if (POOL_CODE(answer) == POOL_NO_REGION
 *         && pool_keepers(control, sizeof control, area, sizeof area, strips, sizeof strips, keepers, sizeof keepers)
 *                == POOL_FINISHED)
 *         for (region = 0; region < sizeof area / POOL_REGION_BYTES; region++)
 *             if (POOL_KEEPER_KIND(keepers, region) == POOL_KEPT_IN_CACHE)
 *                 should_leave(POOL_KEEPER_TASK(keepers, region));
 *
 * ---- What the code needs ----
 *
 * The beginnings and the steps for blocks have no loop but one: leaving looks for the next of the task's thirteen
 * caches that is not empty. A step for a strip halves or joins at most seven times, and the start loops over the
 * control memory alone. No call makes a system call, allocates memory or keeps anything outside the memories that it is
 * lent. The library is target/staticlib/libpool.a, made by tools/library. A start needs memset from the firmware's C
 * library, and SSE2 registers. The sheet and the form need memset, memcpy and SSE2 registers, the keepers memcpy and
 * SSE2 registers. The code is for x86-64.
 *
 * Each function has a section of its own, so that the linker can leave out a report that is never called (gcc:
 * -Wl,--gc-sections). What it leaves out are code and constants that no other call uses:
 *
 *   1,913 bytes   of the sheet alone, where the sheet is not called;
 *   2,869 bytes   of the form alone, where the form is not called;
 *   6,271 bytes   of the keepers alone, where the keepers are not called;
 *   1,343 bytes   that reports share, where none is called.
 *
 * So 12,396 bytes are left out where no report is called, and no memcpy is needed.
 *
 * A report may keep values below the stack pointer, in the 128 bytes that the System V ABI calls the red zone; the
 * other calls do not. An interrupt that comes during a report, and uses the same stack, has to leave these bytes as
 * they are.
 */
#ifndef POOL_H
#define POOL_H

#include <stddef.h>
#include <stdint.h>

#ifdef __cplusplus
extern "C" {
#endif

/* ---- sizes ---- */

#define POOL_CONTROL_BYTES 8192 /* of the control memory, always */
#define POOL_REGION_BYTES 4096  /* of one region of the area */
#define POOL_REGIONS_MOST 16    /* in an area; the least is 1 */
#define POOL_TASKS_MOST 8       /* of a pool, numbered from 0; the least is 1 */
#define POOL_BLOCK_MOST 256     /* bytes of the largest block of the area; larger requests get strips */
#define POOL_STRIPS_BYTES 65536 /* of the strips' memory, always, and the largest request */
#define POOL_STRIP_LEAST 512    /* bytes of the smallest strip */
#define POOL_STRIP_FIRST 8192   /* the unit at the start of the strips' memory */
#define POOL_UNIT_BYTES 8       /* of one unit */
#define POOL_ALIGNMENT 16       /* of every block of 16 bytes or more, if the area has it */
#define POOL_CLASSES 13         /* sizes of blocks, numbered from 0 for 8 bytes to 12 for 256 */
#define POOL_SHEET_BYTES 1664   /* of the stock sheet: four numbers of two bytes for each class and region */
#define POOL_FORM_BYTES 468     /* of the form by holder: 18 numbers of two bytes for each class */
#define POOL_KEEPER_BYTES 4     /* of the keeper of one region; their row has as many for each region of the area */

/* ---- answers ---- */

/* Every call answers one number, which has three parts: the code in the low 8 bits, the value in the next 24, the lost
   exchanges in the high 32. The value is the unit of a finished allocation, from POOL_STRIP_FIRST up for a strip, else
   0. The lost exchanges are those of a request that has ended, else 0: see "Lost exchanges" above. So compare the code
   of a step with POOL_FINISHED, not its answer. */
#define POOL_CODE(answer) ((unsigned)((answer) % 256))
#define POOL_VALUE(answer) ((answer) / 256 % 16777216)
#define POOL_LOST(answer) ((uint32_t)((answer) / 256 / 16777216))
#define POOL_LOST_MOST 4294967295u /* so many lost exchanges, or more */

/* The address of the block that a unit names, and the unit of the block at an address. Use the second only on addresses
   that the first gave: it rounds down to a whole unit and does not test that the address lies in the area. */
#define POOL_BLOCK(area, unit) ((void *)((uint8_t *)(area) + POOL_UNIT_BYTES * (size_t)(unit)))
#define POOL_UNIT(area, block) ((uint64_t)((const uint8_t *)(block) - (const uint8_t *)(area)) / POOL_UNIT_BYTES)

/* The same for strips and their units, from POOL_STRIP_FIRST up. */
#define POOL_STRIP(strips, unit) POOL_BLOCK(strips, (unit) - POOL_STRIP_FIRST)
#define POOL_STRIP_UNIT(strips, strip) (POOL_UNIT(strips, strip) + POOL_STRIP_FIRST)

/* The number at a byte of a report's row: two bytes, the low byte first. */
#define POOL_ROW_NUMBER(row, byte) \
    ((unsigned)((const uint8_t *)(row))[byte] + 256u * ((const uint8_t *)(row))[(byte) + 1])

/* The number in a column of a stock sheet, for a class and a region, and the byte at which their four numbers begin. */
#define POOL_SHEET_AT(class_number, region) (8 * (POOL_REGIONS_MOST * (size_t)(class_number) + (size_t)(region)))
#define POOL_SHEET_NUMBER(sheet, class_number, region, column) \
    POOL_ROW_NUMBER(sheet, POOL_SHEET_AT(class_number, region) + 2 * (size_t)(column))

/* The columns of a stock sheet: where the blocks of a region are. */
enum pool_column {
    POOL_IN_HAND = 0,       /* in users' hands */
    POOL_IN_CACHES = 1,     /* in the caches of the tasks */
    POOL_WITH_REQUESTS = 2, /* with requests that are not over */
    POOL_IN_CHAIN = 3       /* in the region's own chain */
};

/* The number of a holder in a form by holder, for a class, and the byte at which the line of the class begins. */
#define POOL_FORM_AT(class_number) (36 * (size_t)(class_number))
#define POOL_FORM_NUMBER(form, class_number, holder) \
    POOL_ROW_NUMBER(form, POOL_FORM_AT(class_number) + 2 * (size_t)(holder))

/* The holders of a form, by the order of their numbers: the users' hands, the cache of each task, the request of each
   task that is not over, the chains of open regions. */
enum pool_holder { POOL_HOLDER_HANDS = 0, POOL_HOLDER_CHAINS = 17 };
#define POOL_HOLDER_CACHE(task) (1 + (size_t)(task))
#define POOL_HOLDER_REQUEST(task) (9 + (size_t)(task))

/* The kind, the task and the unit of a region's keeper in a row of keepers, and the byte at which the keeper begins. */
#define POOL_KEEPER_AT(region) (POOL_KEEPER_BYTES * (size_t)(region))
#define POOL_KEEPER_KIND(row, region) ((unsigned)((const uint8_t *)(row))[POOL_KEEPER_AT(region)])
#define POOL_KEEPER_TASK(row, region) ((unsigned)((const uint8_t *)(row))[POOL_KEEPER_AT(region) + 1])
#define POOL_KEEPER_UNIT(row, region) POOL_ROW_NUMBER(row, POOL_KEEPER_AT(region) + 2)

/* The kinds of keepers, in the order in which they are looked for; pool_keepers has the task and the unit of each. */
enum pool_kept {
    POOL_KEPT_IN_HAND = 1,    /* a block of the region is in a user's hands */
    POOL_KEPT_IN_CACHE = 2,   /* one is in a task's cache */
    POOL_KEPT_BY_REQUEST = 3, /* a request that is not over has blocks of the region, or the region itself */
    POOL_KEPT_SPARE = 4       /* the region is on the list of spare regions */
};

/* The codes. POOL_UNDER_WAY and POOL_FINISHED accept a call. POOL_NO_DESCRIPTOR, POOL_NO_REGION and POOL_NO_STRIP end a
   request: the task is idle afterwards and holds nothing new. Every other code refuses the call: it changed no byte. */
enum pool_code {
    POOL_UNDER_WAY = 0, /* accepted; of a step: made, and the request goes on */
    POOL_FINISHED = 20, /* a step finished its request; the value of an allocation is its unit; of a report: written */

    /* Caused by whoever builds the pool into the firmware. */
    POOL_BAD_CONTROL = 1, /* the control memory is not 8,192 bytes */
    POOL_BAD_AREA = 2,    /* the area's length is 0, no multiple of 4,096 or above 65,536, or not the started one; or
                             the strips' memory is not 65,536 bytes */
    POOL_BAD_TASKS = 3,   /* a start with a number of tasks that is not 1 to 8 */
    POOL_SHORT_ROW = 23,  /* a sheet of fewer than 1,664 bytes, a form of fewer than 468, or a row of keepers of fewer
                             than 4 for each region of the area */

    /* Caused by a task's author. */
    POOL_NOT_STARTED = 4,     /* no start was accepted; a control memory of zeros is such a pool */
    POOL_NO_SUCH_TASK = 5,    /* the task's number is not below the started number of tasks */
    POOL_REQUEST_IN_HAND = 6, /* the task has begun a request that is not over */
    POOL_NO_REQUEST = 7,      /* a step of a task that has begun none */
    POOL_SIZE_ZERO = 8,       /* an allocation of 0 bytes */
    POOL_SIZE_TOO_LARGE = 9,  /* an allocation of more than 65,536 bytes */
    POOL_NOT_A_BLOCK = 10,    /* a free of what is not the first unit of a block of an open region or of a strip */
    POOL_NOT_IN_USE = 11,     /* a free of such a unit that is in nobody's hands, as after a first free; of a strip only
                                 until the step of its free, after which no strip begins there */

    /* The end of an allocation, caused by blocks in hands, in caches and under way: see "What keeps regions" above.
       Right after POOL_NO_REGION pool_keepers says why. */
    POOL_NO_DESCRIPTOR = 12, /* the list of spare descriptors was empty when read */
    POOL_NO_REGION = 13,     /* the list of spare regions was empty when read; the descriptor is back on its list */

    /* The end of an allocation of 257 bytes or more, caused by strips in hands and strips whose free has begun. */
    POOL_NO_STRIP = 16, /* no free piece of the strips' memory is large enough */

    /* Caused by whoever writes outside their own blocks. The task keeps its request; only a start mends the pool. */
    POOL_DAMAGED = 14 /* this call read a value that the pool cannot have left there */
};

/* ---- the calls ---- */

/*
 * Starts a pool of so many tasks on the area and the strips' memory, at any time and whatever the control memory holds.
 * It fills the whole control memory, and neither reads nor writes the other two. All units of an earlier run are void.
 * A refused start leaves the pool as it was.
 *
 * Answers, by the first test that fails: POOL_BAD_CONTROL, POOL_BAD_AREA (of the area, then of the strips' memory),
 * POOL_BAD_TASKS; else POOL_UNDER_WAY.
 */
uint64_t pool_start(uint8_t *control, uint64_t control_length, const uint8_t *area, uint64_t area_length,
                    const uint8_t *strips, uint64_t strips_length, uint64_t tasks);

/*
 * Begins an allocation of 1 to 65,536 bytes for a task that is idle. It makes no step and neither reads nor writes the
 * area. The block or strip comes with the step that answers POOL_FINISHED. A size up to 256 gets the smallest block
 * that holds it, of 8, 16, 32, 48, 64, 80, 96, 112, 128, 160, 192, 224 or 256 bytes; a larger one gets a strip, which
 * takes one step. All bytes of the block or strip are the user's, also those behind the size. Do not rely on what it
 * holds then.
 *
 * Answers, by the first test that fails: POOL_BAD_CONTROL, POOL_NOT_STARTED, POOL_BAD_AREA, POOL_NO_SUCH_TASK,
 * POOL_REQUEST_IN_HAND, POOL_SIZE_ZERO, POOL_SIZE_TOO_LARGE; else POOL_UNDER_WAY. POOL_DAMAGED comes where a bad value
 * is read.
 */
uint64_t pool_begin_allocate(uint8_t *control, uint64_t control_length, const uint8_t *area, uint64_t area_length,
                             const uint8_t *strips, uint64_t strips_length, uint64_t task, uint64_t size);

/*
 * Begins the free of the block or strip that starts at this unit, by a task that is idle, whichever task allocated it.
 * It makes no step and neither reads nor writes the area. Once it is accepted, the block or strip is out of its user's
 * hands: nobody may read or write it any more. The request still has to be stepped to its end, which for a strip is one
 * step.
 *
 * Answers, by the first test that fails: POOL_BAD_CONTROL, POOL_NOT_STARTED, POOL_BAD_AREA, POOL_NO_SUCH_TASK,
 * POOL_REQUEST_IN_HAND, POOL_NOT_A_BLOCK, POOL_NOT_IN_USE; else POOL_UNDER_WAY. POOL_DAMAGED comes where a bad value is
 * read.
 */
uint64_t pool_begin_free(uint8_t *control, uint64_t control_length, const uint8_t *area, uint64_t area_length,
                         const uint8_t *strips, uint64_t strips_length, uint64_t task, uint64_t unit);

/*
 * Begins to leave, by a task that is idle. The steps that follow return every block of the task's caches to its region,
 * the smallest blocks first, and a region that has all its blocks back is spare again, for blocks of any size. What is
 * in users' hands stays there, whichever task allocated it, and can be freed by any task, this one with them. The call
 * makes no step and neither reads nor writes the area. Afterwards the task may begin again; its caches are empty.
 *
 * With nothing cached the first step finishes. An example of how many it takes: after the first allocation of 256 bytes
 * in a fresh pool, with that block in hand and fifteen cached, 23.
 *
 * Answers, by the first test that fails: POOL_BAD_CONTROL, POOL_NOT_STARTED, POOL_BAD_AREA, POOL_NO_SUCH_TASK,
 * POOL_REQUEST_IN_HAND; else POOL_UNDER_WAY. POOL_DAMAGED comes where a bad value is read.
 */
uint64_t pool_begin_leave(uint8_t *control, uint64_t control_length, const uint8_t *area, uint64_t area_length,
                          const uint8_t *strips, uint64_t strips_length, uint64_t task);

/*
 * Makes one step of the request that a task has in hand. In the area it writes at most the first four bytes of one
 * block, and under the premises never of a block in a user's hands; a step for a strip writes none.
 *
 * Answers, by the first test that fails: POOL_BAD_CONTROL, POOL_NOT_STARTED, POOL_BAD_AREA, POOL_NO_SUCH_TASK,
 * POOL_NO_REQUEST. Else POOL_UNDER_WAY while the request goes on, and POOL_FINISHED at its end. An allocation that
 * cannot be had now ends with POOL_NO_DESCRIPTOR, POOL_NO_REGION or POOL_NO_STRIP. With these four comes the number of
 * lost exchanges, POOL_LOST. POOL_DAMAGED comes where a bad value is read.
 */
uint64_t pool_step(uint8_t *control, uint64_t control_length, uint8_t *area, uint64_t area_length,
                   const uint8_t *strips, uint64_t strips_length, uint64_t task);

/*
 * Writes the stock sheet of the pool into the first 1,664 bytes of the row that it is lent, and nothing else: no byte
 * of the three memories, and no further byte of the row. A refused call changes no byte of the row either. The row is
 * the firmware's own, beside the three memories. Requests may be at any step.
 *
 * The numbers of class c and region r begin at byte 8 * (16 * c + r): in hand, in caches, with requests, in the chain.
 * POOL_SHEET_NUMBER reads one of them.
 *
 * Under the premises each number is that of the blocks which are there, and the call is not refused by POOL_DAMAGED.
 * What is read is tested: the caches of all eight tasks, with every link of a cached block, the requests, and what
 * opens the regions. Chains, groups and blocks that are to be carved are counted by their number.
 *
 * Answers, by the first test that fails: POOL_BAD_CONTROL, POOL_NOT_STARTED, POOL_BAD_AREA, POOL_DAMAGED where a value
 * that is read is out of its range, POOL_SHORT_ROW; else POOL_FINISHED with value 0.
 *
 * It is a tool, and takes what the other calls need not. All its loops are bounded, but it follows the link of every
 * cached block, at 14 instructions each: it takes 8,951 instructions in a fresh pool of one region, and 105,984 where
 * all blocks of sixteen regions are cached. The most that was found for any memories is 170,568. A sheet uses at most
 * 2,104 bytes of stack, of which 1,664 hold the numbers until all are tested; what your memset and memcpy use comes on
 * top. "What the code needs" above says what its code takes.
 */
uint64_t pool_sheet(const uint8_t *control, uint64_t control_length, const uint8_t *area, uint64_t area_length,
                    const uint8_t *strips, uint64_t strips_length, uint8_t *sheet, uint64_t sheet_length);

/*
 * Writes the form by holder into the first 468 bytes of the row that it is lent, and nothing else. What pool_sheet says
 * of its row, of the memories and of requests holds here, too.
 *
 * The line of class c begins at byte 36 * c and has 18 numbers of two bytes: number 0 is of users' hands, number 1 + t
 * of the cache of task t, number 9 + t of the request of task t, number 17 of the chains of open regions.
 * POOL_FORM_NUMBER reads one of them.
 *
 * A number adds up what the sheet counts in the regions that are open in the class. So on any memories the number of
 * users' hands is the sum of the sheet's numbers in hand. The eight of caches are together the sum of those in caches,
 * the eight of requests that of those with requests, and the number of chains is that of those in the chain. What is
 * read and tested is what pool_sheet reads and tests.
 *
 * Under the premises each number is that of the class's blocks which are there, and the call is not refused by
 * POOL_DAMAGED.
 *
 * Answers, by the first test that fails: POOL_BAD_CONTROL, POOL_NOT_STARTED, POOL_BAD_AREA, POOL_DAMAGED exactly where
 * pool_sheet has it, POOL_SHORT_ROW; else POOL_FINISHED with value 0.
 *
 * It follows the link of every cached block, at 14 instructions each. It takes 16,857 instructions in a fresh pool of
 * one region, and 113,267 where all blocks of sixteen regions are cached. The most that was found for any memories is
 * 178,683. A form uses at most 2,008 bytes of stack, of which 468 hold the numbers until all are tested; what your
 * memset and memcpy use comes on top. "What the code needs" above says what its code takes.
 */
uint64_t pool_holders(const uint8_t *control, uint64_t control_length, const uint8_t *area, uint64_t area_length,
                      const uint8_t *strips, uint64_t strips_length, uint8_t *form, uint64_t form_length);

/*
 * Writes the keeper of each region of the area into the row that it is lent, four bytes for each region, and nothing
 * else. What pool_sheet says of its row, of the memories and of requests holds here, too. It is meant to be called
 * right after a step that answered POOL_NO_REGION, and says why; but it may be called after any call.
 *
 * The keeper of region r begins at byte 4 * r: one byte of kind, one of task, two of unit. POOL_KEEPER_KIND,
 * POOL_KEEPER_TASK and POOL_KEEPER_UNIT read them. It is the first that applies of these:
 *
 *   POOL_KEPT_IN_HAND     a block of the region is in a user's hands: the lowest unit. The task is 0 and tells nothing.
 *                         Free the block.
 *   POOL_KEPT_IN_CACHE    one is in a task's cache: the lowest task that has one, and the lowest unit that it has
 *                         there. Let the task leave.
 *   POOL_KEPT_BY_REQUEST  a running request has blocks of the region, or has the region itself, while it is neither
 *                         open nor on the list of spare regions: the lowest task, and unit 0. Step the task.
 *   POOL_KEPT_SPARE       the region is on the list of spare regions: task 0, unit 0. Right after POOL_NO_REGION
 *                         this means that it came back after the request had read the list empty. Ask again.
 *
 * A region is often kept in several ways, of which the row names the first: call again after that one is gone.
 *
 * Under the premises one of the four always applies, what is named is true of the pool, and the call is not refused by
 * POOL_DAMAGED. What is read and tested is what pool_sheet reads and tests, the region that a request has itself, and
 * the list of spare regions.
 *
 * Answers, by the first test that fails: POOL_BAD_CONTROL, POOL_NOT_STARTED, POOL_BAD_AREA, POOL_DAMAGED where a value
 * that is read is out of its range, where the list does not end, or where none of the four applies to a region,
 * POOL_SHORT_ROW; else POOL_FINISHED with value 0.
 *
 * It follows the link of every cached block, at 14 instructions each. For each open region that has no block in hand
 * it follows those of the region's class once more, at about 10 each, task by task up to the first that has a block of
 * the region. The keepers of a fresh pool of one region take 4,473 instructions, and those of sixteen regions whose
 * blocks are all cached take 372,847. The most that was found for any memories is 790,701. They use at most 408 bytes of
 * stack; what your memcpy uses comes on top. "What the code needs" above says what their code takes.
 */
uint64_t pool_keepers(const uint8_t *control, uint64_t control_length, const uint8_t *area, uint64_t area_length,
                      const uint8_t *strips, uint64_t strips_length, uint8_t *row, uint64_t row_length);

#ifdef __cplusplus
}
#endif

#endif
