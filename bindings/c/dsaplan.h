/* dsaplan for C: offsets for buffers of known lifetime, size and alignment, so that no two that are live at the same
 * moment overlap, or the proved answer that they do not fit.
 *
 * What a caller owes, and nothing checks:
 * - A pointer points to as many items as the count after it says, or to more. It is never null: with a count of 0 pass
 *   any aligned address.
 * - `offsets` and `detail` overlap nothing else that is passed. No other thread writes what is passed while a call runs.
 * - Memory comes from the program's malloc, realloc and free, which are of one allocator, and all of it is freed before
 *   a call returns. A call is not made from a signal handler, nor in the forked child of a process with threads.
 *
 * All else may be wrong, and is answered: wrong lengths, sizes of 0, empty lifetimes and too many buffers each have a
 * status and a fault. Calls keep no state, so threads may call at the same time.
 *
 * Link with libdsaplan.a, which bindings/build makes.
 */
#ifndef DSAPLAN_H
#define DSAPLAN_H

#include <stdbool.h>
#include <stddef.h>
#include <stdint.h>

#ifdef __cplusplus
extern "C" {
#endif

/* The greatest number of buffers, and of gaps of one buffer. */
enum { DSAPLAN_BUFFER_LIMIT = 4096, DSAPLAN_GAP_LIMIT = 64 };

/* What a call returns: what the program ends with in such cases, but for DSAPLAN_LENGTHS_DIFFER. */
enum dsaplan_status {
    DSAPLAN_FITS = 0,           /* offsets are written: a layout within the capacity, or of the least one */
    DSAPLAN_DOES_NOT_FIT = 1,   /* no layout fits within the capacity */
    DSAPLAN_OPEN = 2,           /* the steps were too few */
    DSAPLAN_LENGTHS_DIFFER = 3, /* an array is not as long as offsets, or the counts of gaps do not add up */
    DSAPLAN_BAD_BUFFERS = 4,    /* there are too many buffers, or one is bad: see dsaplan_fault */
    DSAPLAN_NO_MEMORY = 6       /* malloc or realloc gave none */
};

/* What is wrong with the buffers, in order of precedence. */
enum dsaplan_fault {
    DSAPLAN_NO_FAULT = 0,
    DSAPLAN_TOO_MANY = 1,            /* there are more than DSAPLAN_BUFFER_LIMIT buffers */
    DSAPLAN_TIME_TOO_LARGE = 2,      /* the lifetime begins or ends at 2^62 or later */
    DSAPLAN_EMPTY_LIFETIME = 3,      /* the lifetime ends where it begins, or before */
    DSAPLAN_ZERO_SIZE = 4,           /* the size is 0 */
    DSAPLAN_TOO_LARGE = 5,           /* the size is above 2^40 */
    DSAPLAN_ZERO_ALIGNMENT = 6,      /* the alignment is 0 */
    DSAPLAN_ALIGNMENT_TOO_LARGE = 7, /* the alignment is above 2^32 */
    DSAPLAN_GAP_EMPTY = 8,           /* the gap ends where it begins, or before */
    DSAPLAN_GAP_OUTSIDE = 9,         /* the gap leaves the lifetime */
    DSAPLAN_TOO_MANY_GAPS = 10,      /* there are more than DSAPLAN_GAP_LIMIT gaps */
    DSAPLAN_NEVER_LIVE = 11,         /* the gaps cover the lifetime */
    DSAPLAN_LOWEST_TOO_LARGE = 12    /* the least offset is above 2^40 */
};

/* A part of a lifetime in which its buffer holds no storage: from `from` up to and not including `to`. */
typedef struct dsaplan_gap {
    uint64_t from;
    uint64_t to;
} dsaplan_gap;

/* What is told beside the status; what is not told is 0. */
typedef struct dsaplan_detail {
    uint64_t low;    /* from dsaplan_least and dsaplan_pack: no layout fits within less */
    uint64_t high;   /* from these: the height of the layout that is written; equal to low with DSAPLAN_FITS */
    uint32_t buffer; /* with DSAPLAN_BAD_BUFFERS: the first bad buffer, from 0 */
    uint32_t fault;  /* with DSAPLAN_BAD_BUFFERS: its first fault, of dsaplan_fault */
    uint32_t gap;    /* with DSAPLAN_GAP_EMPTY and DSAPLAN_GAP_OUTSIDE: which of its gaps, from 0 */
} dsaplan_detail;

/* A layout within `capacity` bytes. There are `offset_count` buffers, and each array but `gaps` has as many items;
 * `gap_counts` may have none where there are no gaps. Buffer b lives at the moments from lower[b] up to and not including upper[b], takes
 * size[b] bytes at an offset that is a multiple of alignment[b] and at least lowest[b], and holds no storage in its
 * gaps: `gaps` has those of buffer 0 first, gap_counts[b] of them for buffer b. Both may be empty.
 *
 * With `is_limited` the search is given `steps` steps, one for each claim that it opens, and DSAPLAN_OPEN says that they
 * were too few; without it the call ends with an answer, however long that takes.
 *
 * The offsets, in bytes, are written with DSAPLAN_FITS alone; with any other status they are as before. The base
 * address of the range must be a multiple of every alignment. */
uint32_t dsaplan_plan_at(
    const uint64_t *lower, size_t lower_count, const uint64_t *upper, size_t upper_count,
    const uint64_t *size, size_t size_count, const uint64_t *alignment, size_t alignment_count,
    const uint64_t *lowest, size_t lowest_count, const dsaplan_gap *gaps, size_t gap_count,
    const uint32_t *gap_counts, size_t gap_counts_count,
    uint64_t capacity, bool is_limited, uint64_t steps,
    uint64_t *offsets, size_t offset_count, dsaplan_detail *detail);

/* A layout of the least capacity, which detail->high then is. With DSAPLAN_OPEN a layout of height detail->high is
 * written, and no layout fits within less than detail->low bytes; with any other status the offsets are as before.
 * DSAPLAN_DOES_NOT_FIT never comes. All else is as with dsaplan_plan_at. */
uint32_t dsaplan_least(
    const uint64_t *lower, size_t lower_count, const uint64_t *upper, size_t upper_count,
    const uint64_t *size, size_t size_count, const uint64_t *alignment, size_t alignment_count,
    const uint64_t *lowest, size_t lowest_count, const dsaplan_gap *gaps, size_t gap_count,
    const uint32_t *gap_counts, size_t gap_counts_count,
    bool is_limited, uint64_t steps,
    uint64_t *offsets, size_t offset_count, dsaplan_detail *detail);

/* The lowest layout that is found in `steps` steps: a step is a claim that a search opens, and placing all n buffers
 * anew counts as 1/8 + n^2/2^17 of one. With DSAPLAN_FITS detail->high is the least capacity, with
 * DSAPLAN_OPEN the least capacity may be lower; a layout of that height is written with both. More than 2^60 steps are
 * taken as 2^60. All else is as with dsaplan_least. */
uint32_t dsaplan_pack(
    const uint64_t *lower, size_t lower_count, const uint64_t *upper, size_t upper_count,
    const uint64_t *size, size_t size_count, const uint64_t *alignment, size_t alignment_count,
    const uint64_t *lowest, size_t lowest_count, const dsaplan_gap *gaps, size_t gap_count,
    const uint32_t *gap_counts, size_t gap_counts_count,
    uint64_t steps, uint64_t *offsets, size_t offset_count, dsaplan_detail *detail);

/* Buffers whose arrays are of one length, `count`, for the three calls below. Without gaps, `gaps` and `gap_counts` are
 * null and `gap_count` is 0; with some, there are `count` gap_counts. No other pointer is null, also where `count` is 0. */
typedef struct dsaplan_buffers {
    size_t count;
    const uint64_t *lower;
    const uint64_t *upper;
    const uint64_t *size;
    const uint64_t *alignment;
    const uint64_t *lowest;
    const dsaplan_gap *gaps;
    size_t gap_count;
    const uint32_t *gap_counts;
} dsaplan_buffers;

/* dsaplan_plan_at for arrays of one length, without a limit of steps; `offsets` has room for `count`. */
static inline uint32_t dsaplan_fit(
    const dsaplan_buffers *b, uint64_t capacity, uint64_t *offsets, dsaplan_detail *detail)
{
    static const dsaplan_gap no_gap = {0, 0};
    static const uint32_t no_count = 0;
    return dsaplan_plan_at(
        b->lower, b->count, b->upper, b->count, b->size, b->count, b->alignment, b->count, b->lowest, b->count,
        b->gaps ? b->gaps : &no_gap, b->gap_count, b->gap_counts ? b->gap_counts : &no_count,
        b->gap_counts ? b->count : 0, capacity, false, 0, offsets, b->count, detail);
}

/* dsaplan_least for arrays of one length, without a limit of steps; `offsets` has room for `count`. */
static inline uint32_t dsaplan_fit_least(const dsaplan_buffers *b, uint64_t *offsets, dsaplan_detail *detail)
{
    static const dsaplan_gap no_gap = {0, 0};
    static const uint32_t no_count = 0;
    return dsaplan_least(
        b->lower, b->count, b->upper, b->count, b->size, b->count, b->alignment, b->count, b->lowest, b->count,
        b->gaps ? b->gaps : &no_gap, b->gap_count, b->gap_counts ? b->gap_counts : &no_count,
        b->gap_counts ? b->count : 0, false, 0, offsets, b->count, detail);
}

/* dsaplan_pack for arrays of one length; `offsets` has room for `count`. */
static inline uint32_t dsaplan_fit_low(
    const dsaplan_buffers *b, uint64_t steps, uint64_t *offsets, dsaplan_detail *detail)
{
    static const dsaplan_gap no_gap = {0, 0};
    static const uint32_t no_count = 0;
    return dsaplan_pack(
        b->lower, b->count, b->upper, b->count, b->size, b->count, b->alignment, b->count, b->lowest, b->count,
        b->gaps ? b->gaps : &no_gap, b->gap_count, b->gap_counts ? b->gap_counts : &no_count,
        b->gap_counts ? b->count : 0, steps, offsets, b->count, detail);
}

#ifdef __cplusplus
}
#endif

#endif
