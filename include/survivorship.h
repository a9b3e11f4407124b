/* Survivorship for C and C++: the money row, the factor and the exchangeable row.
 *
 * Build the library with `bin/libhosts` and link target/staticlib/libhosts.a. It asks the C library for nothing
 * but memcpy and memset. It is built for x86-64 Linux.
 *
 * Memory. The caller owns every table, before and after a call. Nothing is allocated, and no pointer is kept after
 * the return. A table is a pointer and then the number of its entries, not of its bytes. The pointer is aligned for
 * its type, and all the entries are the caller's to read, and to write where the pointer is not const. The two tables
 * of one call may not overlap. A null pointer goes with the number 0, and only with it.
 *
 * Threads. The functions have no state of their own. Several threads may call them at a time, where no thread writes
 * a table that another one uses; a list that is only read may be shared.
 *
 * Refusals. Bad input is refused with a number. Where several refusals fit, the one that is first in the function's
 * list below is given. Places count from 0. A refused call leaves every entry of its tables as it was, but for the
 * factor's work table, which is wiped all the same.
 */
#ifndef SURVIVORSHIP_H
#define SURVIVORSHIP_H

#include <stddef.h>
#include <stdint.h>

#ifdef __cplusplus
extern "C" {
#endif

/* The limits. */
enum survivorship_limit {
    SURVIVORSHIP_WHOLE = 1000000000,              /* D: money is worked in billionths */
    SURVIVORSHIP_MOST_LIVES = 64,                 /* in a list of lives */
    SURVIVORSHIP_LARGEST_K = 64,                  /* that a factor may be asked for */
    SURVIVORSHIP_MOST_COEFFICIENTS = 33,          /* in a table of exchangeable events */
    SURVIVORSHIP_LARGEST_COEFFICIENT = 1073741824 /* 2^30 */
};

/* What `refusal` holds. */
enum survivorship_refusal {
    SURVIVORSHIP_ANSWERED = 0,
    SURVIVORSHIP_COUNT_ABOVE_LIMIT = 5, /* k is above 64 */
    SURVIVORSHIP_TOO_MANY_LIVES = 8,    /* over 64 lives */
    SURVIVORSHIP_LIFE_ABOVE_ONE = 9,    /* a life above D; place: the first such life */
    SURVIVORSHIP_SHORT_TABLE = 10,      /* the row or the work table has under n + 1 entries */
    SURVIVORSHIP_TABLE_LENGTH = 11,     /* no coefficients, or more than 33 */
    SURVIVORSHIP_COEFFICIENT = 12,      /* u_0 is 0 (place 0), or some coefficient above 2^30; place: the first */
    SURVIVORSHIP_ROW_ABOVE_TABLE = 13,  /* m is above n */
    SURVIVORSHIP_SHORT_OUTPUT = 14,     /* the output has under m + 1 entries */
    SURVIVORSHIP_IMPOSSIBLE = 15        /* no exchangeable events have the table; place: the first k with w_k below 0 */
};

/* What came of a call. */
struct survivorship_outcome {
    uint32_t refusal; /* 0 where the call was answered, else the refusal's number */
    uint64_t place;   /* the place that refusals 9, 12 and 15 name, else 0 */
    uint64_t factor;  /* the factor where survivorship_factor answered, else 0 */
};

/* The money row of n = lives_len lives, each p from 0 to D for the chance p / D of being alive.
 *
 * Entry k of the row is, over D, the chance that exactly k lives are alive, rounded so that the entries 0 to n add up
 * to exactly D. Only the entries 0 to n of `row` are written; what they held does not matter.
 *
 * Refusals, in order: 8, 9, 10.
 */
struct survivorship_outcome survivorship_money_row(const uint32_t *lives, size_t lives_len,
                                                   uint64_t *row, size_t row_len);

/* The factor of n = lives_len lives for k: over D, the chance that at least k lives are alive. It is the sum of the
 * entries k to n of the money row: D for k of 0, and 0 for k above n. It is never below the exact chance, nor above it
 * by more than n - 1 billionths (for no lives it is exact).
 *
 * `work` is a table to work in, of n + 1 entries or more; what it held does not matter. After every call, answered or
 * refused, all its work_len entries are 0.
 *
 * Refusals, in order: 8, 9, 5, 10.
 */
struct survivorship_outcome survivorship_factor(const uint32_t *lives, size_t lives_len, uint32_t k,
                                                uint64_t *work, size_t work_len);

/* The row for m of a table of exchangeable events. The table holds u_0 to u_n, so table_len is n + 1; u_j over u_0 is
 * the chance that j chosen events out of n all occur.
 *
 * Entry k of the row is, over u_0, the chance that exactly k of m events occur. With V(k, m) the sum over j from 0 to
 * m - k of (-1)^j C(m-k, j) u_(k+j), it is C(m, k) V(k, m), and w_k is V(k, n). Only the entries 0 to m of `out` are
 * written; what they held does not matter.
 *
 * Refusals, in order: 11, 12, 13, 14, 15.
 */
struct survivorship_outcome survivorship_exchangeable_row(const uint32_t *table, size_t table_len, uint32_t m,
                                                          uint64_t *out, size_t out_len);

#ifdef __cplusplus
}
#endif

#endif
