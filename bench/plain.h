/* The library's three calls in plain C, to measure the library against: the same refusals, in the same order, and the
 * same tables (include/survivorship.h). */
#ifndef PLAIN_H
#define PLAIN_H

#include "survivorship.h"

struct survivorship_outcome plain_money_row(const uint32_t *lives, size_t lives_len, uint64_t *row, size_t row_len);
struct survivorship_outcome plain_factor(const uint32_t *lives, size_t lives_len, uint32_t k,
                                         uint64_t *work, size_t work_len);
struct survivorship_outcome plain_exchangeable_row(const uint32_t *table, size_t table_len, uint32_t m,
                                                   uint64_t *out, size_t out_len);

#endif
