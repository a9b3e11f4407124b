/* What is due for each call, from the rules in docs/MONEY.md, docs/EXCHANGEABLE.md and docs/REFUSALS.md. It shares
 * nothing with the library: the money row comes from cumulative sums, the exchangeable row from the alternating sum
 * itself, both in 128 bits. */
#ifndef REFERENCE_H
#define REFERENCE_H

#include <stdbool.h>
#include <stddef.h>
#include <stdint.h>

__extension__ typedef unsigned __int128 u128;
__extension__ typedef __int128 i128;

#define D UINT32_C(1000000000)
#define LIMIT (UINT32_C(1) << 30)

enum call { MONEY_ROW, FACTOR, EXCHANGEABLE_ROW, CALLS };

/* The refusals of each call in the order in which they are checked, up to a 0. */
static const unsigned order[CALLS][6] = {
    [MONEY_ROW] = {8, 9, 10},
    [FACTOR] = {8, 9, 5, 10},
    [EXCHANGEABLE_ROW] = {11, 12, 13, 14, 15},
};

struct due {
    unsigned faults; /* bit f is set where refusal f fits */
    uint32_t refusal;
    uint64_t place;
    uint64_t factor;
    size_t written; /* this many entries of the table become those of the row */
    uint64_t row[65];
};

/* T(j), the sum of the row's entries below j, for j up to n + 1. One life turns T(j) into
 * (p T(j - 1) + (D - p) T(j)) / D, rounded down. */
static void money_sums(const uint32_t *lives, size_t n, u128 *sums)
{
    sums[0] = 0;
    for (size_t j = 1; j <= n + 1; j++)
        sums[j] = D;
    for (size_t i = 0; i < n; i++)
        for (size_t j = n + 1; j > 0; j--)
            sums[j] = ((u128)lives[i] * sums[j - 1] + (u128)(D - lives[i]) * sums[j]) / D;
}

/* n choose k, for n up to 33: no product leaves 64 bits. */
static uint64_t binomial(size_t n, size_t k)
{
    uint64_t c = 1;
    if (k > n)
        return 0;
    for (size_t i = 1; i <= k; i++)
        c = c * (n - k + i) / i;
    return c;
}

/* V(k, m) */
static i128 value(const uint32_t *table, size_t k, size_t m)
{
    i128 sum = 0;
    for (size_t j = 0; j <= m - k; j++) {
        i128 term = (i128)binomial(m - k, j) * table[k + j];
        sum += j % 2 == 0 ? term : -term;
    }
    return sum;
}

/* The first place of a number above the limit; the length where there is none. */
static size_t first_above(const uint32_t *list, size_t len, uint32_t limit)
{
    size_t i = 0;
    while (i < len && list[i] <= limit)
        i++;
    return i;
}

/* The first place of a negative weight; the length where there is none. */
static size_t first_negative(const uint32_t *table, size_t len)
{
    size_t k = 0;
    while (k < len && value(table, k, len - 1) >= 0)
        k++;
    return k;
}

static unsigned fault(unsigned number, bool fits)
{
    return fits ? 1u << number : 0;
}

static unsigned money_faults(enum call call, const uint32_t *lives, size_t n, uint32_t k, size_t table_len)
{
    return fault(8, n > 64) | fault(9, first_above(lives, n, D) < n) | fault(5, call == FACTOR && k > 64)
           | fault(10, table_len < n + 1);
}

static unsigned table_faults(const uint32_t *table, size_t len, uint32_t m, size_t out_len)
{
    unsigned faults = fault(11, len == 0 || len > 33)
                      | fault(12, len > 0 && (table[0] == 0 || first_above(table, len, LIMIT) < len))
                      | fault(13, (uint64_t)m + 1 > len) | fault(14, out_len < (uint64_t)m + 1);
    /* weights are spoken of within the limits only */
    if ((faults & (1u << 11 | 1u << 12)) == 0)
        faults |= fault(15, first_negative(table, len) < len);
    return faults;
}

static uint64_t place_of(unsigned refusal, const uint32_t *list, size_t len)
{
    switch (refusal) {
    case 9:
        return first_above(list, len, D);
    case 12:
        return list[0] == 0 ? 0 : first_above(list, len, LIMIT);
    case 15:
        return first_negative(list, len);
    default:
        return 0;
    }
}

static void answer(enum call call, const uint32_t *list, size_t len, uint32_t number, struct due *due)
{
    u128 sums[66];
    if (call == EXCHANGEABLE_ROW) {
        due->written = (size_t)number + 1;
        for (size_t k = 0; k <= number; k++)
            due->row[k] = (uint64_t)(binomial(number, k) * value(list, k, number));
        return;
    }
    money_sums(list, len, sums);
    if (call == FACTOR) {
        due->factor = number > len ? 0 : (uint64_t)(D - sums[number]);
        return;
    }
    due->written = len + 1;
    for (size_t r = 0; r <= len; r++)
        due->row[r] = (uint64_t)(sums[r + 1] - sums[r]);
}

/* The list holds lives or coefficients, and the number is k or m. */
static struct due reference(enum call call, const uint32_t *list, size_t len, uint32_t number, size_t table_len)
{
    struct due due = {0};
    due.faults = call == EXCHANGEABLE_ROW ? table_faults(list, len, number, table_len)
                                          : money_faults(call, list, len, number, table_len);
    for (const unsigned *o = order[call]; *o != 0 && due.refusal == 0; o++)
        if ((due.faults >> *o & 1) != 0)
            due.refusal = *o;
    if (due.refusal == 0)
        answer(call, list, len, number, &due);
    else
        due.place = place_of(due.refusal, list, len);
    return due;
}

/* X: over all survival patterns with at least k alive, the product of p over the alive and D - p over the dead. */
static u128 pattern_sum(const uint32_t *lives, size_t n, size_t k)
{
    u128 sum = 0;
    for (unsigned pattern = 0; pattern < 1u << n; pattern++) {
        u128 weight = 1;
        size_t alive = 0;
        for (size_t i = 0; i < n; i++) {
            bool is_alive = (pattern >> i & 1) != 0;
            weight *= is_alive ? lives[i] : D - lives[i];
            alive += is_alive;
        }
        if (alive >= k)
            sum += weight;
    }
    return sum;
}

/* X D <= F D^n <= X D + (n - 1) D^n, and F = X D for no lives. D^4 is below 2^120, so that 3 lives fit. */
static bool near_exact(const uint32_t *lives, size_t n, size_t k, uint64_t f)
{
    u128 exact = pattern_sum(lives, n, k) * D;
    u128 power = 1;
    for (size_t i = 0; i < n; i++)
        power *= D;
    if (f > D)
        return false;
    return n == 0 ? f == exact : exact <= f * power && f * power <= exact + (n - 1) * power;
}

/* u_j from the weights w_0 to w_n: the sum over k from j to n of C(n-j, k-j) w_k. */
static uint64_t coefficient(const uint32_t *weights, size_t n, size_t j)
{
    uint64_t u = 0;
    for (size_t k = j; k <= n; k++)
        u += binomial(n - j, k - j) * weights[k];
    return u;
}

/* Entry k of the row for m from the weights: w_i stands for each pattern of n events in which i occur, and
 * C(m, k) C(n-m, i-k) of those have k among the first m. */
static uint64_t entry_of_weights(const uint32_t *weights, size_t n, size_t m, size_t k)
{
    uint64_t sum = 0;
    for (size_t i = k; i <= n; i++)
        sum += binomial(n - m, i - k) * weights[i];
    return binomial(m, k) * sum;
}

#endif
