/* The money row, the factor and the exchangeable row in plain C. */
#include "plain.h"

#include <string.h>

typedef struct survivorship_outcome outcome;

static const uint32_t whole = SURVIVORSHIP_WHOLE;

static outcome refused(uint32_t refusal, size_t place)
{
    return (outcome){ .refusal = refusal, .place = place };
}

static outcome admit(const uint32_t *lives, size_t n)
{
    if (n > SURVIVORSHIP_MOST_LIVES)
        return refused(SURVIVORSHIP_TOO_MANY_LIVES, 0);
    for (size_t i = 0; i < n; i++)
        if (lives[i] > whole)
            return refused(SURVIVORSHIP_LIFE_ABOVE_ONE, i);
    return refused(SURVIVORSHIP_ANSWERED, 0);
}

/* The row of admitted lives, in a table that is long enough. */
static void compose(const uint32_t *lives, size_t n, uint64_t *row)
{
    row[0] = whole;
    for (size_t i = 0; i < n; i++) {
        uint64_t alive = lives[i], dead = whole - lives[i], below = 0, carry = 0;
        row[i + 1] = 0;
        for (size_t r = 0; r < i + 2; r++) {
            uint64_t old = row[r], t = alive * below + dead * old + carry;
            row[r] = t / whole;
            carry = t % whole;
            below = old;
        }
    }
}

outcome plain_money_row(const uint32_t *lives, size_t n, uint64_t *row, size_t row_len)
{
    outcome o = admit(lives, n);
    if (o.refusal != SURVIVORSHIP_ANSWERED)
        return o;
    if (row_len <= n)
        return refused(SURVIVORSHIP_SHORT_TABLE, 0);
    compose(lives, n, row);
    return o;
}

outcome plain_factor(const uint32_t *lives, size_t n, uint32_t k, uint64_t *work, size_t work_len)
{
    outcome o = admit(lives, n);
    if (o.refusal == SURVIVORSHIP_ANSWERED && k > SURVIVORSHIP_LARGEST_K)
        o = refused(SURVIVORSHIP_COUNT_ABOVE_LIMIT, 0);
    if (o.refusal == SURVIVORSHIP_ANSWERED && work_len <= n)
        o = refused(SURVIVORSHIP_SHORT_TABLE, 0);
    if (o.refusal == SURVIVORSHIP_ANSWERED) {
        compose(lives, n, work);
        for (size_t r = k; r <= n; r++)
            o.factor += work[r];
    }
    memset(work, 0, work_len * sizeof *work);
    return o;
}

outcome plain_exchangeable_row(const uint32_t *table, size_t length, uint32_t m, uint64_t *out, size_t out_len)
{
    int64_t values[SURVIVORSHIP_MOST_COEFFICIENTS], chosen[SURVIVORSHIP_MOST_COEFFICIENTS];
    uint64_t binomials[SURVIVORSHIP_MOST_COEFFICIENTS];

    if (length == 0 || length > SURVIVORSHIP_MOST_COEFFICIENTS)
        return refused(SURVIVORSHIP_TABLE_LENGTH, 0);
    if (table[0] == 0)
        return refused(SURVIVORSHIP_COEFFICIENT, 0);
    for (size_t j = 0; j < length; j++)
        if (table[j] > SURVIVORSHIP_LARGEST_COEFFICIENT)
            return refused(SURVIVORSHIP_COEFFICIENT, j);
    if (m >= length)
        return refused(SURVIVORSHIP_ROW_ABOVE_TABLE, 0);
    if (m >= out_len)
        return refused(SURVIVORSHIP_SHORT_OUTPUT, 0);

    /* V(k, j) at each k up to j, for one j after the other: the row wants j = m, the test the last one. */
    for (size_t j = 0; j < length; j++) {
        values[j] = table[j];
        for (size_t k = j; k-- > 0;)
            values[k] -= values[k + 1];
        if (j == m)
            memcpy(chosen, values, (m + 1) * sizeof *values);
    }
    for (size_t k = 0; k < length; k++)
        if (values[k] < 0)
            return refused(SURVIVORSHIP_IMPOSSIBLE, k);

    for (size_t j = 0; j <= m; j++) {
        binomials[j] = 1;
        for (size_t k = j; k-- > 1;)
            binomials[k] += binomials[k - 1];
    }
    for (size_t k = 0; k <= m; k++)
        out[k] = binomials[k] * (uint64_t)chosen[k];
    return refused(SURVIVORSHIP_ANSWERED, 0);
}
