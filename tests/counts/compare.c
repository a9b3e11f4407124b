/* Calls count_exactly with random input, and compares the outcome with whole numbers of 128 bits, and every entry of the
 * work table, and of some on either side of it, by its 64 bits.
 *
 *     compare [SEED]
 *
 * Each group of comparisons ends with a line that starts with 'passed:' or 'FAILED:'. The status is 0 where all passed.
 */
#include <inttypes.h>
#include <stdbool.h>
#include <stddef.h>
#include <stdint.h>
#include <stdio.h>
#include <stdlib.h>
#include <string.h>

#include "../splitmix64.h"

__extension__ typedef unsigned __int128 u128;

/* As the crate in tests/counts/run has it. */
struct outcome {
    uint32_t refusal;
    uint64_t place;
    double count;
    double denominator;
};

struct outcome called(const uint32_t *lives, size_t n, uint32_t whole, uint32_t k, double *work, size_t entries);

enum { CALLS = 300000, BESIDE = 4, ROOM = 72, TABLE = BESIDE + ROOM + BESIDE };

#define MOST (UINT64_C(1) << 53)
#define LARGEST_WHOLE UINT32_C(1000000000)
#define NO_PLACE UINT64_MAX

_Static_assert(sizeof(double) == 8, "a float of 64 bits");

struct input {
    size_t n;
    uint32_t lives[66];
    uint32_t whole;
    uint32_t k;
    size_t entries;
};

/* ---- random numbers ---- */

static uint32_t below(uint64_t bound)
{
    return (uint32_t)(next() % bound);
}

/* ---- what is due ---- */

/* d to the power n, as far as it is up to 2^53, else one above. */
static uint64_t power(uint32_t whole, size_t n)
{
    u128 product = 1;
    for (size_t i = 0; i < n && product <= MOST; i++)
        product *= whole;
    return product <= MOST ? (uint64_t)product : MOST + 1;
}

static uint64_t above(const struct input *in)
{
    for (size_t i = 0; i < in->n; i++)
        if (in->lives[i] > in->whole)
            return i;
    return NO_PLACE;
}

static uint32_t refusal(const struct input *in)
{
    if (in->n > 64)
        return 8;
    if (in->whole < 1 || in->whole > LARGEST_WHOLE)
        return 21;
    if (above(in) != NO_PLACE)
        return 22;
    if (power(in->whole, in->n) > MOST)
        return 23;
    if (in->k > 64)
        return 5;
    return in->entries < in->n + 1 ? 10 : 0;
}

static uint64_t bits_of(uint64_t n)
{
    double x = (double)n;
    uint64_t bits;
    memcpy(&bits, &x, sizeof bits);
    return bits;
}

/* The row, worked in place from the top. */
static void compose(const struct input *in, u128 *row)
{
    row[0] = 1;
    for (size_t i = 0; i < in->n; i++) {
        uint32_t alive = in->lives[i], dead = in->whole - alive;
        row[i + 1] = alive * row[i];
        for (size_t j = i; j > 0; j--)
            row[j] = alive * row[j - 1] + dead * row[j];
        row[0] *= dead;
    }
}

/* Exactly k of the lives from i on, over all survival patterns. */
static u128 by_patterns(const struct input *in, size_t i, uint32_t k)
{
    if (i == in->n)
        return k == 0;
    return (k > 0 ? in->lives[i] * by_patterns(in, i + 1, k - 1) : 0)
           + (in->whole - in->lives[i]) * by_patterns(in, i + 1, k);
}

/* ---- random input ---- */

/* The largest d whose power is at most 2^53, up to 1,000,000,000. */
static uint32_t root(size_t n)
{
    uint32_t found = 0;
    for (uint32_t bit = UINT32_C(1) << 29; bit > 0; bit /= 2)
        if (found + bit <= LARGEST_WHOLE && power(found + bit, n) <= MOST)
            found += bit;
    return found;
}

static uint32_t random_whole(size_t n)
{
    switch (below(8)) {
    case 0:
        return below(4);
    case 1:
        return below(LARGEST_WHOLE + 2);
    case 2:
        return below(root(n)) + 1;
    default:
        return root(n) - 1 + below(3);
    }
}

/* Mostly up to `most`. */
static uint32_t random_life(uint32_t whole, uint32_t most)
{
    switch (below(64)) {
    case 0:
        return below(8) == 0 ? whole + 1 : 0;
    case 1:
        return whole;
    default:
        return below((uint64_t)most + 1);
    }
}

static struct input random_input(void)
{
    struct input in = {.n = below(2) == 0 ? below(8) : below(66)};
    in.whole = random_whole(in.n);
    /* else one of many lives mostly is d, and the row begins with 0 */
    uint32_t most = in.whole > 0 && below(2) == 0 ? in.whole - 1 : in.whole;
    for (size_t i = 0; i < in.n; i++)
        in.lives[i] = random_life(in.whole, most);
    in.k = below(16) == 0 ? 60 + below(8) : below(in.n + 2);
    in.entries = below(8) == 0 ? below(in.n + 1) : in.n + 1 + below(4);
    return in;
}

/* Bits of any float: every other one is no number, of any sign and payload. */
static uint64_t random_bits(void)
{
    return next() | (below(2) == 0 ? UINT64_C(0x7ff) << 52 : 0);
}

static bool is_signalling(uint64_t bits)
{
    return (bits >> 51 & 0xfff) == 0xffe && (bits & ((UINT64_C(1) << 51) - 1)) != 0;
}

/* ---- the comparison ---- */

struct sort {
    uint32_t refusal;
    const char *name;
    bool differs;
    uint32_t calls;
    uint32_t signalling; /* entries that stay, and are signalling floats that are no numbers */
};

static struct sort sorts[] = {
    {0, "granted", false, 0, 0},
    {8, "over 64 lives", false, 0, 0},
    {21, "d outside", false, 0, 0},
    {22, "a life above d", false, 0, 0},
    {23, "a power above 2^53", false, 0, 0},
    {5, "k above 64", false, 0, 0},
    {10, "a short table", false, 0, 0},
};

enum { SORTS = sizeof sorts / sizeof *sorts };

static struct sort *sort_of(uint32_t number)
{
    size_t i = 0;
    while (i + 1 < SORTS && sorts[i].refusal != number)
        i++;
    return sorts + i;
}

static void show(const struct input *in, const char *what, uint64_t due, uint64_t got)
{
    printf("  %zu lives against %" PRIu32 ", k %" PRIu32 ", %zu entries:", in->n, in->whole, in->k, in->entries);
    for (size_t i = 0; i < in->n; i++)
        printf(" %" PRIu32, in->lives[i]);
    printf("\n  %s: %" PRIx64 " due, %" PRIx64 " got\n", what, due, got);
}

/* Says the first difference of a sort of call. */
static void compare(const struct input *in, struct sort *sort, const char *what, uint64_t due, uint64_t got)
{
    if (due != got && !sort->differs)
        show(in, what, due, got);
    sort->differs |= due != got;
}

static uint64_t bits_in(const double *at)
{
    uint64_t bits;
    memcpy(&bits, at, sizeof bits);
    return bits;
}

/* One call, into a table of random bits between others. */
static void call(const struct input *in)
{
    struct sort *sort = sort_of(refusal(in));
    double table[TABLE];
    uint64_t due[TABLE];
    u128 row[66];
    struct outcome got;
    uint64_t count = 0, denominator = 0;
    for (size_t i = 0; i < TABLE; i++)
        due[i] = random_bits();
    memcpy(table, due, sizeof table);
    if (sort->refusal == 0) {
        compose(in, row);
        for (size_t i = 0; i <= in->n; i++)
            due[BESIDE + i] = bits_of((uint64_t)row[i]);
        count = in->k <= in->n ? bits_of((uint64_t)row[in->k]) : 0;
        denominator = bits_of(power(in->whole, in->n));
        if (in->n <= 7)
            compare(in, sort, "the count by patterns", bits_of((uint64_t)by_patterns(in, 0, in->k)), count);
    }
    got = called(in->lives, in->n, in->whole, in->k, table + BESIDE, in->entries);
    compare(in, sort, "the refusal", sort->refusal, got.refusal);
    compare(in, sort, "the place", sort->refusal == 22 ? above(in) : NO_PLACE, got.place);
    compare(in, sort, "the count", count, bits_in(&got.count));
    compare(in, sort, "the denominator", denominator, bits_in(&got.denominator));
    for (size_t i = 0; i < TABLE; i++) {
        compare(in, sort, "an entry", due[i], bits_in(table + i));
        sort->signalling += i >= BESIDE && i < BESIDE + in->entries && is_signalling(due[i]);
    }
    sort->calls++;
}

int main(int argc, char **argv)
{
    bool passed = true;
    state = argc > 1 ? strtoull(argv[1], NULL, 10) : 1971;
    for (uint32_t i = 0; i < CALLS; i++) {
        struct input in = random_input();
        call(&in);
    }
    for (const struct sort *sort = sorts; sort < sorts + SORTS; sort++) {
        bool right = !sort->differs && sort->calls >= 100 && sort->signalling >= 100;
        printf("%s %s: %" PRIu32 " calls, and %" PRIu32 " entries that stay and are signalling\n", right ? "passed:" : "FAILED:",
               sort->name, sort->calls, sort->signalling);
        passed &= right;
    }
    return !passed;
}
