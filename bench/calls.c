/* Measures the library's C functions against plain C.
 *
 *   calls time                    the time of a call on both sides, and its ratio, for every case
 *   calls cases                   the names of the cases
 *   calls count CASE SIDE TIMES   makes that many calls on one side (library or plain), for an instruction counter
 */
#include "plain.h"

#include <stdio.h>
#include <stdlib.h>
#include <string.h>
#include <time.h>

#define ROUNDS 400
#define BATCH_NS 40000

enum call { MONEY_ROW, FACTOR, EXCHANGEABLE_ROW };

static const struct { const char *name; enum call call; size_t n; uint32_t k; } cases[] = {
    { "money-row-1", MONEY_ROW, 1, 0 },
    { "money-row-8", MONEY_ROW, 8, 0 },
    { "money-row-32", MONEY_ROW, 32, 0 },
    { "money-row-64", MONEY_ROW, 64, 0 },
    { "factor-1", FACTOR, 1, 1 },
    { "factor-8", FACTOR, 8, 4 },
    { "factor-32", FACTOR, 32, 16 },
    { "factor-64", FACTOR, 64, 32 },
    { "exchangeable-row-8-4", EXCHANGEABLE_ROW, 8, 4 },
    { "exchangeable-row-8-8", EXCHANGEABLE_ROW, 8, 8 },
    { "exchangeable-row-32-16", EXCHANGEABLE_ROW, 32, 16 },
    { "exchangeable-row-32-32", EXCHANGEABLE_ROW, 32, 32 },
};
#define CASES (sizeof cases / sizeof *cases)

static uint32_t input[65];
static uint64_t table[66];

/* The same list in every run: chances of any size. */
static uint32_t chance(void)
{
    static uint64_t state = 1;
    state = state * 6364136223846793005u + 1442695040888963407u;
    return (state >> 33) % (SURVIVORSHIP_WHOLE + 1);
}

/* A table that events have: its weights are 1 where C(n, k) is at most 2^26, else 0. */
static void fill_table(uint32_t *u, size_t n)
{
    uint64_t choose[33][33];
    for (size_t i = 0; i <= n; i++)
        for (size_t k = 0; k <= i; k++)
            choose[i][k] = k == 0 || k == i ? 1 : choose[i - 1][k - 1] + choose[i - 1][k];
    for (size_t j = 0; j <= n; j++) {
        u[j] = 0;
        for (size_t k = j; k <= n; k++)
            if (choose[n][k] <= 1u << 26)
                u[j] += choose[n - j][k - j];
    }
}

static void prepare(size_t c)
{
    if (cases[c].call == EXCHANGEABLE_ROW)
        fill_table(input, cases[c].n);
    else
        for (size_t i = 0; i < cases[c].n; i++)
            input[i] = chance();
}

static struct survivorship_outcome call_once(enum call call, int library, const uint32_t *in, size_t n, uint32_t k,
                                             uint64_t *out, size_t entries)
{
    switch (call) {
    case MONEY_ROW:
        return (library ? survivorship_money_row : plain_money_row)(in, n, out, entries);
    case FACTOR:
        return (library ? survivorship_factor : plain_factor)(in, n, k, out, entries);
    default:
        return (library ? survivorship_exchangeable_row : plain_exchangeable_row)(in, n, k, out, entries);
    }
}

/* Makes the case's call so many times. */
static void make(size_t c, int library, long times)
{
    size_t n = cases[c].n;
    size_t length = cases[c].call == EXCHANGEABLE_ROW ? n + 1 : n;
    for (long i = 0; i < times; i++) {
        struct survivorship_outcome o = call_once(cases[c].call, library, input, length, cases[c].k, table, n + 1);
        if (o.refusal != 0) {
            fprintf(stderr, "%s is refused with %u\n", cases[c].name, o.refusal);
            exit(1);
        }
    }
}

/* Both sides answer and write the same, refusals included. */
static void compare(void)
{
    static const uint32_t ks[] = { 0, 1, 2, 7, 31, 32, 33, 63, 64, 65 };
    for (int round = 0; round < 20000; round++) {
        enum call call = round % 3;
        size_t n = chance() % 67, entries = chance() % 67;
        uint32_t in[66], k = ks[chance() % 10];
        uint64_t ours[66], plain[66];
        for (size_t i = 0; i < 66; i++) {
            in[i] = chance() + (chance() % 500 == 0 ? SURVIVORSHIP_WHOLE : 0);
            ours[i] = plain[i] = chance();
        }
        if (call == EXCHANGEABLE_ROW && round % 2 == 0) {
            size_t last = n % 33;
            fill_table(in, last);
            if (round % 4 == 0)
                in[chance() % (last + 1)] += 1;
            n = last + 1;
        }
        struct survivorship_outcome a = call_once(call, 1, in, n, k, ours, entries);
        struct survivorship_outcome b = call_once(call, 0, in, n, k, plain, entries);
        if (a.refusal != b.refusal || a.place != b.place || a.factor != b.factor
            || memcmp(ours, plain, sizeof ours) != 0) {
            fprintf(stderr, "the two sides differ in round %d\n", round);
            exit(1);
        }
    }
}

static double now(void)
{
    struct timespec t;
    clock_gettime(CLOCK_MONOTONIC, &t);
    return t.tv_sec * 1e9 + t.tv_nsec;
}

static double batch(size_t c, int library, long times)
{
    double start = now();
    make(c, library, times);
    return (now() - start) / times;
}

/* The sides take turns, and the least time of each counts. */
static void measure(size_t c)
{
    double least[2] = { 1e18, 1e18 };
    long times = 1;
    prepare(c);
    while (batch(c, 0, times) * times < BATCH_NS)
        times *= 2;
    for (int round = 0; round < ROUNDS; round++)
        for (int turn = 0; turn < 2; turn++) {
            int library = (round + turn) % 2;
            double ns = batch(c, library, times);
            if (ns < least[library])
                least[library] = ns;
        }
    printf("%-24s %10.1f %10.1f %8.3f\n", cases[c].name, least[1], least[0], least[1] / least[0]);
}

int main(int argc, char **argv)
{
    if (argc == 2 && strcmp(argv[1], "cases") == 0) {
        for (size_t c = 0; c < CASES; c++)
            puts(cases[c].name);
        return 0;
    }
    if (argc == 2 && strcmp(argv[1], "time") == 0) {
        compare();
        for (size_t c = 0; c < CASES; c++)
            measure(c);
        return 0;
    }
    if (argc == 5 && strcmp(argv[1], "count") == 0)
        for (size_t c = 0; c < CASES; c++)
            if (strcmp(argv[2], cases[c].name) == 0) {
                prepare(c);
                make(c, strcmp(argv[3], "library") == 0, atol(argv[4]));
                return 0;
            }
    fprintf(stderr, "usage: calls time | cases | count CASE SIDE TIMES\n");
    return 2;
}
