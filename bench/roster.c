/* Measures the calls to a roster: the time of each by kind of figures and number of lives.
 *
 * bench/run writes and builds the functions that are measured. Each opens a roster on so many cells, lets the lives
 * join, makes one sort of call for each entry of `asked`, and closes the cells. With FORMER defined there is a second
 * set of them, of an earlier revision, and the two take turns; it has the calls before the one that FORMER names.
 */
#include <stddef.h>
#include <stdint.h>
#include <stdio.h>
#include <stdlib.h>
#include <time.h>

#define PLACES 4
#define ROUNDS 15
#define BATCH_NS 25000
#define MOST_ASKED 16384
#define MOST_LIVES 64

typedef uint64_t cost(uint32_t cells, const uint32_t *numbers, size_t lives, uint32_t whole, uint32_t figure,
                      uint32_t call, const uint32_t *asked, size_t times);

cost cost_word, cost_check, cost_scenario, cost_slope, cost_slope_check;

#ifdef FORMER
#define SIDES 2
cost former_word, former_check, former_scenario, former_slope, former_slope_check;
#define COSTS(kind) { cost_##kind, former_##kind }
#else
#define SIDES 1
#define FORMER CALLS
#define COSTS(kind) { cost_##kind }
#endif

static const struct { const char *name; cost *costs[SIDES]; } kinds[] = {
    { "word", COSTS(word) },
    { "check", COSTS(check) },
    { "scenario", COSTS(scenario) },
    { "slope over word", COSTS(slope) },
    { "slope over check", COSTS(slope_check) },
};
#define KINDS (sizeof kinds / sizeof *kinds)

/* As the measured functions number them. FILL clears and lets all lives join, EMPTY lets them leave again as well, and
 * ANEW opens a roster, lets all lives join, makes a composed row and closes. HOUSEHOLDS makes the row of two households of
 * half the lives each. */
enum call {
    OPEN, CLOSE, FILL, EMPTY, CHANGE, CLEAR, EXACTLY, AT_LEAST, COMPOSED, TRIANGLE, LIVES, FIND, ANEW, HOUSEHOLDS, CALLS
};

static const uint32_t sizes[] = { 1, 8, 32, 64 };
#define SIZES (sizeof sizes / sizeof *sizes)

/* One call with one argument, how often a batch makes it, and the time of each in every round. */
struct batch {
    cost *cost;
    enum call call;
    uint32_t lives, ask;
    size_t times;
    float each[PLACES][ROUNDS];
};

/* The questions have a batch for each k up to the number of lives, the other calls a single one. */
static struct batch batches[SIDES][KINDS][SIZES][CALLS][MOST_LIVES + 1];

static uint32_t last_k(enum call call, uint32_t lives)
{
    return call == EXACTLY || call == AT_LEAST ? lives : 0;
}

/* Whether the side has the call. */
static int has(size_t side, enum call call)
{
    return call < (side ? FORMER : CALLS);
}

static uint32_t number(uint32_t i)
{
    return 1000 + 7 * i;
}

static double now(void)
{
    struct timespec t;
    clock_gettime(CLOCK_MONOTONIC, &t);
    return t.tv_sec * 1e9 + t.tv_nsec;
}

/* The cells lie on the stack, and a call's time depends on where: each place is 16 bytes on in a cache line, and a
 * quarter on in a page. */
static double run(const struct batch *b, size_t times, size_t place)
{
    volatile char shift[1040 * place + 1];
    (void)shift;
    static uint32_t numbers[MOST_LIVES], asked[MOST_ASKED];
    static volatile uint64_t sink;
    for (uint32_t i = 0; i < b->lives; i++)
        numbers[i] = number(i);
    for (size_t i = 0; i < times; i++)
        asked[i] = b->ask;
    double start = now();
    sink += b->cost(b->lives + 1, numbers, b->lives, 1000003, 999983, b->call, asked, times);
    return now() - start;
}

static double least(const struct batch *b, size_t times)
{
    double least = 1e18;
    for (int i = 0; i < 5; i++) {
        double time = run(b, times, 0);
        least = time < least ? time : least;
    }
    return least;
}

static struct batch begin(cost *cost, enum call call, uint32_t lives, uint32_t k)
{
    struct batch b = { .cost = cost, .call = call, .lives = lives, .ask = k, .times = 1 };
    if (call == OPEN || call == CLOSE)
        b.ask = lives + 1;
    if (call == CHANGE || call == FIND)
        b.ask = number(lives - 1);
    double before = least(&b, 0);
    do
        b.times *= 2;
    while (least(&b, b.times) - before < BATCH_NS && b.times < MOST_ASKED / 2);
    return b;
}

/* A batch less one of half its length: without what comes before and after the calls. */
static float measure(const struct batch *b, size_t place)
{
    double once = run(b, b->times, place), twice = run(b, 2 * b->times, place);
    return (twice - once) / b->times;
}

static int by_size(const void *a, const void *b)
{
    float x = *(const float *)a, y = *(const float *)b;
    return (x > y) - (x < y);
}

/* The time of one call: the median of its rounds, at the best of the places. Of a question: the largest over k. */
static double each(size_t side, size_t kind, size_t size, enum call call, uint32_t *worst)
{
    double most = 0;
    for (uint32_t k = 0; k <= last_k(call, sizes[size]); k++) {
        struct batch *b = &batches[side][kind][size][call][k];
        double least = 1e18;
        for (size_t place = 0; place < PLACES; place++) {
            qsort(b->each[place], ROUNDS, sizeof(float), by_size);
            if (b->each[place][ROUNDS / 2] < least)
                least = b->each[place][ROUNDS / 2];
        }
        if (least > most) {
            most = least;
            *worst = k;
        }
    }
    return most;
}

/* The rows of the tables. Where a second call is named, the time is the first's less the second's, for each life. */
static const struct { const char *name; enum call call, less; } lines[] = {
    { "open", OPEN, CALLS },
    { "join, mean", FILL, CLEAR },
    { "leave, mean", EMPTY, FILL },
    { "change", CHANGE, CALLS },
    { "clear", CLEAR, CALLS },
    { "exactly, worst k", EXACTLY, CALLS },
    { "at_least, worst k", AT_LEAST, CALLS },
    { "composed_row", COMPOSED, CALLS },
    { "triangle_row", TRIANGLE, CALLS },
    { "households_row", HOUSEHOLDS, CALLS },
    { "lives", LIVES, CALLS },
    { "find", FIND, CALLS },
    { "close", CLOSE, CALLS },
    { "from nothing", ANEW, CALLS },
};
#define LINES (sizeof lines / sizeof *lines)

static double entry(size_t side, size_t kind, size_t size, size_t line)
{
    uint32_t k;
    double time = each(side, kind, size, lines[line].call, &k);
    if (lines[line].less != CALLS)
        time = (time - each(side, kind, size, lines[line].less, &k)) / sizes[size];
    return time;
}

/* The most that a question takes: over a composed row, at the most lives, and over the most at half as many. */
static void question(const char *name, enum call call, size_t kind)
{
    uint32_t k, none;
    double most = each(0, kind, SIZES - 1, call, &k), half = each(0, kind, SIZES - 2, call, &none);
    printf("  %s, at k = %u of 64 lives: %.2f of a composed row, %.2f of what it takes at 32 lives\n", name, k,
           most / each(0, kind, SIZES - 1, COMPOSED, &none), most / half);
}

/* The row of two households, over a composed row of all their lives, at the most. */
static void households(size_t kind)
{
    uint32_t none;
    printf("  households_row, of 32 lives and 32: %.2f of a composed row of all 64\n",
           each(0, kind, SIZES - 1, HOUSEHOLDS, &none) / each(0, kind, SIZES - 1, COMPOSED, &none));
}

int main(void)
{
    for (int round = -1; round < PLACES * ROUNDS; round++)
        for (size_t kind = 0; kind < KINDS; kind++)
            for (size_t s = 0; s < SIZES; s++)
                for (enum call call = 0; call < CALLS; call++)
                    for (uint32_t k = 0; k <= last_k(call, sizes[s]); k++)
                        for (size_t turn = 0; turn < SIDES; turn++) {
                            size_t side = (round + 1 + turn) % SIDES;
                            if (!has(side, call))
                                continue;
                            struct batch *b = &batches[side][kind][s][call][k];
                            if (round < 0)
                                *b = begin(kinds[kind].costs[side], call, sizes[s], k);
                            else
                                b->each[round % PLACES][round / PLACES] = measure(b, round % PLACES);
                        }

    for (size_t kind = 0; kind < KINDS; kind++) {
        for (size_t side = 0; side < SIDES; side++) {
            printf("%s%s\n  %-20s", kinds[kind].name, side ? ", formerly" : "", "lives");
            for (size_t s = 0; s < SIZES; s++)
                printf(" %9u", sizes[s]);
            putchar('\n');
            for (size_t line = 0; line < LINES; line++) {
                if (!has(side, lines[line].call))
                    continue;
                printf("  %-20s", lines[line].name);
                for (size_t s = 0; s < SIZES; s++)
                    printf(" %9.1f", entry(side, kind, s, line));
                putchar('\n');
            }
        }
        question("exactly", EXACTLY, kind);
        question("at_least", AT_LEAST, kind);
        households(kind);
    }

    if (SIDES > 1) {
        printf("\nTime at 64 lives over the former\n  %-20s", "");
        for (size_t kind = 0; kind < KINDS; kind++)
            printf(" %16s", kinds[kind].name);
        putchar('\n');
        for (size_t line = 0; line < LINES; line++) {
            if (!has(SIDES - 1, lines[line].call))
                continue;
            printf("  %-20s", lines[line].name);
            for (size_t kind = 0; kind < KINDS; kind++)
                printf(" %16.2f", entry(0, kind, SIZES - 1, line) / entry(SIDES - 1, kind, SIZES - 1, line));
            putchar('\n');
        }
    }
    return 0;
}
