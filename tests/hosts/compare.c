/* Calls the C functions with random input and compares every answer, and every byte of memory near the tables, with
 * the reference.
 *
 *     compare [SEED [INPUTS]]     INPUTS for each of the three functions
 *
 * Each group of comparisons ends with a line that starts with 'passed:' or 'FAILED:'. The status is 0 where all passed.
 */
#define _DEFAULT_SOURCE
#include <inttypes.h>
#include <limits.h>
#include <signal.h>
#include <stdio.h>
#include <stdlib.h>
#include <string.h>
#include <sys/mman.h>
#include <unistd.h>

#include "../splitmix64.h"
#include "reference.h"
#include "survivorship.h"

_Static_assert(sizeof(struct survivorship_outcome) == 24, "the struct's size");
_Static_assert(offsetof(struct survivorship_outcome, refusal) == 0, "the refusal's offset");
_Static_assert(offsetof(struct survivorship_outcome, place) == 8, "the place's offset");
_Static_assert(offsetof(struct survivorship_outcome, factor) == 16, "the factor's offset");
_Static_assert(SURVIVORSHIP_WHOLE == D && SURVIVORSHIP_MOST_LIVES == 64 && SURVIVORSHIP_LARGEST_K == 64
                   && SURVIVORSHIP_MOST_COEFFICIENTS == 33 && SURVIVORSHIP_LARGEST_COEFFICIENT == LIMIT,
               "the limits");
_Static_assert(SURVIVORSHIP_ANSWERED == 0 && SURVIVORSHIP_COUNT_ABOVE_LIMIT == 5 && SURVIVORSHIP_TOO_MANY_LIVES == 8
                   && SURVIVORSHIP_LIFE_ABOVE_ONE == 9 && SURVIVORSHIP_SHORT_TABLE == 10
                   && SURVIVORSHIP_TABLE_LENGTH == 11 && SURVIVORSHIP_COEFFICIENT == 12
                   && SURVIVORSHIP_ROW_ABOVE_TABLE == 13 && SURVIVORSHIP_SHORT_OUTPUT == 14
                   && SURVIVORSHIP_IMPOSSIBLE == 15,
               "the refusals' numbers");

static const char *const names[CALLS] = {"money row", "factor", "exchangeable row"};

struct input {
    enum call call;
    uint32_t list[72]; /* lives, or coefficients */
    size_t len;
    uint32_t number;  /* k or m, 0 for the money row */
    size_t table_len; /* of the row, the work table or the output */
    bool from_weights;
    uint32_t weights[33];
};

static const char *verdict(bool passed)
{
    return passed ? "passed:" : "FAILED:";
}

/* ---- random numbers ---- */

/* A number below the bound. */
static uint32_t below(uint32_t bound)
{
    return (uint32_t)((next() >> 32) * bound >> 32);
}

static bool one_in(uint32_t n)
{
    return below(n) == 0;
}

#define ONE_OF(list) (list)[below(sizeof(list) / sizeof *(list))]

/* ---- random input ---- */

static const uint32_t life_edges[] = {0, 1, D - 1, D};
static const uint32_t above_whole[] = {D + 1, D + 2, UINT32_MAX};
static const uint32_t above_limit[] = {LIMIT + 1, LIMIT + 2, UINT32_MAX};

static uint32_t random_life(uint32_t style)
{
    switch (style) {
    case 0:
        return ONE_OF(life_edges);
    case 1:
        return below(8);
    case 2:
        return D - below(8);
    default:
        return below(D + 1);
    }
}

static size_t random_lives_len(void)
{
    static const size_t edges[] = {0, 1, 63, 64, 65};
    switch (below(4)) {
    case 0:
        return ONE_OF(edges);
    case 1:
        return below(4);
    default:
        return below(68);
    }
}

static uint32_t random_k(size_t n)
{
    const uint32_t edges[] = {0, (uint32_t)n, (uint32_t)n + 1, 64, 65, UINT32_MAX};
    return one_in(2) ? ONE_OF(edges) : below((uint32_t)n + 1);
}

/* Just enough entries, one too few, spare ones, or any number. */
static size_t random_table_len(uint64_t need)
{
    if (need > 70)
        return below(72);
    switch (below(8)) {
    case 0:
        return (size_t)need - 1;
    case 1:
        return below((uint32_t)need + 1);
    case 2:
    case 3:
        return (size_t)need + below(9);
    default:
        return (size_t)need;
    }
}

static void random_lives(struct input *in)
{
    uint32_t style = below(6);
    in->len = random_lives_len();
    for (size_t i = 0; i < in->len; i++)
        in->list[i] = random_life(style == 5 ? below(4) : style);
    while (in->len > 0 && one_in(6))
        in->list[below((uint32_t)in->len)] = ONE_OF(above_whole);
    in->number = in->call == FACTOR ? random_k(in->len) : 0;
    in->table_len = random_table_len(in->len + 1);
}

static size_t random_coefficients_len(void)
{
    static const size_t edges[] = {1, 2, 3, 33, 33};
    return one_in(4) ? ONE_OF(edges) : 1 + below(33);
}

/* Gives w_k some of what is left of u_0, or as much as there is. */
static void add_weight(struct input *in, size_t k, bool most, uint64_t *left)
{
    uint64_t each = binomial(in->len - 1, k);
    uint32_t room = (uint32_t)(*left / each);
    uint32_t more = most ? room : below(room + 1);
    in->weights[k] += more;
    *left -= more * each;
}

/* Random weights with u_0 from 1 to 2^30, and their coefficients. */
static void possible_table(struct input *in)
{
    size_t n = in->len - 1;
    uint64_t left = one_in(4) ? LIMIT : 1 + below(one_in(2) ? 64 : LIMIT);
    /* the middle one takes so much of u_0 that it would seldom come to it */
    if (one_in(3))
        add_weight(in, n / 2, true, &left);
    for (uint32_t turns = below(2 * (uint32_t)in->len); turns > 0; turns--)
        add_weight(in, below((uint32_t)in->len), one_in(8), &left);
    if (one_in(4) || coefficient(in->weights, n, 0) == 0)
        add_weight(in, one_in(2) ? 0 : n, true, &left);
    for (size_t j = 0; j < in->len; j++)
        in->list[j] = (uint32_t)coefficient(in->weights, n, j);
    in->from_weights = true;
}

static void random_table(struct input *in, bool falling)
{
    uint32_t bound = one_in(2) ? 16 : LIMIT;
    for (size_t j = 0; j < in->len; j++) {
        in->list[j] = below(bound + 1);
        if (falling)
            bound = in->list[j];
    }
}

/* One coefficient of a possible table is changed, mostly by 1. */
static void changed_table(struct input *in)
{
    size_t j = below((uint32_t)in->len);
    possible_table(in);
    in->from_weights = false;
    in->list[j] = one_in(4) ? below(LIMIT) : one_in(2) ? in->list[j] + 1 : in->list[j] - (in->list[j] > 0);
}

static void wrong_table(struct input *in)
{
    in->from_weights = false;
    if (one_in(4))
        in->len = one_in(2) ? 0 : 34;
    in->list[33] = below(LIMIT);
    do {
        if (in->len > 0)
            in->list[below((uint32_t)in->len)] = ONE_OF(above_limit);
    } while (one_in(4));
    if (one_in(4))
        in->list[0] = 0;
}

static uint32_t random_m(size_t len)
{
    const uint32_t edges[] = {0, (uint32_t)len - 1, (uint32_t)len, (uint32_t)len + 1, UINT32_MAX};
    return one_in(3) ? ONE_OF(edges) : below((uint32_t)len + 1);
}

static void random_coefficients(struct input *in)
{
    in->len = random_coefficients_len();
    switch (below(8)) {
    case 0:
        random_table(in, one_in(2));
        break;
    case 1:
    case 2:
        changed_table(in);
        break;
    default:
        possible_table(in);
    }
    if (one_in(8))
        wrong_table(in);
    in->number = random_m(in->len);
    in->table_len = random_table_len((uint64_t)in->number + 1);
}

static struct input random_input(enum call call)
{
    struct input in = {.call = call};
    if (call == EXCHANGEABLE_ROW)
        random_coefficients(&in);
    else
        random_lives(&in);
    return in;
}

/* ---- memory: a table lies at an end of a page, between two pages that may not be touched ---- */

struct home {
    unsigned char *page;
    unsigned char *due; /* what the page has to hold after the call */
    size_t start;
    bool null;
};

static size_t page_size;
static struct home list_home, table_home;

static struct home make_home(void)
{
    struct home h = {0};
    unsigned char *pages = mmap(NULL, 3 * page_size, PROT_NONE, MAP_PRIVATE | MAP_ANONYMOUS, -1, 0);
    h.due = malloc(page_size);
    if (pages == MAP_FAILED || h.due == NULL || mprotect(pages + page_size, page_size, PROT_READ | PROT_WRITE) != 0) {
        perror("compare");
        exit(2);
    }
    h.page = pages + page_size;
    return h;
}

/* Finds a place for a table of so many bytes, in a page filled with some byte. A table of no bytes may be null. */
static void settle(struct home *h, size_t bytes)
{
    h->start = one_in(2) ? 0 : page_size - bytes;
    h->null = bytes == 0 && one_in(2);
    memset(h->page, 1 + (int)below(255), page_size);
    memcpy(h->due, h->page, page_size);
}

static void *pointer(const struct home *h)
{
    return h->null ? NULL : h->page + h->start;
}

static bool undisturbed(const struct home *h)
{
    return memcmp(h->page, h->due, page_size) == 0;
}

/* ---- one call ---- */

static struct survivorship_outcome made(const struct input *in)
{
    const uint32_t *list = pointer(&list_home);
    uint64_t *table = pointer(&table_home);
    switch (in->call) {
    case MONEY_ROW:
        return survivorship_money_row(list, in->len, table, in->table_len);
    case FACTOR:
        return survivorship_factor(list, in->len, in->number, table, in->table_len);
    default:
        return survivorship_exchangeable_row(list, in->len, in->number, table, in->table_len);
    }
}

static void show_entries(const char *what, const unsigned char *from, size_t len)
{
    uint64_t entry;
    printf("  %s:", what);
    for (size_t i = 0; i < len; i++) {
        memcpy(&entry, from + i * sizeof entry, sizeof entry);
        printf(" %" PRIu64, entry);
    }
    printf("\n");
}

static void show_input(const struct input *in)
{
    printf("  %s; %s (%zu):", names[in->call], in->call == EXCHANGEABLE_ROW ? "coefficients" : "lives", in->len);
    for (size_t i = 0; i < in->len; i++)
        printf(" %" PRIu32, in->list[i]);
    if (in->call != MONEY_ROW)
        printf("; %s: %" PRIu32, in->call == FACTOR ? "k" : "m", in->number);
    printf("; table of %zu entries\n", in->table_len);
}

static void show_difference(const char *what, const struct home *h)
{
    size_t i = 0;
    if (undisturbed(h))
        return;
    while (h->page[i] == h->due[i])
        i++;
    printf("  first byte that differs in the page of the %s: %td bytes from its start, %u instead of %u\n", what,
           (ptrdiff_t)i - (ptrdiff_t)h->start, h->page[i], h->due[i]);
}

static void show_outcome(const char *what, uint32_t refusal, uint64_t place, uint64_t factor)
{
    printf("  %s: refusal %" PRIu32 ", place %" PRIu64 ", factor %" PRIu64 "\n", what, refusal, place, factor);
}

static void show_mismatch(const struct input *in, const struct due *due, struct survivorship_outcome got)
{
    show_input(in);
    show_outcome("due", due->refusal, due->place, due->factor);
    show_outcome("got", got.refusal, got.place, got.factor);
    show_entries("table due", table_home.due + table_home.start, in->table_len);
    show_entries("table got", table_home.page + table_home.start, in->table_len);
    show_difference("list", &list_home);
    show_difference("table", &table_home);
}

static const struct input *current;

/* The library is interrupted and not this program, so that printing is safe. */
static void on_fault(int signal)
{
    printf("FAILED: %s: memory outside the tables was touched (signal %d)\n", names[current->call], signal);
    show_input(current);
    fflush(stdout);
    _exit(1);
}

/* Makes the call and compares the outcome and every byte of both pages. */
static bool as_due(const struct input *in, const struct due *due, bool show)
{
    struct survivorship_outcome got;
    settle(&list_home, in->len * sizeof *in->list);
    settle(&table_home, in->table_len * sizeof *due->row);
    memcpy(list_home.page + list_home.start, in->list, in->len * sizeof *in->list);
    memcpy(list_home.due + list_home.start, in->list, in->len * sizeof *in->list);
    if (in->call == FACTOR)
        memset(table_home.due + table_home.start, 0, in->table_len * sizeof *due->row);
    else
        memcpy(table_home.due + table_home.start, due->row, due->written * sizeof *due->row);
    current = in;
    got = made(in);
    if (got.refusal == due->refusal && got.place == due->place && got.factor == due->factor && undisturbed(&list_home)
        && undisturbed(&table_home))
        return true;
    if (show)
        show_mismatch(in, due, got);
    return false;
}

/* ---- edges: each has to be met ---- */

enum { M = 1 << MONEY_ROW, F = 1 << FACTOR, E = 1 << EXCHANGEABLE_ROW };

/* The calls that have to meet it, its name, and where it is met. A list of lives has n entries, a table n + 1. */
#define EDGES(X)                                                                                               \
    X(M | F, "0 lives", answered && len == 0)                                                                  \
    X(M | F, "1 life", answered && len == 1)                                                                   \
    X(M | F, "63 lives", answered && len == 63)                                                                \
    X(M | F, "64 lives", answered && len == 64)                                                                \
    X(M | F, "65 lives", len == 65)                                                                            \
    X(M | F, "p of 0", answered && has(in, 0))                                                                 \
    X(M | F, "p of 1", answered && has(in, 1))                                                                 \
    X(M | F, "p of D - 1", answered && has(in, D - 1))                                                         \
    X(M | F, "p of D", answered && has(in, D))                                                                 \
    X(M | F, "p of D + 1", due->refusal == 9 && in->list[due->place] == D + 1)                                 \
    X(M | F, "only the last life above D", due->refusal == 9 && len > 1 && due->place == len - 1)              \
    X(F, "k of 0", answered && in->number == 0)                                                                \
    X(F, "k of n", answered && in->number == len)                                                              \
    X(F, "k of n + 1", answered && in->number == len + 1)                                                      \
    X(F, "k of 64", answered && in->number == 64)                                                              \
    X(F, "k of 64 with 64 lives", answered && in->number == 64 && len == 64)                                   \
    X(F, "k of 65", due->refusal == 5 && in->number == 65)                                                     \
    X(F, "the largest k", due->refusal == 5 && in->number == UINT32_MAX)                                       \
    X(F, "refused with spare entries", !answered && in->table_len > len + 1)                                   \
    X(E, "0 coefficients", len == 0)                                                                           \
    X(E, "1 coefficient", answered && len == 1)                                                                \
    X(E, "33 coefficients", answered && len == 33)                                                             \
    X(E, "33 coefficients, three or more entries of the row not 0", answered && len == 33 && full)             \
    X(E, "34 coefficients", len == 34)                                                                         \
    X(E, "a coefficient of 2^30", answered && has(in, LIMIT))                                                  \
    X(E, "a coefficient of 2^30 + 1", due->refusal == 12 && in->list[due->place] == LIMIT + 1)                 \
    X(E, "only the last coefficient above 2^30", due->refusal == 12 && len > 1 && due->place == len - 1)       \
    X(E, "u_0 of 0", due->refusal == 12 && in->list[0] == 0)                                                   \
    X(E, "u_0 of 0, and a later one above 2^30",                                                               \
      due->refusal == 12 && in->list[0] == 0 && first_above(in->list, len, LIMIT) < len)                       \
    X(E, "m of 0", answered && in->number == 0)                                                                \
    X(E, "m of n", answered && in->number + 1 == len)                                                          \
    X(E, "m of 32, the middle entry of the row not 0", answered && in->number == 32 && due->row[16] != 0)      \
    X(E, "m below n, three or more entries of the row not 0", answered && in->number + 1 < len && full)        \
    X(E, "m of n + 1", due->refusal == 13 && in->number == len)                                                \
    X(E, "the largest m", due->refusal == 13 && in->number == UINT32_MAX)                                      \
    X(E, "impossible at 0", due->refusal == 15 && due->place == 0)                                             \
    X(E, "impossible at n - 1", due->refusal == 15 && len > 2 && due->place == len - 2)                        \
    X(E, "impossible, m below n", due->refusal == 15 && in->number + 1 < len)                                  \
    X(M | F | E, "just enough entries", answered && in->table_len == need)                                     \
    X(M | F | E, "spare entries", answered && in->table_len > need)                                            \
    X(M | F | E, "one entry too few", (due->refusal == 10 || due->refusal == 14) && in->table_len == need - 1) \
    X(M | F, "a null list", answered && list_home.null)                                                        \
    X(E, "a null list", due->refusal == 11 && list_home.null)                                                  \
    X(M | F | E, "a null table", (due->refusal == 10 || due->refusal == 14) && table_home.null)

static const struct {
    unsigned calls;
    const char *name;
} edges[] = {
#define EDGE(calls, name, met) {calls, name},
    EDGES(EDGE)
#undef EDGE
};

#define EDGE_COUNT (sizeof edges / sizeof *edges)
static unsigned long edge_hits[CALLS][EDGE_COUNT];
static unsigned long refusal_hits[CALLS][16];  /* 0 where answered */
static unsigned long pair_hits[CALLS][16][16]; /* the one is given and the other would fit too */

static bool has(const struct input *in, uint32_t number)
{
    for (size_t i = 0; i < in->len; i++)
        if (in->list[i] == number)
            return true;
    return false;
}

static bool three_entries(const struct due *due)
{
    size_t count = 0;
    for (size_t k = 0; k < due->written; k++)
        count += due->row[k] != 0;
    return count >= 3;
}

static void note_edges(const struct input *in, const struct due *due)
{
    const bool answered = due->refusal == 0;
    const bool full = three_entries(due);
    const size_t len = in->len;
    const uint64_t need = in->call == EXCHANGEABLE_ROW ? (uint64_t)in->number + 1 : len + 1;
    const bool met[] = {
#define EDGE(calls, name, met) met,
        EDGES(EDGE)
#undef EDGE
    };
    for (size_t e = 0; e < EDGE_COUNT; e++)
        edge_hits[in->call][e] += met[e];
    refusal_hits[in->call][due->refusal]++;
    for (unsigned other = 1; other < 16; other++)
        pair_hits[in->call][due->refusal][other] += due->faults >> other & 1;
}

static unsigned long rarest;
static size_t edges_due, edges_missed;

static void must_be_met(enum call call, const char *name, unsigned long hits)
{
    edges_due++;
    if (hits < rarest)
        rarest = hits;
    if (hits == 0) {
        edges_missed++;
        printf("  never met: %s: %s\n", names[call], name);
    }
}

static void check_refusals(enum call call)
{
    char name[64];
    must_be_met(call, "answered", refusal_hits[call][0]);
    for (const unsigned *o = order[call]; *o != 0; o++) {
        snprintf(name, sizeof name, "refusal %u", *o);
        must_be_met(call, name, refusal_hits[call][*o]);
        for (const unsigned *later = o + 1; *later != 0; later++) {
            if (*later == 15 && *o <= 12)
                continue; /* a table outside the limits has no weights */
            snprintf(name, sizeof name, "refusal %u where %u would fit too", *o, *later);
            must_be_met(call, name, pair_hits[call][*o][*later]);
        }
    }
}

static bool edges_met(void)
{
    rarest = ULONG_MAX;
    for (enum call call = 0; call < CALLS; call++) {
        for (size_t e = 0; e < EDGE_COUNT; e++)
            if ((edges[e].calls >> call & 1) != 0)
                must_be_met(call, edges[e].name, edge_hits[call][e]);
        check_refusals(call);
    }
    printf("%s edges: %zu of %zu met, the rarest %lu times\n", verdict(edges_missed == 0), edges_due - edges_missed,
           edges_due, rarest);
    return edges_missed == 0;
}

/* ---- the groups ---- */

/* The numbers of the docs, and not of the reference. */
static const struct {
    struct input in;
    struct due due;
} worked[] = {
    {{.call = MONEY_ROW, .list = {1, 1}, .len = 2, .table_len = 3}, {.written = 3, .row = {999999998, 1, 1}}},
    {{.call = MONEY_ROW, .list = {900000000, 800000000, 500000000}, .len = 3, .table_len = 4},
     {.written = 4, .row = {10000000, 140000000, 490000000, 360000000}}},
    {{.call = FACTOR, .list = {900000000, 800000000, 500000000}, .len = 3, .number = 2, .table_len = 4},
     {.factor = 850000000}},
    {{.call = EXCHANGEABLE_ROW, .list = {8, 4, 2, 1}, .len = 4, .number = 3, .table_len = 4},
     {.written = 4, .row = {1, 3, 3, 1}}},
    {{.call = EXCHANGEABLE_ROW, .list = {4, 2, 0}, .len = 3, .number = 2, .table_len = 3},
     {.written = 3, .row = {0, 4, 0}}},
    {{.call = EXCHANGEABLE_ROW, .list = {4, 3, 1}, .len = 3, .number = 2, .table_len = 3}, {.refusal = 15, .place = 0}},
    {{.call = EXCHANGEABLE_ROW, .list = {4, 1, 2}, .len = 3, .number = 2, .table_len = 3}, {.refusal = 15, .place = 1}},
};

static bool worked_examples(void)
{
    const size_t count = sizeof worked / sizeof *worked;
    size_t wrong = 0;
    for (size_t i = 0; i < count; i++)
        wrong += !as_due(&worked[i].in, &worked[i].due, true);
    printf("%s worked examples: %zu of %zu as due\n", verdict(wrong == 0), count - wrong, count);
    return wrong == 0;
}

/* Whether the answer can be compared with survival patterns (few lives), or with the weights it was made from. */
static bool second_applies(const struct input *in, const struct due *due)
{
    return due->refusal == 0 && (in->call == EXCHANGEABLE_ROW ? in->from_weights : in->len <= 3);
}

static const char *second_route(enum call call)
{
    return call == EXCHANGEABLE_ROW ? "weights" : "survival patterns";
}

static void show_second(const struct input *in)
{
    printf("  not by %s:\n", second_route(in->call));
    show_input(in);
}

static bool second_holds(const struct input *in, const struct due *due)
{
    uint64_t tail = 0;
    if (in->call == FACTOR)
        return near_exact(in->list, in->len, in->number, due->factor);
    for (size_t k = due->written; k-- > 0;) {
        tail += due->row[k];
        if (in->call == MONEY_ROW ? !near_exact(in->list, in->len, k, tail)
                                  : due->row[k] != entry_of_weights(in->weights, in->len - 1, in->number, k))
            return false;
    }
    return in->call == EXCHANGEABLE_ROW || tail == D;
}

/* Shows the first mismatch. */
static bool random_calls(enum call call, unsigned long inputs)
{
    unsigned long second = 0, wrong = 0;
    for (unsigned long i = 0; i < inputs; i++) {
        struct input in = random_input(call);
        struct due due = reference(call, in.list, in.len, in.number, in.table_len);
        bool same = as_due(&in, &due, wrong == 0);
        if (same && second_applies(&in, &due)) {
            second++;
            same = second_holds(&in, &due);
            if (!same && wrong == 0)
                show_second(&in);
        }
        wrong += !same;
        note_edges(&in, &due);
    }
    printf("%s %s: %lu of %lu inputs as due; %lu are answered, and %lu of these compared with %s too\n",
           verdict(wrong == 0), names[call], inputs - wrong, inputs, refusal_hits[call][0], second, second_route(call));
    return wrong == 0;
}

static bool number_of(const char *word, uint64_t *number)
{
    char *end;
    *number = strtoull(word, &end, 0);
    return end != word && *end == '\0';
}

int main(int argc, char **argv)
{
    uint64_t seed = 1;
    uint64_t inputs = 150000;
    bool passed;
    if (argc > 3 || (argc > 1 && !number_of(argv[1], &seed)) || (argc > 2 && !number_of(argv[2], &inputs))) {
        fprintf(stderr, "usage: compare [SEED [INPUTS]]\n");
        return 2;
    }
    printf("seed %" PRIu64 ", %" PRIu64 " inputs for each function\n", seed, inputs);
    state = seed;
    page_size = (size_t)sysconf(_SC_PAGESIZE);
    list_home = make_home();
    table_home = make_home();
    signal(SIGSEGV, on_fault);
    passed = worked_examples();
    for (enum call call = 0; call < CALLS; call++)
        passed = random_calls(call, (unsigned long)inputs) && passed;
    passed = edges_met() && passed;
    free(list_home.due);
    free(table_home.due);
    return passed ? 0 : 1;
}
