/* Measures products of check figures alone: of the kind, and by the language's remainder.
 *
 * bench/run writes and builds the functions that are measured. Chained, each product waits for the one before it;
 * independent, WIDTH figures are multiplied in turn. The two sides take turns, and the least time of each counts.
 */
#include <stdint.h>
#include <stdio.h>
#include <time.h>

#define WIDTH 64
#define PRODUCTS 64000
#define ROUNDS 100

typedef uint32_t products(uint32_t first, uint32_t factor, uint32_t rounds);

products chained_of_kind, chained_by_remainder, independent_of_kind, independent_by_remainder;

static double now(void)
{
    struct timespec t;
    clock_gettime(CLOCK_MONOTONIC, &t);
    return t.tv_sec * 1e9 + t.tv_nsec;
}

static double time_of(products *side, uint32_t rounds, uint32_t *seen)
{
    double start = now();
    *seen = side(123456789, 987654321, rounds);
    return now() - start;
}

/* Prints the time of a product on both sides; 1 where these do not agree. */
static int compare(const char *name, products *kind, products *remainder, uint32_t rounds)
{
    double ours = 1e18, theirs = 1e18;
    for (int i = 0; i < ROUNDS; i++) {
        uint32_t a, b;
        double time = time_of(kind, rounds, &a);
        ours = time < ours ? time : ours;
        time = time_of(remainder, rounds, &b);
        theirs = time < theirs ? time : theirs;
        if (a != b) {
            fprintf(stderr, "%s: %u and %u\n", name, (unsigned)a, (unsigned)b);
            return 1;
        }
    }
    printf("%s %.4f %.4f\n", name, ours / PRODUCTS, theirs / PRODUCTS);
    return 0;
}

int main(void)
{
    return compare("chained", chained_of_kind, chained_by_remainder, PRODUCTS)
        || compare("independent", independent_of_kind, independent_by_remainder, PRODUCTS / WIDTH);
}
