/* The library called from C: a money row, a factor and an exchangeable row. In the repository's root:
 *
 *     bin/libhosts
 *     gcc -std=c11 -O2 -Iinclude examples/host.c target/staticlib/libhosts.a -o target/host
 *     target/host
 */
#include <inttypes.h>
#include <stdio.h>

#include "survivorship.h"

static void print_row(const char *name, const uint64_t *row, size_t len)
{
    printf("%s:", name);
    for (size_t i = 0; i < len; i++)
        printf(" %" PRIu64, row[i]);
    printf("\n");
}

static int refused(const char *name, struct survivorship_outcome o)
{
    if (o.refusal == SURVIVORSHIP_ANSWERED)
        return 0;
    printf("%s: refused with %" PRIu32 " at %" PRIu64 "\n", name, o.refusal, o.place);
    return 1;
}

int main(void)
{
    const uint32_t lives[] = {900000000, 800000000, 500000000};
    uint64_t table[4];
    struct survivorship_outcome o;

    o = survivorship_money_row(lives, 3, table, 4);
    if (refused("money row", o))
        return 1;
    print_row("money row", table, 4);

    o = survivorship_factor(lives, 3, 2, table, 4);
    if (refused("factor", o))
        return 1;
    printf("factor for 2: %" PRIu64 "\n", o.factor);

    const uint32_t possible[] = {8, 4, 2, 1};
    o = survivorship_exchangeable_row(possible, 4, 3, table, 4);
    if (refused("exchangeable row", o))
        return 1;
    print_row("exchangeable row", table, 4);

    /* a table that no exchangeable events have */
    const uint32_t impossible[] = {4, 1, 2};
    o = survivorship_exchangeable_row(impossible, 3, 2, table, 4);
    return refused("exchangeable row", o) ? 0 : 1;
}
