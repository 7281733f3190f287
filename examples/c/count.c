/*
 * Three inputs, counted: "at least two of them" (P3 of docs/RULES.md), then a refusal. From the repository's folder:
 *
 *     tools/staticlib.sh
 *     gcc -Wall -Wextra -I include examples/c/count.c target/staticlib/libtotdb.a -o target/count && target/count
 *
 * It writes what examples/c/count.out has.
 */
#include <stdio.h>
#include <stdlib.h>

#include "totdb.h"

#define NODES 8
#define CELLS 16
#define WORDS 64
#define LENGTH(row) (sizeof(row) / sizeof((row)[0]))

/* The rows that the calls are lent, and the counters that go with them. */
static uint32_t nodes[NODES * TOTDB_NODE_WORDS];
static int32_t inputs[NODES];
static uint32_t keys[CELLS];
static int32_t lits[CELLS];
static uint8_t marks[CELLS];
static int32_t clauses[WORDS];
static int32_t ints[CELLS];
static uint8_t bytes[CELLS];
static size_t counters[TOTDB_COUNTERS];

static void must(const char *call, uint32_t number)
{
    if (number != TOTDB_DONE) {
        fprintf(stderr, "%s: refused, %u\n", call, number);
        exit(1);
    }
}

static size_t leaf(int32_t x)
{
    size_t id;
    must("leaf", totdb_leaf(nodes, LENGTH(nodes), inputs, LENGTH(inputs), keys, LENGTH(keys), lits, LENGTH(lits),
                            marks, LENGTH(marks), clauses, LENGTH(clauses), counters, x, &id));
    return id;
}

static size_t both(size_t left, size_t right)
{
    size_t id;
    must("inner", totdb_inner(nodes, LENGTH(nodes), inputs, LENGTH(inputs), keys, LENGTH(keys), lits, LENGTH(lits),
                              marks, LENGTH(marks), clauses, LENGTH(clauses), counters, left, 1, right, 1, &id));
    return id;
}

static uint32_t at_least(size_t node, size_t n, int32_t *lit)
{
    return totdb_define_unweighted(nodes, LENGTH(nodes), inputs, LENGTH(inputs), keys, LENGTH(keys), lits, LENGTH(lits),
                                   marks, LENGTH(marks), clauses, LENGTH(clauses), ints, LENGTH(ints), bytes,
                                   LENGTH(bytes), counters, node, n - 1, TOTDB_IF, lit);
}

int main(void)
{
    int32_t lit;
    size_t top, i;

    must("fresh", totdb_fresh(counters, 4, 9));
    top = leaf(1);
    top = both(top, leaf(2));
    top = both(top, leaf(3));
    must("define_unweighted", at_least(top, 2, &lit));
    printf("at least 2 of 3: literal %d\n", lit);
    for (i = 0; i < counters[TOTDB_WORDS]; i++)
        printf(clauses[i] == 0 ? "%d\n" : "%d ", clauses[i]);
    printf("at least 4 of 3: number %u", at_least(top, 4, &lit));
    printf(", literal %d\n", lit);
    return 0;
}
