/*
 * totdb: a database of totalizers. It makes the CNF clauses that count true literals, or add up their weights.
 *
 * Link with target/staticlib/libtotdb.a, which `tools/staticlib.sh` makes (x86-64 Linux). The library keeps nothing of its
 * own: no heap, no globals, no threads. Every call works on rows that the caller lends, and is proved to do what the rules
 * say for any content of these rows: docs/RULES.md, which is the customer's document 01 in our words. The contracts are in
 * crates/totdb/src/lib.rt.
 *
 * ROWS. Each is a pointer and a length in elements.
 *
 *   nodes     8 words a node (kind, left, left multiplier, right, right multiplier, first, cells, depth); a row of
 *             8 * N words has room for N nodes, at most TOTDB_NODE_LIMIT of which are used
 *   inputs    one literal a leaf
 *   keys, lits, marks
 *             one entry a cell each; the shortest of the three is the room for cells, at most TOTDB_CELL_LIMIT of which
 *             are used
 *   clauses   the clauses: literals, then 0
 *   ints, bytes
 *             the working area of four calls: each at least as long as the larger of the cells and the nodes in use. What it
 *             holds does not matter, and is not kept
 *   counters  seven numbers, TOTDB_COUNTERS of them, at the places named below
 *
 * What a caller owes: pointers that are not null (also where the length is 0), aligned for their type, valid for their
 * length, and no two of one call's rows or results overlapping, except rows that are both `const`.
 *
 * ANSWERS. A call answers 0 (TOTDB_DONE) or the number of the first reason for refusing it, in the order that its comment
 * gives. A refused call changes nothing but the working area, and gives back 0 through `id`, `lit` or `value`. A done call
 * leaves every entry past the new counts as it stood.
 *
 * A literal is v or -v for a variable v from 1 on, and never 0 or -2147483648.
 */
#ifndef TOTDB_H
#define TOTDB_H

#include <stddef.h>
#include <stdint.h>

#ifdef __cplusplus
extern "C" {
#endif

enum totdb_number {
    TOTDB_DONE = 0,
    TOTDB_NO_SUCH_OUTPUT = 1, /* the node has no such output */
    TOTDB_TABLE_FAILS = 2,    /* the table check fails */
    TOTDB_WORK_SHORT = 3,     /* the working area is short */
    TOTDB_NO_SUCH_NODE = 4,   /* node id not below the node count */
    TOTDB_GENERAL_NODE = 5,   /* unweighted demand on a general node */
    TOTDB_BAD_LITERAL = 6,    /* literal 0, -2147483648, or variable not below `first` */
    TOTDB_BAD_MULTIPLIER = 7, /* multiplier outside 1 to 65,535, or equal and not 1 with no general child */
    TOTDB_NO_VALUE = 8,       /* general node without any value */
    TOTDB_KEY_TOO_LARGE = 9,  /* a key above 2,147,483,647 */
    TOTDB_TOO_DEEP = 10,      /* depth above 64 */
    TOTDB_NO_ROOM = 11,       /* what is added does not fit the node, input or cell row or limit */
    TOTDB_VARIABLES_OUT = 12, /* variables run out */
    TOTDB_CLAUSES_SHORT = 13, /* clause row too short */
    TOTDB_BAD_ASSIGNMENT = 14, /* assignment shorter than `first` - 1, or one of these bytes not 0 or 1 */
    TOTDB_BAD_VARIABLES = 15  /* fresh call without 1 <= first <= last + 1 <= 2147483648 */
};

/* The places of the seven counters. */
enum totdb_counter {
    TOTDB_FIRST = 0,  /* F: variables below it are inputs */
    TOTDB_NEXT = 1,   /* the first free variable */
    TOTDB_LAST = 2,   /* the last variable that may be taken */
    TOTDB_NODES = 3,  /* nodes in use */
    TOTDB_INPUTS = 4, /* input literals in use */
    TOTDB_CELLS = 5,  /* cells in use */
    TOTDB_WORDS = 6,  /* clause words in use */
    TOTDB_COUNTERS = 7
};

/* What an unweighted demand asks for. Any other number asks for both. */
enum totdb_demand {
    TOTDB_IF = 1,      /* the output is true if that many inputs are */
    TOTDB_ONLY_IF = 2, /* the output is true only if that many inputs are */
    TOTDB_BOTH = 3
};

/* Limits; a row's own length may be the smaller one. */
#define TOTDB_NODE_WORDS 8
#define TOTDB_NODE_LIMIT 4096
#define TOTDB_CELL_LIMIT 16384
#define TOTDB_DEPTH_LIMIT 64
#define TOTDB_MULTIPLIER_LIMIT 65535
#define TOTDB_KEY_LIMIT 2147483647
#define TOTDB_VARIABLE_LIMIT 2147483647

/*
 * The table check: 0 where the rows and counters are a table (docs/RULES.md, section 4), else 2. Reads all, writes nothing.
 */
uint32_t totdb_check(
    const uint32_t *nodes, size_t nodes_len,
    const int32_t *inputs, size_t inputs_len,
    const uint32_t *keys, size_t keys_len,
    const int32_t *lits, size_t lits_len,
    const uint8_t *marks, size_t marks_len,
    const int32_t *clauses, size_t clauses_len,
    const size_t counters[TOTDB_COUNTERS]);

/*
 * Begins a table: inputs are the variables 1 to first - 1, fresh ones run from first to last. Sets all seven counters:
 * first, first, last, 0, 0, 0, 0. The rows may hold anything.
 * Refuses: 15.
 */
uint32_t totdb_fresh(size_t counters[TOTDB_COUNTERS], size_t first, size_t last);

/*
 * Adds a leaf with the literal x. Out: its id; where a leaf with this literal is there already, the lowest such id.
 * Writes nodes, inputs.
 * Refuses: 2, 6, 11.
 */
uint32_t totdb_leaf(
    uint32_t *nodes, size_t nodes_len,
    int32_t *inputs, size_t inputs_len,
    const uint32_t *keys, size_t keys_len,
    const int32_t *lits, size_t lits_len,
    const uint8_t *marks, size_t marks_len,
    const int32_t *clauses, size_t clauses_len,
    size_t counters[TOTDB_COUNTERS],
    int32_t x,
    size_t *id);

/*
 * Adds the dummy, a node without values. Out: its id; where there is one already, the lowest such id.
 * Writes nodes.
 * Refuses: 2, 11.
 */
uint32_t totdb_dummy(
    uint32_t *nodes, size_t nodes_len,
    const int32_t *inputs, size_t inputs_len,
    const uint32_t *keys, size_t keys_len,
    const int32_t *lits, size_t lits_len,
    const uint8_t *marks, size_t marks_len,
    const int32_t *clauses, size_t clauses_len,
    size_t counters[TOTDB_COUNTERS],
    size_t *id);

/*
 * Adds an inner node over two nodes, each with a multiplier from 1 to 65,535. Where no child is general and the multipliers
 * are equal they must both be 1, and the node is a unit: output i stands for "at least i + 1". Otherwise it is general: one
 * cell for each value that the sum can have apart from 0, ascending. Out: its id.
 * Writes nodes, keys, lits, marks.
 * Refuses: 2, 4, 7, 8, 9, 10, 11.
 */
uint32_t totdb_inner(
    uint32_t *nodes, size_t nodes_len,
    const int32_t *inputs, size_t inputs_len,
    uint32_t *keys, size_t keys_len,
    int32_t *lits, size_t lits_len,
    uint8_t *marks, size_t marks_len,
    const int32_t *clauses, size_t clauses_len,
    size_t counters[TOTDB_COUNTERS],
    size_t left, size_t left_multiplier,
    size_t right, size_t right_multiplier,
    size_t *id);

/*
 * Demands output i of a leaf or a unit: appends the clauses that are missing for it, and what they need below it. `demand`
 * is TOTDB_IF, TOTDB_ONLY_IF or TOTDB_BOTH (any other number: both). Out: the output's literal. A second demand of the same
 * appends nothing.
 * Writes lits, marks, clauses.
 * Refuses: 2, 3, 4, 5, 1, 12, 13.
 */
uint32_t totdb_define_unweighted(
    const uint32_t *nodes, size_t nodes_len,
    const int32_t *inputs, size_t inputs_len,
    const uint32_t *keys, size_t keys_len,
    int32_t *lits, size_t lits_len,
    uint8_t *marks, size_t marks_len,
    int32_t *clauses, size_t clauses_len,
    int32_t *ints, size_t ints_len,
    uint8_t *bytes, size_t bytes_len,
    size_t counters[TOTDB_COUNTERS],
    size_t id, size_t i, uint32_t demand,
    int32_t *lit);

/*
 * Demands the output with the value v of any node, in the direction If: where the node's inputs add up to v, the output is
 * true. An output does not stand for "at least v": to cap a general node at k, demand every key above k and forbid each.
 * Out: the output's literal.
 * Writes lits, marks, clauses.
 * Refuses: 2, 3, 4, 1, 12, 13.
 */
uint32_t totdb_define_weighted(
    const uint32_t *nodes, size_t nodes_len,
    const int32_t *inputs, size_t inputs_len,
    const uint32_t *keys, size_t keys_len,
    int32_t *lits, size_t lits_len,
    uint8_t *marks, size_t marks_len,
    int32_t *clauses, size_t clauses_len,
    int32_t *ints, size_t ints_len,
    uint8_t *bytes, size_t bytes_len,
    size_t counters[TOTDB_COUNTERS],
    size_t id, size_t v,
    int32_t *lit);

/*
 * Gives a variable to every cell without a literal of the node and of what is below it: left, right, then the node itself.
 * Writes lits.
 * Refuses: 2, 3, 4, 12.
 */
uint32_t totdb_reserve_vars(
    const uint32_t *nodes, size_t nodes_len,
    const int32_t *inputs, size_t inputs_len,
    const uint32_t *keys, size_t keys_len,
    int32_t *lits, size_t lits_len,
    const uint8_t *marks, size_t marks_len,
    const int32_t *clauses, size_t clauses_len,
    int32_t *ints, size_t ints_len,
    uint8_t *bytes, size_t bytes_len,
    size_t counters[TOTDB_COUNTERS],
    size_t id);

/*
 * The value of a node under an assignment of the inputs: byte v - 1 is variable v, 1 for true and 0 for false; at least
 * first - 1 bytes. Out: the value. Writes nothing but the working area.
 * Refuses: 2, 3, 4, 14.
 */
uint32_t totdb_value(
    const uint32_t *nodes, size_t nodes_len,
    const int32_t *inputs, size_t inputs_len,
    const uint32_t *keys, size_t keys_len,
    const int32_t *lits, size_t lits_len,
    const uint8_t *marks, size_t marks_len,
    const int32_t *clauses, size_t clauses_len,
    int32_t *ints, size_t ints_len,
    uint8_t *bytes, size_t bytes_len,
    const size_t counters[TOTDB_COUNTERS],
    size_t id,
    const uint8_t *assignment, size_t assignment_len,
    size_t *value);

/*
 * Clears the marks of every cell and keeps the literals: demands append their clauses again, over the same variables. For a
 * new solver.
 * Writes marks.
 * Refuses: 2.
 */
uint32_t totdb_reset(
    const uint32_t *nodes, size_t nodes_len,
    const int32_t *inputs, size_t inputs_len,
    const uint32_t *keys, size_t keys_len,
    const int32_t *lits, size_t lits_len,
    uint8_t *marks, size_t marks_len,
    const int32_t *clauses, size_t clauses_len,
    size_t counters[TOTDB_COUNTERS]);

/*
 * Sets the clause length to 0, for a caller that has taken the clauses: the marks stay, so they are not made again.
 * Refuses: 2.
 */
uint32_t totdb_empty_clauses(
    const uint32_t *nodes, size_t nodes_len,
    const int32_t *inputs, size_t inputs_len,
    const uint32_t *keys, size_t keys_len,
    const int32_t *lits, size_t lits_len,
    const uint8_t *marks, size_t marks_len,
    const int32_t *clauses, size_t clauses_len,
    size_t counters[TOTDB_COUNTERS]);

#ifdef __cplusplus
}
#endif

#endif
