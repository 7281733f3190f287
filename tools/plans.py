#!/usr/bin/env python3
"""The Rust's own answers as a fixed list for the program `replay`.

    plans.py ORACLE STDIN STDOUT

Makes the plans, with a fixed seed, runs them through ORACLE (a program that answers plans with what the Rust's own module
does), turns its lines into those that `replay` is to write, and writes both files and a report. Where document 01 departs
from the Rust the line of document 01 stands, and only by a rule of RULES, which names the class and counts it. A line that
differs and is in no class stops the run: it is a bug in one of the two. So does a line that document 01 does not answer as it
was meant to be answered: then the plan does not ask what it was made for.
"""
import collections
import itertools
import random
import subprocess
import sys

import paper
from paper import DUMMY, GENERAL, LEAF, UNIT

SEED = 20031106
PLANS = 2400


class Twin(paper.Db):
    """Document 01 with one thing as the Rust has it: the dummy path appends the If clause, once, whatever was asked."""

    def through(self, run, c, o, want):
        run.add(-c, o)


# ---- making plans: each is a list of lines that begins with `fresh` or `rows`. After ` -> ` stands how document 01's answer to a line must begin; a
# line without it must be done (number 0). Random plans alone say nothing of this.


def asked(line):
    """A line, and how its answer must begin."""
    line, _, want = line.partition(" -> ")
    return line, want or "0"


class Maker:
    """One plan. It runs along on document 01's interpreter, so that what it asks for makes sense most of the time."""

    def __init__(self, rng, weights):
        self.rng, self.weights, self.db, self.lines, self.over = rng, weights, paper.Db(), [], False

    def say(self, line):
        """The plan ends where variables run out: the Rust goes on, and the two tables part."""
        if not self.over:
            self.lines.append(line)
            self.over = paper.answer(self.db, line).startswith("12 ")

    def node(self, kinds=(LEAF, UNIT, GENERAL, DUMMY)):
        """A node, the latest ones most often."""
        ids = [i for i in range(self.db.nodes) if self.db.words[8 * i] in kinds]
        return ids[-1 - min(len(ids) - 1, int(self.rng.expovariate(0.6)))] if ids else None

    def leaf(self):
        v = self.rng.randint(1, self.db.F - 1)
        self.say(f"leaf {v if self.rng.random() < 0.7 else -v}")

    def join(self):
        r, db = self.rng, self.db
        a, b = self.node(), r.randrange(db.nodes)
        if r.random() < 0.15:
            b = a
        if r.random() < 0.5:
            a, b = b, a
        m = n = 1
        if self.weights and r.random() < 0.75:
            m, n = r.choice(((1, 2), (2, 1), (3, 2), (2, 3), (5, 3), (1, 7), (4, 1), (2, 2), (3, 3), (1, 65535)))
        general = GENERAL in (db.words[8 * a], db.words[8 * b])
        if m == n and m > 1 and not general:
            n += 1
        ca, cb = db.count(a), db.count(b)
        if (m != n or general) and ca == cb == 0:
            return
        largest = m * max(db.values(a), default=0) + n * max(db.values(b), default=0)
        if max(ca + cb, ca * cb if m != n or general else 0) > 28 or largest > paper.KEY:
            return
        self.say(f"join {a} {m} {b} {n}")

    def count(self):
        r, db = self.rng, self.db
        i = self.node((UNIT,) if r.random() < 0.9 else (LEAF, UNIT))
        if i is not None and db.count(i):
            self.say(f"count {i} {r.randrange(db.count(i))} {r.choice(('if', 'onlyif', 'both'))}")

    def sum(self):
        r, db = self.rng, self.db
        i = self.node((GENERAL,) if r.random() < 0.8 else (LEAF, UNIT, GENERAL))
        if i is not None and db.count(i):
            self.say(f"sum {i} {r.choice(db.values(i))}")

    def value(self):
        i = self.node()
        bits = "".join(self.rng.choice("01") for _ in range(self.db.F - 1 + self.rng.choice((0, 0, 3))))
        self.say(f"value {i} {bits}".rstrip())

    def again(self):
        asked = [x for x in self.lines if x.startswith(("count", "sum"))]
        if asked:
            self.say(self.rng.choice(asked))

    def upkeep(self):
        self.say(self.rng.choice(("reset", "reset", "clear", f"reserve {self.node()}", f"reserve {self.node()}", "dummy")))

    def odd(self):
        """What the two answer differently, or refuse, without a change."""
        r, db = self.rng, self.db
        i = self.node()
        n = db.count(i)
        self.say(
            r.choice(
                (
                    f"count {i} {n + r.randrange(2)} {r.choice(('if', 'both'))}",
                    f"sum {i} {max(db.values(i), default=0) + 1}",
                    f"sum {i} 0",
                    f"count {db.nodes} 0 if",
                    f"sum {db.nodes} 1",
                    f"reserve {db.nodes + 1}",
                    f"join {i} 1 {db.nodes} 1",
                    f"join {i} 0 {i} 1",
                    "leaf 0",
                    f"value {i} {'1' * self.rng.randrange(db.F - 1)}".rstrip(),
                )
            )
        )

    def last(self):
        """What parts the two tables: always the last line of a plan."""
        r, db = self.rng, self.db
        i = self.node()
        ends = [f"leaf {db.F}", f"leaf {-db.F - 3}", "leaf -2147483648"]
        if db.count(i):
            ends += [f"join {i} 65536 {i} 1", f"join {i} 1 {i} 4294967296"]
        if not any(db.words[8 * k] == GENERAL for k in range(db.nodes)):
            ends += [f"join {i} 2 {i} 2"] * 3
        if max(db.values(i), default=0) * 65536 > paper.KEY:
            ends += [f"join {i} 1 {i} 65535"] * 2
        self.say(r.choice(ends))

    def make(self):
        r = self.rng
        inputs = r.randint(1, 7)
        self.say(f"fresh {inputs + 1} {inputs + r.choice((6, 12, 90, 90))}")
        steps = [self.leaf] * 3 + [self.join] * 5 + [self.count] * (3 if self.weights else 7) + [self.sum] * (6 if self.weights else 1)
        steps += [self.again, self.value, self.upkeep, self.odd]
        for _ in range(r.randint(1, 3)):
            self.leaf()
        if r.random() < 0.5:
            self.say("dummy")
        for _ in range(r.randint(8, 20)):
            if self.db.nodes < 2:
                self.leaf()
            r.choice(steps)()
        if r.random() < 0.35:
            self.say("dump")
        if r.random() < 0.2:
            self.last()
        return self.lines


CHAIN = ["fresh 2 99", "leaf 1", "dummy", "join 0 1 1 1"] + [f"join {k} 1 1 1" for k in range(2, 64)]  # the last, 64, has depth 64


def paper_cases():
    """"Sums at the counter": P1 to P8 and the ones that run as programs."""
    two = ["fresh 3 9", "leaf 1", "leaf 2", "join 0 1 1 1"]
    three = ["leaf 1", "leaf 2", "leaf 3", "join 0 1 1 1", "join 3 1 2 1"]
    p3 = "count 4 1 if -> 0 6 | -2 4 0 -1 4 0 -1 -2 5 0 -4 -3 6 0 -5 6 0 |"
    yield two + ["count 2 0 both -> 0 3 | -2 3 0 -1 3 0 1 2 -3 0 |", "count 2 1 both -> 0 4 | -1 -2 4 0 1 -4 0 2 -4 0 |", "count 2 0 both -> 0 3 | |", "dump"]
    yield two + ["count 2 0 if", "count 2 0 both -> 0 3 | 1 2 -3 0 |"]
    yield ["fresh 4 9"] + three + [p3, "dump"]
    yield ["rows 40 3 5 5 5 16 5 5", "fresh 4 9"] + three + ["count 4 1 if -> 13"]
    yield ["rows 40 3 5 5 5 17 5 5", "fresh 4 9"] + three + [p3, "dump"]
    yield ["rows 40 3 5 5 5 16 5 5", "fresh 4 5"] + three + ["count 4 1 if -> 12"]
    yield ["fresh 3 9", "leaf 1", "leaf 2", "join 0 3 1 2", "sum 2 5 -> 0 3 | -1 -2 3 0 |", "sum 2 3 -> 0 4 | -1 4 0 |", "sum 2 4 -> 1", "dump -> 0 0 leaf 1 ; 1 leaf 2 ; 2 general 0 3 1 2 depth 2 cells 2:0:0 3:4:1 5:3:1"]
    yield ["fresh 2 9", "dummy", "leaf 1", "join 0 1 1 1", "count 2 0 both -> 0 2 | -1 2 0 1 -2 0 |", "dump"]
    yield ["fresh 2 9", "leaf 1", "join 0 1 0 1", "count 1 1 if -> 0 2 | -1 -1 2 0 |"]
    yield ["fresh 3 9", "leaf 1", "leaf 2", "join 0 2 1 2 -> 7"]
    yield ["fresh 1 9", "dummy", "join 0 2 0 3 -> 8"]
    yield ["fresh 3 9", "leaf 1", "leaf 2", "join 0 65535 1 1", "dump"]
    yield ["fresh 3 9", "leaf 1", "leaf 2", "join 0 65536 1 1 -> 7"]
    yield CHAIN + ["count 64 0 both", "join 64 1 1 1 -> 10"]


def larger():
    """A few larger sites."""
    lines = ["fresh 33 999"] + [f"leaf {v if v % 5 else -v}" for v in range(1, 33)]
    level, made = list(range(32)), 32
    while len(level) > 1:
        lines += [f"join {level[k]} 1 {level[k + 1]} 1" for k in range(0, len(level), 2)]
        level = list(range(made, made + len(level) // 2))
        made += len(level)
    yield lines + [f"count {made - 1} {i} {d}" for i, d in ((0, "if"), (1, "both"), (3, "onlyif"), (3, "if"), (31, "both"), (16, "if"))] + ["dump"]
    lines = ["fresh 13 9999"] + [f"leaf {v}" for v in range(1, 13)]
    level, made = list(range(12)), 12
    while len(level) > 1:
        pairs = list(zip(level[::2], level[1::2]))
        rest = level[2 * len(pairs):]
        lines += [f"join {a} {1 + a % 2} {b} {3 + b % 2}" for a, b in pairs]
        level = list(range(made, made + len(pairs))) + rest
        made += len(pairs)
    yield lines + [f"sum {made - 1} {v}" for v in (40, 41, 17, 90)] + [f"reserve {made - 1}", "reset", f"sum {made - 1} 40"]
    # a shared child under a tower
    yield ["fresh 2 999", "leaf 1"] + [f"join {k} 1 {k} 1" for k in range(5)] + ["count 5 7 both", "reserve 5", "count 5 31 if", "reset", "count 5 7 if", "dump"]
    # the node limit: 4,096 leaves, and one more; there is room for it in the rows
    yield ["fresh 5000 9999"] + [f"leaf {v}" for v in range(1, 4097)] + ["leaf 4096 -> 0 4095", "leaf 4097 -> 11"]
    # the cell limit: 16,382 cells, 2 more, and one more; there is room for it in the rows
    yield ["fresh 3 99999", "leaf 1"] + [f"join {k} 1 {k} 1" for k in range(13)] + ["leaf 2", "join 0 1 14 1", "dummy", "join 0 1 16 1 -> 11"]


SEMANTICS = ("if", "onlyif", "both")


def shapes(items):
    """Every binary tree over these items, in this order."""
    if len(items) == 1:
        yield items[0]
    for k in range(1, len(items)):
        for a in shapes(items[:k]):
            for b in shapes(items[k:]):
                yield (a, b)


def trees():
    """Every tree over 1 to 3 leaves, and every one over these with a dummy at any place; leaves in ascending order."""
    for n in (1, 2, 3):
        leaves = list(range(n))
        for items in [leaves] + [leaves[:k] + ["d"] + leaves[k:] for k in range(n + 1)]:
            for t in shapes(items):
                yield n, "d" in items, t


def orders(n):
    """The demands of a tree with n outputs, in all orders, repeats too: of length 3, which has those of length 1 and 2 as its beginnings."""
    asked = [(i, d) for i in range(n) for d in SEMANTICS]
    return itertools.product(asked, repeat=3)


def exhaustive():
    """Each tree many times in one table, each time with other demands, so that a plan is short."""
    lines, ids = [], {}
    for n, _, t in trees():
        for demands in orders(n):
            if not lines or made > 90:
                if lines:
                    yield lines
                lines = ["fresh 4 9999", "leaf 1", "leaf 2", "leaf 3", "dummy"]
                ids, made = {0: 0, 1: 1, 2: 2, "d": 3}, 4

            def build(x):
                nonlocal made
                if not isinstance(x, tuple):
                    return ids[x]
                a, b = build(x[0]), build(x[1])
                lines.append(f"join {a} 1 {b} 1")
                made += 1
                return made - 1

            root = build(t)
            lines += [f"count {root} {i} {d}" for i, d in demands]
    yield lines


def weighted_exhaustive():
    """Every tree of up to 3 leaves with multipliers 1 to 3 that 01 accepts, each value, ascending or descending."""
    lines, made = [], 0
    for n, padded, t in trees():
        if padded or n == 1:
            continue
        inner = 2 * (n - 1)
        for muls in itertools.product((1, 2, 3), repeat=inner):
            if not lines or made > 90:
                if lines:
                    yield lines
                db = paper.Db()
                lines, made = ["fresh 4 9999", "leaf 1", "leaf 2", "leaf 3"], 3
                for x in lines:
                    paper.answer(db, x)
            use = iter(muls)
            fine = True

            def build(x):
                nonlocal made, fine
                if not isinstance(x, tuple):
                    return x
                a, b = build(x[0]), build(x[1])
                m, k = next(use), next(use)
                general = GENERAL in (db.words[8 * a], db.words[8 * b])
                if not fine or (m == k and m > 1 and not general):
                    fine = False
                    return 0
                lines.append(f"join {a} {m} {b} {k}")
                paper.answer(db, lines[-1])
                made += 1
                return made - 1

            root = build(t)
            if fine:
                values = db.values(root)
                if sum(muls) % 2:
                    values = values[::-1]
                lines += [f"sum {root} {v}" for v in values]
    yield lines


def random_plans():
    rng = random.Random(SEED)
    for k in range(PLANS):
        yield Maker(rng, k % 2 == 1).make()


def smallest():
    """The smallest plan of each class of departures: docs/DIFFERENCES.md. Each class must be among them."""
    yield ["fresh 2 9", "leaf 1", "dummy", "join 0 1 1 1", "count 2 0 onlyif -> 0 2 | 1 -2 0 |", "dump", "count 2 0 if -> 0 2 | -1 2 0 |"]
    yield ["fresh 2 9", "leaf 1", "count 0 1 if -> 1"]
    yield ["fresh 2 9", "leaf 1", "join 0 1 0 1", "count 1 2 if -> 1", "dump"]
    yield ["fresh 1 9", "dummy", "count 0 0 if -> 1"]
    yield ["fresh 2 9", "leaf 1", "join 0 1 0 2", "count 1 0 if -> 5", "dump"]
    yield ["fresh 1 9", "dummy", "sum 0 1 -> 1"]
    yield ["fresh 2 9", "leaf 1", "join 0 1 0 2", "sum 1 4 -> 1", "sum 1 0 -> 1"]
    yield ["fresh 1 9", "dummy", "value 0 -> 0 0"]
    yield ["fresh 3 9", "leaf 1", "value 0 1 -> 14"]
    yield ["fresh 2 9", "leaf 1", "value 0 -> 14"]
    yield ["fresh 1 9"] + [f"{x} -> 4" for x in ("count 0 0 if", "sum 0 0", "reserve 0", "value 0", "join 0 1 0 1")]
    yield ["fresh 2 9", "leaf 1", "join 0 2 0 2 -> 7"]
    yield ["fresh 2 9", "leaf 1", "join 0 0 0 1 -> 7"]
    yield ["fresh 2 9", "leaf 1", "join 0 65536 0 1 -> 7"]
    yield ["fresh 1 9", "dummy", "join 0 1 0 2 -> 8"]
    yield ["fresh 2 9", "leaf 1", "join 0 65535 0 1", "join 1 65535 1 1 -> 9"]
    yield ["fresh 1 9", "dummy"] + [f"join {k} 1 0 1" for k in range(63)] + ["join 63 1 0 1 -> 10"]
    yield ["fresh 1 9", "leaf 0 -> 6"]
    yield ["fresh 1 9", "leaf 1 -> 6"]
    yield ["fresh 1 9", "leaf -2147483648 -> 6"]
    yield ["rows 0 0 0 0 0 0 0 0", "fresh 1 9", "dummy -> 11"]
    yield ["fresh 2 1", "leaf 1", "join 0 1 0 1", "count 1 0 if -> 12"]
    yield ["fresh 2 1", "leaf 1", "join 0 1 0 1", "reserve 1 -> 12"]
    yield ["rows 16 1 2 2 2 2 2 2", "fresh 2 9", "leaf 1", "join 0 1 0 1", "count 1 0 if -> 13"]


# ---- what document 01 alone answers: bad tables, refusals that the Rust does not have, bad lines

KIND, LEFT, LMUL, RIGHT, RMUL, FIRST, COUNT, DEPTH = range(8)


def word(node, k, value):
    return f"poke words {8 * node + k} {value}"


def node(i, *words):
    """A node by hand, as one text."""
    return "; ".join(word(i, k, v) for k, v in enumerate(words))


def keys(first, *values):
    return "; ".join(f"poke keys {first + k} {v}" for k, v in enumerate(values))


# Nothing stands on the leaf 3 and on the nodes 8 to 11, so that a change there breaks nothing above it.
GOOD = [
    "rows 104 5 24 24 24 200 24 24",
    "fresh 6 60",
    "leaf 1",
    "leaf -2",
    "leaf 3",
    "leaf 4",
    "dummy -> 0 4",
    "join 0 1 1 1 -> 0 5",  # a unit: cells 0 and 1
    "join 5 1 4 1 -> 0 6",  # over the dummy: 2 and 3
    "join 6 2 2 3 -> 0 7",  # general: 4 to 8
    "join 0 2 7 2 -> 0 8",  # over a general node, equal multipliers: 9 to 16
    "join 4 1 4 1 -> 0 9",  # without cells
    "join 0 3 1 2 -> 0 10",  # general: 17 to 19, keys 2, 3, 5
    "join 0 1 2 1 -> 0 11",  # a unit: 20 and 21
    "count 5 0 both",
    "sum 7 5",
    "count 6 1 if",
    "sum 10 5",
    "count 11 0 both -> 0 12",  # the last variable that is taken
]
# On a bad table each of these is 2, whatever else would refuse it or find that it is done: 4, 6, 14, no such output, an equal literal, the dummy.
CALLS = ["check", "leaf 5", "leaf 1", "leaf 0", "dummy", "join 0 1 1 1", "join 0 1 99 1", "count 5 1 both", "count 99 0 if", "sum 7 5", "sum 7 1", "reserve 8", "reset", "clear", "value 7 11111", "value 7"]


def bad_table(table, rules, pokes, twins):
    """A plan: the table with the pokes breaks exactly these rules, so that every call is 2 and changes nothing; put back, it is good. Before that the
    twins, which pass."""
    db, plan = paper.Db(), table + ["check", f"# {', '.join(sorted(rules))}"]
    for line in plan:
        paper.answer(db, asked(line)[0])

    def dump():
        """Of the two large tables none."""
        text = db.dump()
        return [f"dump -> 0 {text} |"] if len(text) < 10000 else []

    for lines, broken in [(twin, set()) for twin in twins] + [(pokes, rules)]:
        lines, undo, good = lines.split("; "), [], dump()
        for line in lines:
            *what, _ = line.split()
            now = getattr(db, what[1])[int(what[2])] if what[0] == "poke" else getattr(db, "len" if what[1] == "length" else what[1])
            undo.insert(0, f"{' '.join(what)} {now}")
            paper.answer(db, line)
        if db.faults() != broken:
            sys.exit(f"{'; '.join(lines)}\n  breaks {sorted(db.faults())}\n  and is meant for {sorted(broken)}")
        plan = plan + lines + (dump() + [f"{x} -> 2" for x in CALLS] + dump() if broken else ["check"]) + undo + ["check"] + good
        for line in undo:
            paper.answer(db, line)
    return plan


def bad_tables():
    """For each rule of the table check a table that breaks it and nothing else, and where there is one the neighbour that passes. tools/paper.py has
    the rules and names those that a table breaks: none may be without such a table."""
    plans, alone = [], set()

    def bad(rules, pokes, *twins, table=GOOD):
        rules = {rules} if isinstance(rules, str) else set(rules)
        alone.update(rules if len(rules) == 1 else ())
        plans.append(bad_table(table, rules, pokes, twins))

    # counters and rows
    bad("nodes inside the row", "set nodes 14")
    bad("nodes inside the row", f"set nodes {2**64 - 1}")
    bad("nodes inside the row", f"{node(1, 0, 0, 0, 0, 0, 1, 0)}; poke inputs 1 2; set nodes 2; set ins 2", table=["rows 15 2 1 1 1 9 2 2", "fresh 3 9", "leaf 1"])
    bad("inputs inside the row", "set ins 6")
    bad("inputs inside the row", f"set ins {2**64 - 1}")
    for k, row in enumerate(("key", "literal", "mark")):
        lengths = " ".join("1" if k == j else "2" for j in range(3))
        bad(f"cells inside the {row} row", f"{node(1, 1, 0, 1, 0, 1, 0, 2, 2)}; {keys(0, 1) if k == 0 else keys(0, 1, 2)}; set nodes 2; set cells 2", table=[f"rows 16 1 {lengths} 9 2 2", "fresh 2 9", "leaf 1"])
    bad([f"cells inside the {row} row" for row in ("key", "literal", "mark")], f"set cells {2**64 - 1}")
    bad("clause words inside the row", "set length 201", "set length 200")
    bad("clause words inside the row", f"set length {2**64 - 1}")
    units = ["fresh 1 9", "dummy"] + ["join 0 1 0 1"] * 4095
    bad("nodes within the limit", f"{node(4096, 1, 0, 1, 0, 1, 0, 0, 2)}; set nodes 4097", table=units)
    tower = ["fresh 3 9", "leaf 1"] + [f"join {k} 1 {k} 1" for k in range(13)] + ["leaf 2", "join 0 1 14 1", "dummy"]
    bad("cells within the limit", f"{node(17, 1, 0, 1, 16, 1, 16384, 1, 2)}; {keys(16384, 1)}; set nodes 18; set cells 16385", table=tower)
    bad("1 <= F", "set F 0", "set F 1", table=["fresh 1 9", "dummy", "join 0 1 0 1"])
    bad("F <= next", "set next 2", "set next 3", table=["fresh 3 9", "leaf 1"])
    bad("next <= last + 1", "set last 11", "set last 12")
    bad("last within the limit", "set last 2147483648", "set last 2147483647")
    bad("last within the limit", f"set last {2**64 - 1}")
    # inputs and cells: cell 20 has a literal and is marked, cell 21 has none, cell 19 is a general node's
    bad("an input literal is not 0", "poke inputs 3 0", "poke inputs 3 1")
    for x, low in ((6, 5), (-6, -5), (2147483647, 5), (-2147483648, -5)):
        bad("an input variable is below F", f"poke inputs 3 {x}", f"poke inputs 3 {low}")
    for m in (4, 255):
        bad("a mark is at most 3", f"poke marks 20 {m}", "poke marks 20 0", "poke marks 20 1", "poke marks 20 2")
    for m in (2, 3):
        bad("a general node's mark is at most 1", f"poke marks 19 {m}", "poke marks 19 0")
    for m in (1, 2, 3):
        bad("a mark only where there is a literal", f"poke marks 21 {m}", f"poke lits 21 6; poke marks 21 {m}")
    bad("a mark only where there is a literal", "poke lits 20 0", "poke lits 20 0; poke marks 20 0")
    for x in (5, 1, -6, -1, -2147483648):
        bad("a cell literal is 0 or at least F", f"poke lits 21 {x}", "poke lits 21 6")
    for x in (13, 2147483647):
        bad("a cell literal is below next", f"poke lits 21 {x}", "poke lits 21 12", f"poke lits 21 {x}; set last 2147483647; set next {x + 1}")
    # leaves and dummies, word by word
    for k, name in ((LEFT, "left id"), (LMUL, "left multiplier"), (RIGHT, "right id"), (RMUL, "right multiplier"), (COUNT, "number of cells")):
        bad(f"a leaf has no {name}", word(3, k, 1))
        bad(f"a dummy has no {name}", word(4, k, 1))
    bad("a leaf's first is its place", word(3, FIRST, 4))
    bad("a leaf's first is its place", word(3, FIRST, 2))
    bad("a dummy's first is 0", word(4, FIRST, 1))
    for depth in (0, 2):
        bad("a leaf has depth 1", word(3, DEPTH, depth))
        bad("a dummy has depth 1", word(0, DEPTH, depth), table=["fresh 1 9", "dummy"])
    # .. and with the cell counted as well
    last = ["rows 24 2 3 3 3 9 3 3", "fresh 3 9", "leaf 1", "join 0 1 0 1"]
    bad(("a leaf has no number of cells", "as many cells as the nodes have"), f"{word(2, COUNT, 1)}; set cells 3", table=last + ["leaf 2"])
    bad(("a dummy has no number of cells", "as many cells as the nodes have"), f"{word(2, COUNT, 1)}; set cells 3", table=last + ["dummy"])
    # kinds
    for kind in (4, 2**32 - 1):
        bad("a kind is at most 3", word(11, KIND, kind))
        bad("a kind is at most 3", word(10, KIND, kind))
        bad("a kind is at most 3", f"{word(3, KIND, kind)}; set ins 3")
        bad("a kind is at most 3", word(4, KIND, kind))
    bad("as many inputs as leaves", word(0, KIND, DUMMY), f"{word(0, KIND, DUMMY)}; set ins 0", table=["fresh 2 9", "leaf 1"])
    bad("as many inputs as leaves", word(0, KIND, LEAF), f"{word(0, KIND, LEAF)}; poke inputs 0 1; set ins 1", table=["fresh 2 9", "dummy"])
    bad("equal multipliers only over a general child", f"poke marks 20 1; {word(11, KIND, GENERAL)}", "poke marks 20 1")
    bad(("a unit's left multiplier is 1", "a unit's right multiplier is 1", "a unit's cells are left count + right count", "a unit's keys are 1, 2, .."), word(10, KIND, UNIT))
    # totals
    bad("as many inputs as leaves", "set ins 3")
    bad("as many inputs as leaves", "poke inputs 4 1; set ins 5")
    bad("as many cells as the nodes have", "set cells 21")
    bad("as many cells as the nodes have", "set cells 23")
    bad("as many cells as the nodes have", "set nodes 11", "set nodes 11; set cells 20")
    bad(("a leaf's first is its place", "a leaf has depth 1", "as many inputs as leaves"), "set nodes 13", f"{node(12, 0, 0, 0, 0, 0, 4, 0, 1)}; poke inputs 4 5; set ins 5; set nodes 13")
    # inner nodes: the children, where the cells are, the depth
    bad("the left id is smaller", word(1, LEFT, 2), table=last + ["leaf 2"])
    bad("the right id is smaller", word(1, RIGHT, 2), table=last + ["leaf 2"])
    bad("the left id is smaller", word(11, LEFT, 2**32 - 1), word(11, LEFT, 3))
    bad("the right id is smaller", word(11, RIGHT, 2**32 - 1), word(11, RIGHT, 3))
    bad(("the left id is smaller", "depth is 1 + the larger"), word(9, LEFT, 9))
    bad(("the right id is smaller", "depth is 1 + the larger"), word(9, RIGHT, 9))
    for first in (0, 16, 18, 2**32 - 1):
        bad("cells follow without gaps", word(9, FIRST, first))
    bad("cells follow without gaps", word(11, FIRST, 0))
    bad("cells follow without gaps", f"{word(11, FIRST, 21)}; {keys(21, 1, 2)}")
    for i, depth in ((11, 2), (9, 2), (8, 5), (10, 2)):
        for d in (0, depth - 1, depth + 1):
            bad("depth is 1 + the larger", word(i, DEPTH, d))
    bad("depth within the limit", f"{node(65, 1, 64, 1, 1, 1, 63, 1, 65)}; {keys(63, 1)}; set nodes 66; set cells 64", f"{node(65, 1, 63, 1, 1, 1, 63, 1, 64)}; {keys(63, 1)}; set nodes 66; set cells 64", table=CHAIN)
    # units
    over = ["fresh 3 9", "leaf 1", "leaf 2", "dummy", "join 0 1 1 2"]
    bad("no child of a unit is general", word(4, KIND, UNIT), table=over + ["join 3 1 2 1"])
    bad("no child of a unit is general", word(4, KIND, UNIT), table=over + ["join 2 1 3 1"])
    for m in (0, 2):
        bad("a unit's left multiplier is 1", word(11, LMUL, m))
        bad("a unit's right multiplier is 1", word(11, RMUL, m))
    bad(("a unit's left multiplier is 1", "a unit's right multiplier is 1"), f"{word(11, LMUL, 2)}; {word(11, RMUL, 2)}")
    bad("a unit's cells are left count + right count", f"{word(11, COUNT, 1)}; set cells 21")
    bad("a unit's cells are left count + right count", f"{word(11, COUNT, 3)}; {keys(22, 3)}; set cells 23")
    bad(("a unit's cells are left count + right count", "as many cells as the nodes have"), f"{word(11, COUNT, 2**32 - 1)}; {keys(22, 3, 4)}")
    for at, key in ((20, 0), (20, 2), (21, 1), (21, 3)):
        bad("a unit's keys are 1, 2, ..", keys(at, key))
    # general nodes: 3 * leaf + 2 * leaf has the keys 2, 3, 5
    pair = ["fresh 3 9", "leaf 1", "leaf 2", "join 0 3 1 2"]
    two = f"{word(2, COUNT, 2)}; set cells 2"
    bad("a left multiplier is at least 1", f"{word(2, LMUL, 0)}; {keys(0, 0, 2)}; {two}", f"{word(2, LMUL, 1)}; {keys(0, 1, 2, 3)}", table=pair)
    bad("a right multiplier is at least 1", f"{word(2, RMUL, 0)}; {keys(0, 0, 3)}; {two}", f"{word(2, RMUL, 1)}; {keys(0, 1, 3, 4)}", table=pair)
    bad("a left multiplier within the limit", f"{word(2, LMUL, 65536)}; {keys(0, 2, 65536, 65538)}", f"{word(2, LMUL, 65535)}; {keys(0, 2, 65535, 65537)}", table=pair)
    bad("a right multiplier within the limit", f"{word(2, RMUL, 65536)}; {keys(0, 3, 65536, 65539)}", f"{word(2, RMUL, 65535)}; {keys(0, 3, 65535, 65538)}", table=pair)
    for m in (1, 2):
        bad("equal multipliers only over a general child", f"{word(2, LMUL, m)}; {word(2, RMUL, m)}; {keys(0, m, 2 * m)}; {two}", table=pair)
    bad("a general node has a key", f"{word(1, KIND, GENERAL)}; {word(1, RMUL, 2)}", table=["fresh 1 9", "dummy", "join 0 1 0 1"])
    bad("keys are L, R and all sums", two, table=pair)
    bad("keys are L, R and all sums", f"{word(2, COUNT, 4)}; {keys(3, 6)}; set cells 4", table=pair)
    bad(("keys are L, R and all sums", "a general node has a key"), f"{word(2, COUNT, 0)}; set cells 0", table=pair)
    bad("keys are L, R and all sums", word(10, LMUL, 4))
    bad("keys are L, R and all sums", word(8, RMUL, 3))
    for some in ((0, 3, 5), (1, 3, 5), (2, 2, 5), (2, 4, 5), (2, 3, 3), (2, 3, 4), (2, 3, 6), (3, 2, 5), (2, 5, 3)):
        bad("keys are L, R and all sums", keys(17, *some))
    bad("keys are L, R and all sums", f"{keys(9, 2, 4, 6, 8, 10, 12, 14, 15)}")
    # the key limit alone: 32769 * 65534 is 2147483646, and a leaf times 1 or times 2 comes on top. Each key is the sum that it must be
    top = ["fresh 4 9", "leaf 1", "leaf 2", "leaf 3", "join 0 65533 1 1", "join 3 32769 2 1"]
    bad("a key within the limit", f"{word(4, RMUL, 2)}; {keys(3, 2, 32769, 32771, 2147450877, 2147450879, 2147483646, 2147483648)}", keys(3, 1, 32769, 32770, 2147450877, 2147450878, 2147483646, 2147483647), table=top)
    if alone != set(paper.CHECKED):
        sys.exit(f"no table breaks these rules alone: {sorted(set(paper.CHECKED) - alone)}")
    return plans


def refusals():
    """Each number's edges, one short and just enough, and of two that hold the one that comes first."""
    # before the first `fresh` all counters are 0, so F is
    yield [f"{x} -> 2" for x in ("check", "leaf 1", "dummy", "join 0 1 0 1", "count 0 0 if", "sum 0 0", "reserve 0", "reset", "clear", "value 0")] + ["dump"]
    # 15
    most = 2**64 - 1
    for f, last, no in ((0, 9, 15), (1, 0, 0), (0, 0, 15), (2, 0, 15), (3, 2, 0), (4, 2, 15), (2147483648, 2147483647, 0), (1, 2147483647, 0), (1, 2147483648, 15), (2147483649, 2147483648, 15), (most, most, 15), (1, most, 15), (most, 0, 15)):
        yield ["fresh 2 5", "leaf 1", f"fresh {f} {last} -> {no}", "check", f"dump -> 0 {'0 leaf 1 ' if no else ''}|", f"dummy -> 0 {1 if no else 0}"]
    # 6 and the greatest variables
    yield ["fresh 2147483648 2147483647", "leaf 2147483647", "leaf -2147483647", "leaf -2147483648 -> 6", "join 0 1 1 1", "count 2 0 if -> 12", "value 0 1 -> 14", "dump"]
    yield ["fresh 3 2147483647", "leaf 1", "leaf 2", "join 0 1 1 1", "set next 2147483647", "count 2 1 if -> 0 2147483647", "check", "count 2 0 if -> 12", "count 2 1 both", "dump"]
    # leaf: 6 before 11, an equal literal before 11; dummy: one that is there before 11
    yield ["rows 8 1 1 1 1 1 1 1", "fresh 3 9", "leaf 3 -> 6", "leaf -3 -> 6", "leaf 2", "leaf 1 -> 11", "leaf -2 -> 11", "leaf 3 -> 6", "leaf 0 -> 6", "leaf 2 -> 0 0", "dummy -> 11", "dump"]
    yield ["rows 8 1 1 1 1 1 1 1", "fresh 3 9", "dummy", "dummy -> 0 0", "leaf 1 -> 11", "leaf 0 -> 6", "join 0 1 0 1 -> 11", "dump"]
    # 11: a row of 7 words holds no node, one of 15 holds one; a node row with room, and no room for the input
    yield ["rows 7 1 1 1 1 1 1 1", "fresh 3 9", "leaf 1 -> 11", "dummy -> 11", "check"]
    yield ["rows 15 2 1 1 1 1 1 1", "fresh 3 9", "leaf 1", "leaf 2 -> 11", "dummy -> 11", "check"]
    yield ["rows 16 0 1 1 1 1 9 9", "fresh 3 9", "leaf 1 -> 11", "dummy", "leaf 1 -> 11", "dummy -> 0 0"]
    yield ["rows 0 0 0 0 0 0 0 0", "fresh 1 0", "check", "leaf 1 -> 6", "dummy -> 11"] + [f"{x} -> 4" for x in ("join 0 1 0 1", "count 0 0 if", "sum 0 1", "reserve 0", "value 0")] + ["reset", "clear", "dump"]
    # 11 of join: each of the three cell rows one short and just enough, for a unit and for a general node; then a unit without cells
    for short in range(3):
        for n, no in ((4, 11), (5, 0)):
            row = " ".join(str(n if k == short else 9) for k in range(3))
            for join in ("join 2 1 0 1", "join 0 1 0 2"):
                yield [f"rows 64 4 {row} 9 9 9", "fresh 3 30", "leaf 1", "leaf 2", "join 0 1 1 1", f"{join} -> {no}"] + (["join 0 1 1 1"] if no else []) + ["join 0 1 1 1 -> 11", "dummy -> 0 4", "join 4 1 4 1 -> 0 5", "dump"]
    yield ["rows 32 4 9 9 9 9 9 9", "fresh 3 30", "leaf 1", "leaf 2", "join 0 1 1 1", "join 0 1 1 2", "join 0 1 1 1 -> 11", "join 0 1 1 2 -> 11", "dummy -> 11", "leaf -1 -> 11", "leaf 2 -> 0 1", "dump"]
    # 4, 7, 8 of join
    base = ["rows 80 4 40 40 40 200 40 40", "fresh 3 30", "leaf 1", "dummy", "leaf 2"]
    yield base + [f"join {a} {m} {b} {n} -> {no}" for a, m, b, n, no in ((3, 0, 0, 1, 4), (0, 0, 3, 1, 4), (most, 1, 0, 1, 4), (0, 1, most, 1, 4), (0, 0, 2, 1, 7), (0, 1, 2, 0, 7), (0, 65536, 2, 1, 7), (0, 1, 2, 65536, 7), (0, most, 2, 1, 7), (0, 2, 2, 2, 7), (0, 65535, 2, 65535, 7), (1, 2, 1, 2, 7), (1, 2, 1, 3, 8), (1, 1, 1, 1, 0), (3, 2, 3, 2, 7), (3, 1, 3, 2, 8))] + ["dump"]
    # 9 of join: 65536 * 32767 + 65535 is the limit; on either side
    yield base + ["join 0 65535 2 1", "join 3 32767 0 65535", "join 0 65535 3 32767", "join 3 32767 3 1 -> 9", "join 3 1 3 32767 -> 9", "join 1 5 3 32767", "join 1 5 3 32768 -> 9", "join 3 32768 1 5 -> 9", "join 4 1 1 1", "join 4 1 0 1 -> 9", "join 4 2 1 1 -> 9", "dump"]
    # join, which comes first. The node row is full, so that 11 holds of each; 64 has no value, 127 has one, 190 has large ones, all of depth 64
    deep = ["leaf 1", "dummy", "join 1 1 1 1"] + [f"join {k} 1 1 1" for k in range(2, 64)] + ["join 0 1 1 1"] + [f"join {k} 1 1 1" for k in range(65, 127)]
    deep += ["join 0 65535 0 1", "join 128 32767 1 1"] + [f"join {k} 1 1 1" for k in range(129, 190)]
    yield ["rows 1528 1 999 999 999 9 999 999", "fresh 2 9"] + deep + [f"join {a} {m} {b} {n} -> {no}" for a, m, b, n, no in ((191, 0, 191, 1, 4), (190, 65536, 190, 1, 7), (64, 2, 64, 2, 7), (127, 2, 127, 2, 7), (64, 1, 64, 2, 8), (190, 1, 190, 1, 9), (127, 1, 127, 1, 10), (190, 1, 1, 1, 10), (0, 1, 0, 1, 11), (0, 1, 0, 2, 11))]
    # 3: each row of the working area one short and just enough, by cells (6, and 5 nodes) and by nodes (5, and 2 cells); before 4 and 14. 2 before 3
    work = ["count 3 0 both", "sum 3 1", "reserve 3", "value 3 110", "count 99 0 if", "sum 99 0", "reserve 99", "value 99"]
    rest = ["reset", "clear", "check"]
    for more, need in (("join 3 1 3 1", 6), ("dummy", 5)):
        short = [f"{x} -> 3" for x in work] + rest
        enough = work[:4] + [f"{x} -> 4" for x in work[4:]] + rest
        t = [f"rows 80 4 16 16 16 200 {need} {need}", "fresh 4 30", "leaf 1", "leaf 2", "leaf 3", "join 0 1 1 1", more]
        t += [f"set work_int {need - 1}"] + short + [f"set work_int {need}", f"set work_byte {need - 1}"] + short + [f"set work_byte {need}"] + enough
        yield t + ["set work_int 0", "set F 0"] + [f"{x} -> 2" for x in work + rest]
    # count, sum and reserve: 4 before 5 and 1, 5 before 1, 1 before 12, 12 before 13. There is no variable, and 3 clause words; past the node count stand
    # the words of a general node
    t = ["rows 80 4 16 16 16 3 16 16", "fresh 3 2", "leaf 1", "leaf 2", "join 0 1 1 1", "join 0 1 1 2", word(4, KIND, GENERAL)]
    t += ["count 4 9 if -> 4", "sum 4 9 -> 4", "reserve 4 -> 4", "count 3 9 if -> 5", "count 3 0 if -> 5", "count 2 2 if -> 1", "sum 3 4 -> 1", "sum 2 3 -> 1", "sum 2 0 -> 1"]
    yield t + ["count 2 0 if -> 12", "sum 3 3 -> 12", "reserve 2 -> 12", "reserve 3 -> 12", "reserve 0", "set last 9", "count 2 0 if -> 13", "sum 3 3 -> 13", "count 0 0 both", "sum 1 1", "reserve 3"]
    # 12 and 13 at their edges. The unweighted run takes 3 variables and 17 words, the weighted one 2 and 8; reserve takes what is left of 5, and of 9
    for join, ask, taken, words, cells in ((("join 0 1 1 1", "join 3 1 2 1"), "count 4 1 if", 3, 17, 5), (("join 0 2 1 1", "join 3 1 2 3"), "sum 4 6", 2, 8, 9)):
        for room in (0, words - 1, words):
            for some in (0, taken - 1, taken, cells - 1, cells):
                no = 12 if some < taken else 13 if room < words else 0
                t = [f"rows 80 4 16 16 16 {room} 16 16", f"fresh 4 {3 + some}", "leaf 1", "leaf 2", "leaf 3", *join, f"{ask} -> {no}", "dump"]
                t += [f"reserve 4 -> {0 if some == cells else 12}", "dump", f"{ask} -> {no}", "reset", f"{ask} -> {no or 13}", "clear", f"{ask} -> {no}"]
                yield t + ["count 0 0 both", "dump"]
    # 14: shorter than F-1, a byte of the first F-1 that is not 0 or 1, and what lies past them; 4 comes before it
    yield ["fresh 4 9", "leaf 1", "leaf -2", "join 0 2 1 3"] + [f"value 2 {b} -> 14" for b in ("1", "11", "112", "119", "211", "121", "2110")] + ["value 2 -> 14", "value 3 -> 4", "value 3 112 -> 4"] + [f"value 2 {b} -> 0 {v}" for b, v in (("110", 2), ("1109", 2), ("0101111", 0), ("000", 3), ("111", 2), ("100", 5), ("010", 0))]
    yield ["fresh 1 0", "dummy", "value 0", "value 0 9", "value 1 -> 4"]
    # a done call leaves every entry past the new counts as it stood: at the end two nodes past the count show the cells and the input past theirs
    t = ["rows 48 3 5 5 5 40 6 6"] + [f"poke words {k} {77 + k}" for k in range(32)] + node(4, 1, 0, 1, 1, 1, 2, 3, 2).split("; ") + node(5, 0, 0, 0, 0, 0, 2, 0, 1).split("; ")
    t += [f"poke {row} {k} {sign * (base + k)}" for row, n, sign, base in (("inputs", 3, -1, 40), ("keys", 5, 1, 50), ("lits", 5, -1, 60), ("marks", 5, 1, 200)) for k in range(n)]
    t += ["fresh 3 9", "check", "leaf 1", "leaf 2", "join 0 1 1 1", "dummy", "count 2 0 both", "sum 2 2", "reserve 2", "value 2 11", "reset", "clear", "set nodes 6"]
    yield t + ["dump -> 0 0 leaf 1 ; 1 leaf 2 ; 2 unit 0 1 1 1 depth 2 cells 1:3:0 2:4:0 ; 3 dummy ; 4 unit 0 1 1 1 depth 2 cells 52:-62:202 53:-63:203 54:-64:204 ; 5 leaf -42 |"]
    # rows past the counters are never looked at
    yield ["rows 40 3 5 5 5 40 5 5", "fresh 3 9", "leaf 1", "leaf 2", "join 0 1 1 1", "poke marks 2 9", "poke lits 3 -7", "poke inputs 2 0", "poke words 24 9", "poke keys 4 7", "poke clauses 39 5", "check", "count 2 0 both", "dump"]
    # literals already there: taken from the row, not anew; two cells may share one
    yield ["rows 40 3 5 5 5 40 5 5", "fresh 3 9", "leaf 1", "leaf 2", "join 0 1 1 1", "set next 6", "poke lits 0 5", "count 2 0 if -> 0 5 | -2 5 0 -1 5 0 | 6", "poke lits 1 5", "count 2 1 both -> 0 5", "count 2 0 both -> 0 5 | 1 2 -5 0 |", "poke marks 0 2", "count 2 0 both -> 0 5 | -2 5 0 -1 5 0 |", "poke marks 1 0", "count 2 1 onlyif -> 0 5 | 1 -5 0 2 -5 0 |", "dump"]


def bad_lines():
    """Lines that cannot be read, which change nothing, and such as are just within what can be."""
    rows = [str(n) for n in paper.ROWS]
    yield ["fresh 3 9", "leaf 1", "", "# passed over", "#", "   ", " leaf   2  -> 0 1", "\tjoin 0\t1 1 1 -> 0 2"] + [
        f"{line} -> bad"
        for line in [
            "join 0 1 1",
            "join 0 1 1 1 1",
            "join",
            "joins 0 1 1 1",
            "Join 0 1 1 1",
            "leaf",
            "leaf 1 2",
            "leaf x",
            "leaf --1",
            "leaf -",
            "leaf +1",
            "leaf 1-",
            "leaf 2147483648",
            "leaf -2147483649",
            "leaf 4294967297",
            "leaf 18446744073709551617",
            "fresh 3",
            "fresh -3 9",
            "fresh 3 18446744073709551616",
            "fresh 3 99999999999999999999999999",
            "count 2 0",
            "count 2 0 If",
            "count 2 0 if both",
            "count 2 -1 if",
            "count 2 18446744073709551616 if",
            "sum 2",
            "sum 2 1 1",
            "reserve",
            "reserve 2 2",
            "reserve x",
            "reset 1",
            "reset if",
            "clear 0",
            "value",
            "value 2 1x",
            "value 2 -1",
            "value 2 11 11",
            "dummy 1",
            "check 1",
            "dump 1",
            "rows",
            "rows 1 2 3 4 5 6 7",
            *(" ".join(["rows"] + [str(int(n) + (j == k)) for j, n in enumerate(rows)]) for k in range(8)),
            "poke words 0",
            "poke word 0 0",
            f"poke words {rows[0]} 0",
            "poke words 18446744073709551615 0",
            "poke words 100 4294967296",
            "poke words 100 -1",
            "poke keys 100 4294967296",
            f"poke keys {rows[2]} 1",
            "poke inputs 4095 2147483648",
            f"poke inputs {rows[1]} 1",
            "poke lits 16383 -2147483649",
            f"poke lits {rows[3]} 1",
            "poke marks 16383 256",
            "poke marks 16383 -1",
            f"poke marks {rows[4]} 1",
            f"poke clauses {rows[5]} 1",
            "set",
            "set f 1",
            "set F",
            "set F -1",
            f"set work_int {int(rows[6]) + 1}",
            f"set work_byte {int(rows[7]) + 1}",
            "set last 18446744073709551616",
        ]
    ] + [
        "dump -> 0 0 leaf 1 ; 1 leaf 2 ; 2 unit 0 1 1 1 depth 2 cells 1:0:0 2:0:0 |",
        "leaf 01 -> 0 0",
        "leaf -01 -> 0 3",
        "leaf -0 -> 6",
        "leaf 2147483647 -> 6",
        "leaf -2147483648 -> 6",
        "fresh 3 18446744073709551615 -> 15",
        "fresh 0003 000000000000000000000000000000009",
        "leaf 1",
        "leaf 2",
        "join 0 1 1 1",
        "count 2 18446744073709551615 if -> 1",
        "count 18446744073709551615 0 if -> 4",
        "count 2 0 if",
        "sum 2 18446744073709551615 -> 1",
        "value 2 11 -> 0 2",
        "poke words 100 4294967295",
        f"poke words {paper.ROWS[0] - 1} 1",
        f"poke keys {paper.ROWS[2] - 1} 4294967295",
        f"poke inputs {paper.ROWS[1] - 1} -2147483648",
        f"poke lits {paper.ROWS[3] - 1} -2147483648",
        f"poke marks {paper.ROWS[4] - 1} 255",
        f"poke clauses {paper.ROWS[5] - 1} -2147483648",
        f"set work_int {rows[6]}",
        f"set work_byte {rows[7]}",
        "check",
        "dump",
        "rows " + " ".join(rows),
        "dump -> 0 |",
        "check -> 2",
        "fresh 1 0",
        "check",
    ]
    # lines as long as the program holds, and one byte longer
    zeros = "0" * (paper.LINE - 6)
    yield ["fresh 65001 65100", "leaf 65000", "leaf -64999", "join 0 2 1 3", "value 2 " + "1" * 65000 + " -> 0 2", f"leaf {zeros}1 -> 0 3", f"leaf 0{zeros}1 -> bad", "# " + "x" * 70000, "dump"]


# ---- the Rust's lines, and the rules


def oracle_lines(program, plans):
    """The Rust's lines, plan by plan; None for `rows`, which asks it nothing: its collector is told how many clause words there are."""
    text = []
    for plan in plans:
        text.append("fresh 1 9")
        text.append(f"room {plan[0].split()[6] if plan[0].startswith('rows') else paper.ROWS[5]}")
        text += [x for x in plan if not x.startswith("rows")]
    out = iter(subprocess.run([program], input="\n".join(text) + "\n", capture_output=True, text=True, check=True).stdout.split("\n"))
    for plan in plans:
        next(out), next(out)
        yield [None if line.startswith("rows") else next(out) for line in plan]


def parts(line):
    """A line of the oracle: the answer, the words, what follows."""
    said, rest = line.split(" |", 1)
    words, last = rest.rsplit("| ", 1)
    return said, words.split(), last


def turned(line):
    """A line of the oracle as one of `replay`'s; None where it has no such answer."""
    said, words, last = parts(line)
    if last.endswith(" over") or said in ("panic", "none", "oom", "bad"):
        return None
    said = "0 0" if said == "ok" else f"0 {said}".rstrip()
    return f"{said} |{''.join(' ' + w for w in words)} | {last}"


class Line:
    """What a rule looks at. A refused call changes nothing, and a done one that is in a class adds no node, so the table after the call serves."""

    def __init__(self, line, db, mine, twin, theirs):
        words = line.split()
        self.name, self.args, self.db = words[0], words[1:], db
        self.number = mine.split(" ", 1)[0]
        self.twin, self.theirs = twin, theirs
        self.said, clauses, last = parts(theirs)
        self.quiet = not clauses and last == mine.rsplit(" | ", 1)[1]
        self.over = last.endswith(" over")
        self.made = self.said == str(db.nodes)
        self.muls = [int(m) for m in self.args[1::2]] if self.name == "join" else []

    def kind(self):
        return self.db.words[8 * int(self.args[0])]

    def dummy_below(self):
        def walk(i):
            kind, left, _, right = self.db.node(i)[:4]
            return kind == DUMMY or (kind != LEAF and (walk(left) or walk(right)))

        return walk(int(self.args[0]))


# A rule: its name, whether the two tables part at such a line (then it is the plan's last), and when it applies. `quiet`: the
# Rust appends no word and takes no variable; `made`: it adds a node. Every line that differs must be in exactly one class.
RULES = [
    ("1 dummy path", False, lambda x: x.name in ("count", "sum") and x.number == "0" and turned(x.theirs) == x.twin),
    ("2 index past a leaf", False, lambda x: x.name == "count" and x.number == "1" and x.kind() == LEAF and x.said not in ("panic", "oom") and x.quiet),
    ("3 index past a unit, any index of a dummy", False, lambda x: x.name == "count" and x.number == "1" and x.kind() != LEAF and x.said == "panic" and x.quiet),
    ("4 unweighted demand on a general node", False, lambda x: x.name == "count" and x.number == "5" and x.said == "panic" and x.quiet),
    ("5 sum of what is no output", False, lambda x: x.name == "sum" and x.number == "1" and x.said == "none" and x.quiet),
    ("6 value over a dummy", False, lambda x: x.name == "value" and x.number == "0" and x.said == "panic" and x.quiet and x.dummy_below()),
    ("7 short assignment", False, lambda x: x.name == "value" and x.number == "14" and x.quiet),
    ("8 equal multipliers that are not 1", True, lambda x: x.number == "7" and x.muls[0] == x.muls[1] <= paper.MUL and x.made),
    ("9a multiplier 0", False, lambda x: x.number == "7" and 0 in x.muls and x.said == "panic" and x.quiet),
    ("9b multiplier above 65,535", True, lambda x: x.number == "7" and max(x.muls) > paper.MUL and x.made),
    ("9c general node without values", False, lambda x: x.number == "8" and x.said == "panic" and x.quiet),
    ("9d key above the limit", True, lambda x: x.number == "9" and x.made),
    ("9e depth above 64", True, lambda x: x.number == "10" and x.made),
    ("9f literal 0", False, lambda x: x.number == "6" and x.args == ["0"] and x.said == "panic" and x.quiet),
    ("9g literal not below F", True, lambda x: x.number == "6" and x.args != ["0"] and x.made),
    ("9h rows and limits", True, lambda x: x.number == "11" and x.made),
    ("9i variables run out", True, lambda x: x.number == "12" and x.over),
    ("10 clause row too short", True, lambda x: x.number == "13" and x.said == "oom"),
    ("15 node id not below the node count", False, lambda x: x.number == "4" and x.said == "panic" and x.quiet),
]


class Book:
    """The two files and the counts. One table goes through all plans, as it does in the program."""

    def __init__(self):
        self.db, self.twin = paper.Db(), Twin()
        self.text, self.lines, self.report = [], [], []
        self.lengths = paper.ROWS

    def write(self, line, want=""):
        """Document 01's line, which must begin as it was meant to, and that with the Rust's dummy path."""
        self.text.append(line)
        mine, twin = paper.answer(self.db, line), paper.answer(self.twin, line)
        if mine is not None:
            self.lines.append(mine)
            if not f"{mine} ".startswith(f"{want} ".lstrip()):
                sys.exit(f"{line}: meant to be answered {want}, and document 01 answers {mine}\n  after: {'; '.join(self.text[-12:-1])}")
        return mine, twin

    def begin(self, plan, counts):
        """A plan that begins with `fresh` has the program's own rows."""
        if not plan[0][0].startswith("rows") and self.lengths != paper.ROWS:
            self.write("rows " + " ".join(str(n) for n in paper.ROWS))
            counts["rows"] += 1
            self.lengths = paper.ROWS
        for line, _ in plan:
            if line.startswith("rows"):
                self.lengths = None

    def compare(self, name, plans, program, free):
        """Each line is accounted for: equal to the Rust's, or in a class."""
        counts = collections.Counter()
        plans = [[(line, "") if free else asked(line) for line in plan] for plan in plans]
        for plan, theirs in zip(plans, oracle_lines(program, [[line for line, _ in plan] for plan in plans])):
            self.begin(plan, counts)
            for at, ((line, want), got) in enumerate(zip(plan, theirs)):
                mine, twin = self.write(line, want)
                if got is None:
                    counts["rows"] += 1
                elif turned(got) == mine:
                    counts["agree"] += 1
                else:
                    x = Line(line, self.db, mine, twin, got)
                    found = [(rule, parted) for rule, parted, applies in RULES if applies(x)]
                    if len(found) != 1 or (found[0][1] and at + 1 < len(plan)):
                        sys.exit(f"{found or 'in no class'}: {line}\n  document 01: {mine}\n  the Rust:    {got}\n  plan: {'; '.join(x for x, _ in plan)}")
                    counts[found[0][0]] += 1
        self.report.append((name, len(plans), counts))
        return counts

    def alone(self, name, plans):
        counts = collections.Counter()
        for plan in [[asked(line) for line in plan] for plan in plans]:
            self.begin(plan, counts)
            for line, want in plan:
                if self.write(line, want)[0] is not None:
                    counts["document 01 alone"] += 1
        self.report.append((name, len(plans), counts))

    def tell(self):
        total = collections.Counter()
        for name, plans, counts in self.report:
            print(f"{name}: {plans} plans, {sum(counts.values())} lines")
            for key in sorted(counts, key=order):
                print(f"    {key}: {counts[key]}")
            total += counts
        print(f"in all: {sum(p for _, p, _ in self.report)} plans, {sum(total.values())} lines")
        for key in sorted(total, key=order):
            print(f"    {key}: {total[key]}")


def order(key):
    """Agreement first, then the classes by number."""
    head = key.split(" ", 1)[0]
    digits = "".join(ch for ch in head if ch.isdigit())
    return (int(digits) if digits else 0 if key == "agree" else 99, key)


COMPARED = [
    ("the paper's cases", paper_cases),
    ("the smallest plan of each class", smallest),
    ("larger sites and limits", larger),
    ("all trees of up to 3 leaves and a dummy", exhaustive),
    ("all weighted trees of up to 3 leaves", weighted_exhaustive),
    ("random plans", random_plans),
]
ALONE = [("bad tables", bad_tables), ("bad lines", bad_lines)]


def main():
    program, stdin, stdout = sys.argv[1:4]
    book = Book()
    # its first plan begins before any `rows` or `fresh`, so it comes first
    book.alone("refusals and limits", list(refusals()))
    for name, make in COMPARED:
        counts = book.compare(name, list(make()), program, make is random_plans)
        missing = [rule for rule, _, _ in RULES if not counts[rule]]
        if make is smallest and missing:
            sys.exit(f"no smallest plan shows {missing}")
    for name, make in ALONE:
        book.alone(name, list(make()))
    with open(stdin, "w") as f:
        f.write("\n".join(book.text) + "\n")
    with open(stdout, "w") as f:
        f.write("\n".join(book.lines) + "\n")
    book.tell()


if __name__ == "__main__":
    main()
