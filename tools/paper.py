#!/usr/bin/env python3
"""Document 01 as a plain interpreter, written from the document alone.

    paper.py [--beside] < PLAN > LINES

Reads the plan language of the program `replay`, one command a line, and answers what document 01 says, one line each:
`NUMBER ANSWER | WORDS | NEXT`. It shares no code with the proved crates and none with the Rust; tools/plans.py
compares its lines with those of the Rust, and `rt ci` compares them with those of `replay`.
"""
import sys

NODES, CELLS, DEPTH, MUL, KEY, LAST = 4096, 16384, 64, 65535, 2147483647, 2147483647
LEAF, UNIT, GENERAL, DUMMY = 0, 1, 2, 3
IF, ONLY = 1, 2
# the program's own rows: node words, inputs, keys, literals, marks, clause words, working area. They hold one node, input and
# cell more than the limits, so that a limit is reached before a row ends
ROWS = [8 * (NODES + 1), NODES + 1, CELLS + 1, CELLS + 1, CELLS + 1, 1048576, CELLS + 1, CELLS + 1]
# the longest line that the program holds; a longer one is `bad`, wherever it does not begin with #
LINE = 65536


class Refused(Exception):
    """One of document 01's numbers."""


class Bad(Exception):
    """A line that cannot be read."""


class Room:
    """What the plain run is run on: it counts, and is kept only where the call is done."""

    def __init__(self, db):
        self.db, self.next = db, db.next
        self.lits, self.marks, self.words = {}, {}, []

    def lit(self, cell):
        got = self.lits.get(cell)
        return self.db.lits[cell] if got is None else got

    def mark(self, cell):
        got = self.marks.get(cell)
        return self.db.marks[cell] if got is None else got

    def take(self, cell):
        """Take a literal, the next variable, if there is none."""
        if self.lit(cell) == 0:
            self.lits[cell] = self.next
            self.next += 1

    def add(self, *lits):
        self.words += [x for x in lits if x is not None]
        self.words.append(0)


class Seen:
    """A node as the table check sees it: its words, its children's, its keys, and how many leaves and cells come before it."""

    def __init__(self, db, i, leaves, cells):
        self.db, self.id, self.leaves, self.cells, self.words = db, i, leaves, cells, db.node(i)
        self.kind, self.left, self.lmul, self.right, self.rmul, self.first, self.count, self.depth = self.words
        if self.kind not in (LEAF, DUMMY):
            l, r = db.node(self.left), db.node(self.right)
            self.deeper, self.general = max(l[7], r[7]), GENERAL in (l[0], r[0])
            self.outputs = db.count(self.left) + db.count(self.right)
            self.keys, self.marks = (row[self.first:self.first + self.count] for row in (db.keys, db.marks))


# "The table check accepts exactly": each rule with its name. tools/plans.py has for each a table that breaks it alone.
IN_ROWS = [
    ("nodes inside the row", lambda t: t.nodes <= t.length["words"] // 8),
    ("inputs inside the row", lambda t: t.ins <= t.length["inputs"]),
    ("cells inside the key row", lambda t: t.cells <= t.length["keys"]),
    ("cells inside the literal row", lambda t: t.cells <= t.length["lits"]),
    ("cells inside the mark row", lambda t: t.cells <= t.length["marks"]),
    ("clause words inside the row", lambda t: t.len <= t.length["clauses"]),
]
OF_COUNTERS = [
    ("nodes within the limit", lambda t: t.nodes <= NODES),
    ("cells within the limit", lambda t: t.cells <= CELLS),
    ("1 <= F", lambda t: 1 <= t.F),
    ("F <= next", lambda t: t.F <= t.next),
    ("next <= last + 1", lambda t: t.next <= t.last + 1),
    ("last within the limit", lambda t: t.last <= LAST),
]
OF_INPUT = [
    ("an input literal is not 0", lambda t, x: x != 0),
    ("an input variable is below F", lambda t, x: abs(x) < t.F),
]
OF_CELL = [
    ("a mark is at most 3", lambda t, x, m: m <= 3),
    ("a mark only where there is a literal", lambda t, x, m: m == 0 or x != 0),
    ("a cell literal is 0 or at least F", lambda t, x, m: x == 0 or x >= t.F),
    ("a cell literal is below next", lambda t, x, m: x < t.next or x == 0),
]
OF_NODE = [
    ("a kind is at most 3", None, lambda n: n.kind <= 3),
    ("the left id is smaller", (UNIT, GENERAL), lambda n: n.left < n.id),
    ("the right id is smaller", (UNIT, GENERAL), lambda n: n.right < n.id),
    ("cells follow without gaps", (UNIT, GENERAL), lambda n: n.first == n.cells),
    ("depth is 1 + the larger", (UNIT, GENERAL), lambda n: n.depth == 1 + n.deeper),
    ("depth within the limit", (UNIT, GENERAL), lambda n: n.depth <= DEPTH),
    ("no child of a unit is general", (UNIT,), lambda n: not n.general),
    ("a unit's left multiplier is 1", (UNIT,), lambda n: n.lmul == 1),
    ("a unit's right multiplier is 1", (UNIT,), lambda n: n.rmul == 1),
    ("a unit's cells are left count + right count", (UNIT,), lambda n: n.count == n.outputs),
    ("a unit's keys are 1, 2, ..", (UNIT,), lambda n: n.keys == list(range(1, len(n.keys) + 1))),
    ("a left multiplier is at least 1", (GENERAL,), lambda n: 1 <= n.lmul),
    ("a right multiplier is at least 1", (GENERAL,), lambda n: 1 <= n.rmul),
    ("a left multiplier within the limit", (GENERAL,), lambda n: n.lmul <= MUL),
    ("a right multiplier within the limit", (GENERAL,), lambda n: n.rmul <= MUL),
    ("equal multipliers only over a general child", (GENERAL,), lambda n: n.lmul != n.rmul or n.general),
    ("a general node has a key", (GENERAL,), lambda n: n.count >= 1),
    ("keys are L, R and all sums", (GENERAL,), lambda n: n.keys == n.db.sums(n.left, n.lmul, n.right, n.rmul)),
    ("a key within the limit", (GENERAL,), lambda n: max(n.keys, default=0) <= KEY),
    ("a general node's mark is at most 1", (GENERAL,), lambda n: max(n.marks, default=0) <= 1),
    ("a leaf's first is its place", (LEAF,), lambda n: n.first == n.leaves),
    ("a dummy's first is 0", (DUMMY,), lambda n: n.first == 0),
]
for k, name in ((1, "left id"), (2, "left multiplier"), (3, "right id"), (4, "right multiplier"), (6, "number of cells")):
    OF_NODE += [(f"a {kind} has no {name}", (n,), lambda n, k=k: n.words[k] == 0) for kind, n in (("leaf", LEAF), ("dummy", DUMMY))]
OF_NODE += [(f"a {kind} has depth 1", (n,), lambda n: n.depth == 1) for kind, n in (("leaf", LEAF), ("dummy", DUMMY))]
OF_TOTALS = [
    ("as many inputs as leaves", lambda t, leaves, cells: t.ins == leaves),
    ("as many cells as the nodes have", lambda t, leaves, cells: t.cells == cells),
]
CHECKED = [rule[0] for rule in IN_ROWS + OF_COUNTERS + OF_INPUT + OF_CELL + OF_NODE + OF_TOTALS]


class Db:
    def __init__(self, lengths=ROWS):
        self.rows(lengths)

    def rows(self, lengths):
        """Rows of these lengths, contents 0, counters all 0."""
        n, i, k, l, m, c, wi, wb = lengths
        self.length = dict(words=n, inputs=i, keys=k, lits=l, marks=m, clauses=c)
        self.words, self.inputs, self.keys, self.lits, self.marks = [0] * n, [0] * i, [0] * k, [0] * l, [0] * m
        self.clauses = {}
        self.work_int, self.work_byte = wi, wb
        self.F = self.next = self.last = 0
        self.nodes = self.ins = self.cells = self.len = 0
        self.known = None

    # ---- reading

    def node(self, i):
        """The eight words; past the row's end they read as 0."""
        return (self.words[8 * i:8 * i + 8] + [0] * 8)[:8]

    def count(self, i):
        """How many values the node has."""
        kind, _, _, _, _, _, n, _ = self.node(i)
        return 1 if kind == LEAF else 0 if kind == DUMMY else n

    def values(self, i):
        kind, _, _, _, _, first, n, _ = self.node(i)
        return [1] if kind == LEAF else [] if kind == DUMMY else self.keys[first:first + n]

    def literal(self, run, i, at):
        kind, _, _, _, _, first, _, _ = self.node(i)
        return self.inputs[first] if kind == LEAF else run.lit(first + at)

    # ---- the table check

    def check(self):
        """The table check. The calls keep a good table good; `poke` and `set` make it unknown."""
        if self.known is None:
            self.known = not self.faults()
        return self.known

    def faults(self):
        """The names of the rules that do not hold. Outside the rows there is nothing to look at."""
        broken = {name for name, holds in IN_ROWS if not holds(self)}
        if broken:
            return broken
        broken = {name for name, holds in OF_COUNTERS if not holds(self)}
        for x in self.inputs[:self.ins]:
            broken |= {name for name, holds in OF_INPUT if not holds(self, x)}
        for x, m in zip(self.lits[:self.cells], self.marks[:self.cells]):
            broken |= {name for name, holds in OF_CELL if not holds(self, x, m)}
        leaves = cells = 0
        for i in range(self.nodes):
            n = Seen(self, i, leaves, cells)
            broken |= {name for name, kinds, holds in OF_NODE if (kinds is None or n.kind in kinds) and not holds(n)}
            leaves += n.kind == LEAF
            cells += 0 if n.kind in (LEAF, DUMMY) else n.count
        return broken | {name for name, holds in OF_TOTALS if not holds(self, leaves, cells)}

    def sums(self, a, m, b, n):
        """L, R and all sums l + r, ascending, each once."""
        left = [m * x for x in self.values(a)]
        right = [n * x for x in self.values(b)]
        return sorted(set(left) | set(right) | {x + y for x in left for y in right})

    # ---- adding nodes

    def fresh(self, first, last):
        if not 1 <= first <= last + 1 <= LAST + 1:
            raise Refused(15)
        self.F = self.next = first
        self.last = last
        self.nodes = self.ins = self.cells = self.len = 0
        self.known = None
        return 0

    def leaf(self, x):
        self.table()
        if x == 0 or x == -2147483648 or abs(x) >= self.F:
            raise Refused(6)
        for i in range(self.nodes):
            if self.words[8 * i] == LEAF and self.inputs[self.words[8 * i + 5]] == x:
                return i
        if self.nodes >= min(NODES, self.length["words"] // 8) or self.ins >= self.length["inputs"]:
            raise Refused(11)
        self.inputs[self.ins] = x
        self.put([LEAF, 0, 0, 0, 0, self.ins, 0, 1])
        self.ins += 1
        return self.nodes - 1

    def dummy(self):
        self.table()
        for i in range(self.nodes):
            if self.words[8 * i] == DUMMY:
                return i
        if self.nodes >= min(NODES, self.length["words"] // 8):
            raise Refused(11)
        self.put([DUMMY, 0, 0, 0, 0, 0, 0, 1])
        return self.nodes - 1

    def put(self, node):
        self.words[8 * self.nodes:8 * self.nodes + 8] = node
        self.nodes += 1

    def join(self, a, m, b, n):
        self.table()
        if a >= self.nodes or b >= self.nodes:
            raise Refused(4)
        general = GENERAL in (self.words[8 * a], self.words[8 * b])
        if not (1 <= m <= MUL and 1 <= n <= MUL) or (m == n and m != 1 and not general):
            raise Refused(7)
        unit = m == n and not general
        count = self.count(a) + self.count(b)
        if not unit:
            if count == 0:
                raise Refused(8)
            if m * max(self.values(a), default=0) + n * max(self.values(b), default=0) > KEY:
                raise Refused(9)
        depth = 1 + max(self.words[8 * a + 7], self.words[8 * b + 7])
        if depth > DEPTH:
            raise Refused(10)
        room = min(CELLS, self.length["keys"], self.length["lits"], self.length["marks"]) - self.cells
        if self.nodes >= min(NODES, self.length["words"] // 8):
            raise Refused(11)
        if unit and count > room:
            raise Refused(11)
        keys = list(range(1, count + 1)) if unit else self.sums(a, m, b, n)
        if len(keys) > room:
            raise Refused(11)
        self.keys[self.cells:self.cells + len(keys)] = keys
        self.lits[self.cells:self.cells + len(keys)] = [0] * len(keys)
        self.marks[self.cells:self.cells + len(keys)] = [0] * len(keys)
        self.put([UNIT if unit else GENERAL, a, m, b, n, self.cells, len(keys), depth])
        self.cells += len(keys)
        return self.nodes - 1

    # ---- the plain run

    def table(self):
        if not self.check():
            raise Refused(2)

    def working(self):
        if min(self.work_int, self.work_byte) < max(self.cells, self.nodes):
            raise Refused(3)

    def there(self, node):
        if node >= self.nodes:
            raise Refused(4)

    def demand(self, run, node, i, want):
        """Unweighted: index i, a set of directions."""
        kind, left, _, right, _, first, _, _ = self.node(node)
        if kind == LEAF:
            return
        cell = first + i
        want &= ~run.mark(cell)
        if not want:
            return
        if DUMMY in (self.words[8 * left], self.words[8 * right]):
            child = right if self.words[8 * left] == DUMMY else left
            self.demand(run, child, i, want)
            run.take(cell)
            self.through(run, self.literal(run, child, i), run.lit(cell), want)
            run.marks[cell] = run.mark(cell) | want
            return
        a, b = self.count(left), self.count(right)
        low = range(i + 1 - min(b, i + 1), min(a, i + 1) + 1)
        high = range(i - min(b, i), min(a, i) + 1)
        if want & IF:
            for x in low:
                if x > 0:
                    self.demand(run, left, x - 1, IF)
            for y in sorted(i + 1 - x for x in low):
                if y > 0:
                    self.demand(run, right, y - 1, IF)
        if want & ONLY:
            for x in high:
                if x < a:
                    self.demand(run, left, x, ONLY)
            for y in sorted(i - x for x in high):
                if y < b:
                    self.demand(run, right, y, ONLY)
        run.take(cell)
        run.marks[cell] = run.mark(cell) | want
        o = run.lit(cell)
        if want & IF:
            for x in low:
                y = i + 1 - x
                run.add(-self.literal(run, left, x - 1) if x else None, -self.literal(run, right, y - 1) if y else None, o)
        if want & ONLY:
            for x in high:
                y = i - x
                run.add(self.literal(run, left, x) if x < a else None, self.literal(run, right, y) if y < b else None, -o)

    def through(self, run, c, o, want):
        """One child is the dummy: the other's output is handed on."""
        if want & IF:
            run.add(-c, o)
        if want & ONLY:
            run.add(c, -o)

    def weigh(self, run, node, at):
        """Weighted: the output at place `at` of the node's values."""
        kind, left, m, right, n, first, _, _ = self.node(node)
        if kind == LEAF:
            return
        if kind == UNIT:
            return self.demand(run, node, at, IF)
        cell = first + at
        if run.mark(cell) & IF:
            return
        run.take(cell)
        o, v = run.lit(cell), self.keys[cell]
        ls, rs = self.values(left), self.values(right)

        def share(values, mul, rest):
            return values.index(rest // mul) if rest % mul == 0 and rest // mul in values else None

        for x, lv in enumerate(ls):
            if m * lv < v:
                y = share(rs, n, v - m * lv)
                if y is not None:
                    self.weigh(run, right, y)
                    self.weigh(run, left, x)
                    run.add(-self.literal(run, left, x), -self.literal(run, right, y), o)
        for child, mul, values in ((left, m, ls), (right, n, rs)):
            x = share(values, mul, v)
            if x is not None:
                self.weigh(run, child, x)
                run.add(-self.literal(run, child, x), o)
        run.marks[cell] = run.mark(cell) | IF

    def settle(self, run):
        """12 and 13 from the whole run; a done run is kept."""
        if run.next > self.last + 1:
            raise Refused(12)
        if self.len + len(run.words) > self.length["clauses"]:
            raise Refused(13)
        for cell, x in run.lits.items():
            self.lits[cell] = x
        for cell, m in run.marks.items():
            self.marks[cell] = m
        for k, w in enumerate(run.words):
            self.clauses[self.len + k] = w
        self.len += len(run.words)
        self.next = run.next

    def unweighted(self, node, i, want):
        self.table()
        self.working()
        self.there(node)
        if self.words[8 * node] == GENERAL:
            raise Refused(5)
        if i >= self.count(node):
            raise Refused(1)
        run = Room(self)
        self.demand(run, node, i, want)
        self.settle(run)
        return self.literal(run, node, i)

    def weighted(self, node, v):
        self.table()
        self.working()
        self.there(node)
        values = self.values(node)
        if v not in values:
            raise Refused(1)
        at = values.index(v)
        run = Room(self)
        self.weigh(run, node, at)
        self.settle(run)
        return self.literal(run, node, at)

    # ---- upkeep

    def reserve(self, node):
        self.table()
        self.working()
        self.there(node)
        run = Room(self)
        seen = set()

        def walk(i):
            kind, left, _, right, _, first, n, _ = self.node(i)
            # a second walk over a node would find every cell given
            if kind in (LEAF, DUMMY) or i in seen:
                return
            seen.add(i)
            walk(left)
            walk(right)
            for cell in range(first, first + n):
                run.take(cell)

        walk(node)
        self.settle(run)
        return 0

    def reset(self):
        self.table()
        self.marks[:self.cells] = [0] * self.cells
        return 0

    def clear(self):
        self.table()
        self.len = 0
        return 0

    def value(self, node, bits):
        self.table()
        self.working()
        self.there(node)
        n = self.F - 1
        if len(bits) < n or any(b not in "01" for b in bits[:n]):
            raise Refused(14)
        worth = []
        for i in range(node + 1):
            kind, left, m, right, k, first, _, _ = self.node(i)
            if kind == LEAF:
                x = self.inputs[first]
                worth.append(int((bits[abs(x) - 1] == "1") == (x > 0)))
            else:
                worth.append(0 if kind == DUMMY else m * worth[left] + k * worth[right])
        return worth[node]

    # ---- for the plans

    def dump(self):
        """The nodes in use that lie in the row; of a table that fails the check, whatever can be read of them."""
        out = []
        for i in range(min(self.nodes, self.length["words"] // 8)):
            kind, left, m, right, n, first, count, depth = self.node(i)
            if kind == LEAF:
                out.append(f"{i} leaf {self.inputs[first] if first < self.length['inputs'] else 0}")
            elif kind == DUMMY:
                out.append(f"{i} dummy")
            else:
                name = {UNIT: "unit", GENERAL: "general"}.get(kind, "other")
                end = min(first + count, self.length["keys"], self.length["lits"], self.length["marks"])
                cells = "".join(f" {self.keys[j]}:{self.lits[j]}:{self.marks[j]}" for j in range(first, end))
                out.append(f"{i} {name} {left} {m} {right} {n} depth {depth} cells{cells}")
        return " ; ".join(out)

    def poke(self, row, index, value):
        if index >= self.length[row]:
            raise Bad
        getattr(self, row)[index] = value
        self.known = None

    def set(self, counter, value):
        if counter in ("work_int", "work_byte"):
            if value > ROWS[-1]:
                raise Bad
            setattr(self, counter, value)
            return
        setattr(self, "len" if counter == "length" else counter, value)
        self.known = None


def number(text, low=0, high=2**64 - 1):
    """A decimal number, with a minus sign where the type has one."""
    digits = text[1:] if low < 0 and text[:1] == "-" else text
    if not digits or any(c not in "0123456789" for c in digits):
        raise Bad
    value = int(digits.lstrip("0")[:25] or "0") * (-1 if digits != text else 1)
    if not low <= value <= high:
        raise Bad
    return value


def signed(text):
    return number(text, -2**31, 2**31 - 1)


WANT = dict(zip(("if", "onlyif", "both"), (IF, ONLY, IF | ONLY)))
COUNTERS = ("F", "next", "last", "nodes", "ins", "cells", "length", "work_int", "work_byte")
POKES = dict(
    words=(0, 2**32 - 1), inputs=(-2**31, 2**31 - 1), keys=(0, 2**32 - 1), lits=(-2**31, 2**31 - 1), marks=(0, 255), clauses=(-2**31, 2**31 - 1)
)


def call(db, words):
    """Carries out the command, and gives back what stands after the number."""
    name, args = words[0], words[1:]

    def usizes(n):
        if len(args) != n:
            raise Bad
        return [number(a) for a in args]

    if name == "fresh":
        return db.fresh(*usizes(2))
    if name == "leaf" and len(args) == 1:
        return db.leaf(signed(args[0]))
    if name == "dummy":
        return db.dummy(*usizes(0))
    if name == "join":
        return db.join(*usizes(4))
    if name == "count" and len(args) == 3 and args[2] in WANT:
        return db.unweighted(number(args[0]), number(args[1]), WANT[args[2]])
    if name == "sum":
        return db.weighted(*usizes(2))
    if name == "reserve":
        return db.reserve(*usizes(1))
    if name == "reset":
        return db.reset(*usizes(0))
    if name == "clear":
        return db.clear(*usizes(0))
    if name == "value" and len(args) in (1, 2):
        bits = args[1] if len(args) == 2 else ""
        if any(c not in "0123456789" for c in bits):
            raise Bad
        return db.value(number(args[0]), bits)
    if name == "check":
        usizes(0)
        db.table()
        return 0
    if name == "rows":
        lengths = usizes(8)
        if any(n > most for n, most in zip(lengths, ROWS)):
            raise Bad
        db.rows(lengths)
        return 0
    if name == "poke" and len(args) == 3 and args[0] in POKES:
        db.poke(args[0], number(args[1]), number(args[2], *POKES[args[0]]))
        return 0
    if name == "set" and len(args) == 2 and args[0] in COUNTERS:
        db.set(args[0], number(args[1]))
        return 0
    if name == "dump":
        usizes(0)
        return db.dump()
    raise Bad


def answer(db, line):
    """The line that `replay` writes for this one; None where it is passed over."""
    if line.startswith("#"):
        return None
    words = line.replace("\t", " ").replace("\r", " ").split(" ")
    words = [w for w in words if w]
    if not words and len(line) <= LINE:
        return None
    before = db.len
    try:
        if len(line) > LINE:
            raise Bad
        said = f"0 {call(db, words)}".rstrip()
    except Refused as r:
        said = f"{r.args[0]} 0"
    except Bad:
        said = "bad"
    if words and words[0] in ("set", "poke", "rows", "check", "dump"):
        before = db.len
    appended = "".join(f" {db.clauses[k]}" for k in range(before, db.len))
    return f"{said} |{appended} | {db.next}"


def main():
    """The answers; with --beside each behind its line, and the lines that are passed over too, as the program `cases` writes them."""
    beside = sys.argv[1:] == ["--beside"]
    lines = sys.stdin.buffer.read().decode("latin-1").split("\n")
    db = Db()
    # what follows the last end of a line is a line only if there is something
    for line in lines if lines[-1] else lines[:-1]:
        got = answer(db, line)
        if beside:
            got = line if got is None else f"{line} => {got}"
        if got is not None:
            sys.stdout.buffer.write((got + "\n").encode("latin-1"))


if __name__ == "__main__":
    main()
