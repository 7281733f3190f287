#!/usr/bin/env python3
"""Whether all places that name a limit name the same one.

    limits.py [ROOT]

Reads the limits of the definitions (crates/paper/specs/Limits.antt) and compares with them the code, the C header, the Rust
binding, tools/paper.py, the bound of multipliers in crates/find, and sentences
that name a limit. Prints each place where the number differs or is not found, and exits with 1 if there is one.
"""
import os
import re
import sys

NAMES = ("node", "cell", "depth", "mul", "key", "var")
NUMBER = r"([0-9][0-9_,]*)"


def plain(text):
    return int(re.sub("[_,]", "", text))


def places(limit):
    """File, pattern, what its number must be. The pattern must be found, and each number that it finds must be this one."""
    code, header, binding = "crates/paper/src/lib.rt", "include/totdb.h", "bindings/rust/src/lib.rs"
    for name, long in zip(NAMES, ("NODE", "CELL", "DEPTH", "MULTIPLIER", "KEY", "VARIABLE")):
        yield code, rf"^pub const {name.upper()}_LIMIT: usize = {NUMBER};$", limit[name]
        yield header, rf"^#define TOTDB_{long}_LIMIT {NUMBER}$", limit[name]
    for name in ("node", "cell"):
        yield binding, rf"^pub const {name.upper()}_LIMIT: usize = {NUMBER};$", limit[name]
    yield code, rf"^pub const NODE_WORDS: usize = {NUMBER};$", limit["words"]
    yield header, rf"^#define TOTDB_NODE_WORDS {NUMBER}$", limit["words"]
    yield binding, rf"^const NODE_WORDS: usize = {NUMBER};$", limit["words"]
    # tools/paper.py: the six stand in one line, in this order
    for k, name in enumerate(NAMES):
        others = ["[0-9]+"] * 6
        others[k] = NUMBER
        yield "tools/paper.py", "^NODES, CELLS, DEPTH, MUL, KEY, LAST = " + ", ".join(others) + "$", limit[name]
    for file in (header, "bindings/rust/src/refusal.rs"):
        for pattern, want in sentences(limit):
            yield file, pattern, want


def sentences(limit):
    for text, want in ((r"multipliers? (?:outside |from )?1 to", limit["mul"]), (r"key (?:above|at most)", limit["key"]), (r"depth (?:above|at most)", limit["depth"]), (r"last \+ 1 (?:<=|≤)", limit["var"] + 1)):
        yield rf"(?i)\b{text} {NUMBER}", want


def powers(limit):
    """Bounds that stand as powers of two."""
    yield "crates/find/specs/Ways.antt", r"[lr]mul < 2 \^ ([0-9]+)", limit["mul"] + 1


def main():
    root = sys.argv[1] if len(sys.argv) > 1 else os.path.join(os.path.dirname(os.path.abspath(__file__)), "..")
    wrong, seen = [], 0

    def read(file):
        path = os.path.join(root, file)
        return open(path, encoding="utf-8").read() if os.path.exists(path) else None

    def check(file, pattern, want, turn=plain, must=True):
        nonlocal seen
        text = read(file)
        found = [] if text is None else [(turn(m.group(1)), text.count("\n", 0, m.start(1)) + 1) for m in re.finditer(pattern, text, re.M)]
        seen += len(found)
        if must and not found:
            wrong.append(f"{file}: {want} is not found ({'no such file' if text is None else pattern})")
        wrong.extend(f"{file}:{line}: {got}, and the definitions have {want}" for got, line in found if got != want)

    source = "crates/paper/specs/Limits.antt"
    found = dict(re.findall(r"^(\w+) = ([0-9]+)$", read(source) or "", re.M))
    missing = [name for name in [f"{n}_limit" for n in NAMES] + ["node_words"] if name not in found]
    if missing:
        sys.exit(f"{source}: {', '.join(missing)} not found")
    limit = {name: int(found[f"{name}_limit"]) for name in NAMES}
    limit["words"] = int(found["node_words"])
    for file, pattern, want in places(limit):
        check(file, pattern, want)
    for file, pattern, want in powers(limit):
        check(file, pattern, want, turn=lambda text: 2 ** int(text))
    # the papers need not name a limit
    for file in ("README.md", "docs/RULES.md"):
        for pattern, want in sentences(limit):
            check(file, pattern, want, must=False)
    print("\n".join(wrong) if wrong else f"limits: {seen} places agree with {source}")
    sys.exit(1 if wrong else 0)


if __name__ == "__main__":
    main()
