#!/usr/bin/env python3
"""Brings this repository's own names to the spelling of today's Rattle: run once, after the toolchain's port.py.

usage: tools/respell.py [--list]      at the top of the repository; --list prints the names and writes nothing

Words are in snake case. A definition or lemma of specs/ or proofs/ (not of a function's own folder below proofs/, whose names
follow the goals) that is in camel case or has hyphens gets underscores: litAt is lit_at, words-length is words_length. Fields
and constructors too. Types and facts, which begin with a capital letter, stay. In src/ only clauses and ghost imports are
read, so functions, types, strings and comments of the code keep their text. must-fail/ and the pages are not read.
"""

import os
import re
import sys

NAME = r"[^\s:;(){}\[\].,⌜⌝\"«»◌]+"
DEFINES = re.compile(r"^\s*(?:(?:unfoldable|abbrev|pub|data|record|ruleset)\s+)*(" + NAME + r")(?: [({][^=]*)? : ")
CTOR = re.compile(r"^\s+(" + NAME + r") : ")
WORD = re.compile(NAME)
# what the rule alone would give a name that something else has, or that begins with a capital letter and is a value
OTHER = {
    "cell-lit": "cell_lit_is", "emit-both": "emit_both_is", "emit-if": "emit_if_is", "emit-only": "emit_only_is",
    "key-from": "key_from_finds", "key-at": "key_at_in", "node-limit": "node_limit_met", "cell-limit": "cell_limit_met",
    "node-words": "node_words_at", "plain-reserve": "plain_reserve_is", "plan-unit": "plan_unit_is", "table-ok": "table_passes",
    "work-ok": "work_passes", "left-if": "asked_left_if", "left-only": "asked_left_only", "right-if": "asked_right_if",
    "right-only": "asked_right_only", "non-neg": "not_negative", "noneIn": "nones_in", "rowIs": "row_equals",
    "takeAt": "take_lit_at", "walk-of": "walk_of_fits", "walk-ok": "walk_is_ok",
    "At-place": "at_place", "cellTest": "cell_test", "litTest": "lit_test", "keyTests": "key_tests", "newLit": "new_lit",
    "newCell": "new_cell", "newMark": "new_mark", "eN": "e_n",
}
STEPS = "fresh leaf dummy inner demand unweighted weighted reserve reset empty".split()
# names of one place that would have got another's
HERE = {
    "crates/upkeep/proofs/Sound.antt": {"left-only": "left_alone", "right-only": "right_alone"},
    "crates/facts/specs/Keeps.antt": {f"{x}{j}step": f"{x}_step_keeps" for j in "-_" for x in STEPS},
    "crates/sum/proofs/": {"taken_next": "taken_next_is"},
}


def snake(n):
    n = re.sub(r"([a-z0-9])([A-Z])", lambda m: m.group(1) + "_" + m.group(2).lower(), n)
    n = re.sub(r"([A-Z])([A-Z])(?=$|[^A-Za-z])", lambda m: m.group(1).lower() + m.group(2).lower(), n)
    return n.replace("-", "_")


def files(end):
    for folder, dirs, names in os.walk("crates"):
        dirs[:] = sorted(d for d in dirs if d != "out")
        for f in sorted(names):
            if f.endswith(end):
                yield os.path.join(folder, f)


def own(path):
    """A file whose names are the repository's: of specs/, or right in proofs/."""
    return path.split("/")[2] == "specs" or (path.split("/")[2] == "proofs" and len(path.split("/")) == 4)


def names():
    found = dict(OTHER)
    for p in files(".antt"):
        if not own(p):
            continue
        here = next((it for at, it in HERE.items() if p.startswith(at)), {})
        for line in open(p, encoding="utf-8"):
            if line.lstrip().startswith("--"):
                continue
            m = DEFINES.match(line)
            if not m:
                continue
            n = m.group(1)
            if n in here or n in OTHER:
                continue
            elif n[0].islower() and snake(n) != n:
                found[n] = snake(n)
    return found


def clauses(text):
    """Where the clauses and ghost imports of a .rt text stand: pairs of places."""
    out = [(m.start(), m.end()) for m in re.finditer(r"^ghost use [^;]*;", text, re.M)]
    for m in re.finditer(r"\b(?:requires|ensures|ghost)\*?(?: [a-z_0-9]+:?)? \{", text):
        deep, k = 1, m.end()
        while deep:
            deep += {"{": 1, "}": -1}.get(text[k], 0)
            k += 1
        out.append((m.end(), k - 1))
    return sorted(out)


def turned(text, new):
    return WORD.sub(lambda m: new.get(m.group(0), m.group(0)), text)


def turned_rt(text, new):
    out, at = [], 0
    for a, b in clauses(text):
        if a < at:
            continue
        out += [text[at:a], turned(text[a:b], new)]
        at = b
    return "".join(out) + text[at:]


def main():
    new = names()
    taken = {}
    for p in [*files(".antt"), *files(".rt")]:
        for w in WORD.findall(open(p, encoding="utf-8").read()):
            taken.setdefault(w, p)
    clash = sorted(f"{n} -> {to} (stands in {taken[to]})" for n, to in new.items() if to in taken)
    twice = {}
    for n, to in new.items():
        twice.setdefault(to, []).append(n)
    clash += sorted(f"{ns} -> {to}" for to, ns in twice.items() if len(ns) > 1)
    if "--list" in sys.argv:
        for n in sorted(new):
            print(n, new[n])
        print("\n".join(clash), file=sys.stderr)
        return
    for p in files(".antt"):
        text = open(p, encoding="utf-8").read()
        to = turned(text, new | next((it for at, it in HERE.items() if p.startswith(at)), {}))
        if to != text:
            open(p, "w", encoding="utf-8").write(to)
    for p in files(".rt"):
        text = open(p, encoding="utf-8").read()
        to = turned_rt(text, new)
        if to != text:
            open(p, "w", encoding="utf-8").write(to)


if __name__ == "__main__":
    main()
