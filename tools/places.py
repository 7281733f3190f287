#!/usr/bin/env python3
"""The places that docs/DESIGN-PASS.md counts, point by point, in crates/*/src.

    places.py [-l] [POINT..]        -l lists each place

It goes by text: a place that it finds may have its reason to stay, which the page names.
"""
import collections
import glob
import os
import re
import sys

ROOT = os.path.join(os.path.dirname(os.path.abspath(__file__)), "..")
FILES = sorted(glob.glob(os.path.join(ROOT, "crates/*/src/**/*.rt"), recursive=True))


def bare(text):
    """The text without comments and ghost lines; as many lines as before."""
    text = re.sub(r"//[^\n]*", "", text)
    return re.sub(r"ghost use [^;]*;", lambda m: "\n" * m.group(0).count("\n"), text)


TEXTS = {os.path.relpath(f, ROOT): open(f).read() for f in FILES}
BARE = {f: bare(t) for f, t in TEXTS.items()}


def line(text, at):
    return text.count("\n", 0, at) + 1


def found(pattern, flags=0):
    for f, t in BARE.items():
        for m in re.finditer(pattern, t, flags):
            yield f, line(t, m.start()), m.group(0).strip().split("\n")[0]


def block(t, at):
    """The text from the brace that follows `at` to the one that closes it."""
    i = t.index("{", at)
    d = 0
    for j in range(i, len(t)):
        d += {"{": 1, "}": -1}.get(t[j], 0)
        if d == 0:
            return t[i : j + 1]


def functions():
    """Each function: file, line, name, signature with its clauses, body."""
    for f, t in BARE.items():
        for m in re.finditer(r"\bfn (\w+)", t):
            # the body begins at the first brace that stands alone on its line, or ends the line of a signature without clauses
            b = re.compile(r"\{[ ]*\n").search(t, m.end())
            e = re.compile(r";[ ]*\n").search(t, m.end())
            if not b or (e and e.start() < b.start() and "(" in t[m.end() : e.start()] and "{" not in t[m.end() : e.start()]):
                continue
            yield f, line(t, m.start()), m.group(1), t[m.start() : b.start()], block(t, b.start())


def enums():
    for f, t in BARE.items():
        for m in re.finditer(r"\benum (\w+)", t):
            yield f, line(t, m.start()), m.group(1), re.findall(r"^\s+(\w+)(\([^)]*\))?,$", block(t, m.end()), re.M)


def one():
    """1a own enums of the shape of Option or Result"""
    for f, n, name, vs in enums():
        pay = [p for _, p in vs]
        if any(pay) and len(vs) <= 3 and any(p in ("", "(Refusal)") for p in pay) and len([p for p in pay if p not in ("", "(Refusal)")]) == 1:
            yield f, n, "enum " + name


def one_flag():
    """1b structs with a flag and a value beside it"""
    for f, t in BARE.items():
        for m in re.finditer(r"\bstruct (\w+)[^;{]*\{", t):
            fields = re.findall(r"(\w+): ([^,\n]+),", block(t, m.start()))
            if any(ty == "bool" for _, ty in fields) and any(ty != "bool" for _, ty in fields):
                yield f, line(t, m.start()), "struct " + m.group(1)


def one_kind():
    """1c numbers that stand for a kind"""
    yield from found(r"(\bkind|\bk) *(==|!=) *\d|\bkind: \d|^.*\bfit_plan\(\d.*$", re.M)


NAMES = re.compile(r"[A-Za-z_]\w*|\d+|\S")
TYPES = {"u8", "u32", "i32", "usize", "u64", "bool"}
KEEP = {"fn", "let", "mut", "while", "for", "in", "if", "else", "return", "match", "true", "false", "as"}


def shape(name, body):
    seen = {}
    out = []
    for w in NAMES.findall(body):
        if w in TYPES:
            out.append("T")
        elif re.match(r"\d|'|\"", w):
            out.append("N")
        elif w in KEEP or not re.match(r"\w", w):
            out.append(w)
        else:
            out.append("x%d" % seen.setdefault(w, len(seen)))
    return " ".join(out)


def two():
    """2 functions whose bodies differ only in names, types and constants"""
    groups = collections.defaultdict(list)
    for f, n, name, sig, body in functions():
        s = shape(name, body)
        if len(s.split()) >= 12 and "extern" not in sig and "/totdb_c/" not in f:
            groups[s].append((f, n, "fn " + name))
    for g in groups.values():
        if len(g) > 1:
            for p in g:
                yield p[0], p[1], p[2] + "  (%s)" % ", ".join(x[2][3:] for x in g)


def three():
    """3 loops that count by hand"""
    for f, t in BARE.items():
        for m in re.finditer(r"\bwhile [^{]*\{", t):
            if re.search(r"^\s*\w+ [+-]= 1;", block(t, m.start()), re.M):
                yield f, line(t, m.start()), m.group(0)


def four_copy():
    """4a structs built by naming, field by field, what another has under the same name"""
    for f, t in BARE.items():
        for m in re.finditer(r"\b([A-Z]\w+) \{\n", t):
            b = block(t, m.start())
            n = len(re.findall(r"^\s+(\w+): \w+\.\1,$", b, re.M))
            if n >= 3:
                yield f, line(t, m.start()), "%s, %d fields" % (m.group(1), n)


def four_convert():
    """4b conversions between own types, or between one and numbers, as functions"""
    yield from found(r"^(pub )?fn (number_of|semantics_of|counters_of|put_counters|want_of|node_of|words_of|wide|same_literal)\b.*$", re.M)


def four_print():
    """4c printing and reading of numbers and text by hand"""
    yield from found(r"\bio::(write_all|print_decimal|decimal|read_full)\(|\bput(_\w+)?\(out\b|\bcheck::same\(")


ROWS = ("nodes", "inputs", "keys", "lits", "marks")


def five():
    """5a functions that take three or more of the rows side by side"""
    for f, n, name, sig, body in functions():
        if "/totdb_c/" not in f and sum(bool(re.search(r"\b%s: &" % r, sig)) for r in ROWS) >= 3:
            yield f, n, "fn " + name


def facts(sig):
    for m in re.finditer(r"\b(requires|ensures)( \w+)? \{", sig):
        text = block(sig, m.start())[1:-1]
        depth, part = 0, ""
        parts = []
        for c in text.strip():
            depth += {"(": 1, ")": -1, "{": 1, "}": -1}.get(c, 0)
            if c == "×" and depth == 0:
                parts.append(part)
                part = ""
            else:
                part += c
        for p in parts + [part]:
            p = re.sub(r"\s+", " ", p).strip()
            while p.startswith("(") and p.endswith(")") and p.count("(") == p.count(")") and "(" not in p[1:-1].replace(")", "", 0)[:0] + "":
                inner = p[1:-1]
                d = 0
                if any((d := d + {"(": 1, ")": -1}.get(c, 0)) < 0 for c in inner):
                    break
                p = inner.strip()
            if m.group(1) == "requires" and len(p) > 3:
                yield p


def five_facts():
    """5b facts that three or more functions require, in the same words"""
    where = collections.defaultdict(set)
    for f, n, name, sig, body in functions():
        for p in facts(sig):
            where[p].add((f, n, name))
    for p, w in sorted(where.items(), key=lambda x: -len(x[1])):
        if len(w) >= 3:
            f, n, _ = sorted(w)[0]
            yield f, n, "%d functions: %s" % (len(w), p)


def six():
    """6 a buffer with its place or its length beside it"""
    yield from found(r"\bout: &mut \[u8\],\s*at: usize|\bline: &(mut )?\[u8\],\s*len: usize|\blits: \[i32; 3\],\s*pub len|\brow: &mut \[i32\],\s*at: usize")


def seven():
    """7 switches on what is to be run"""
    yield from found(r"\bmatch (which|what|asked|k|row) \{")


POINTS = {"1a": one, "1b": one_flag, "1c": one_kind, "2": two, "3": three, "4a": four_copy, "4b": four_convert, "4c": four_print, "5a": five, "5b": five_facts, "6": six, "7": seven}


def main(args):
    listed = "-l" in args
    asked = [a for a in args if a != "-l"] or list(POINTS)
    for p in asked:
        places = list(POINTS[p]())
        print("%4d  %s" % (len(places), POINTS[p].__doc__))
        for f, n, what in places if listed else []:
            print("        %s:%d  %s" % (f, n, what))


if __name__ == "__main__":
    main(sys.argv[1:])
