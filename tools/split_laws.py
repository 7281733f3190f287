#!/usr/bin/env python3
"""Moves theorems from specs/ to proofs/ in the crates of laws, run once: definitions stay, statements are unchanged.

usage: tools/split_laws.py CRATE..     at the top of the repository

A block of specs/X.antt that is a public definition (abbrev, unfoldable, data, record), or one that such a definition names,
stays; every other block goes to proofs/X.antt in the order in which it stood. The `use` lines of all crates follow.
"""

import os
import re
import sys

from respell import NAME, WORD, files

HEAD = re.compile(r"^((?:(?:unfoldable|abbrev|pub|data|record|ruleset)\s+)*)(" + NAME + r")")


class Block:
    def __init__(self, lines):
        self.lines = lines
        code = [l for l in lines if l.strip() and not l.startswith("--")]
        self.head = code[0] if code else ""
        self.module = self.head.startswith("module ")
        m = HEAD.match(self.head)
        self.words, self.name = (m.group(1).split(), m.group(2)) if m and not self.module else ([], None)
        self.names = set()
        if self.module:
            for l in code:
                m = re.match(r"\s+((?:(?:unfoldable|abbrev|pub|data|record|ruleset)\s+)*)(" + NAME + r")(?: [({].*)? :(?: |$)", l)
                if m:
                    self.names.add(m.group(2))
        elif self.name:
            self.names.add(self.name)
            if "data" in self.words:
                for l in code[1:]:
                    m = re.match(r"\s+(?:pub )?(" + NAME + r") : ", l)
                    if m:
                        self.names.add(m.group(1))
        self.definition = bool({"abbrev", "unfoldable", "data", "record"} & set(self.words)) and not self.module

    def text(self):
        return "\n".join(self.lines).strip("\n")

    def uses(self):
        return set(w for l in self.lines if not l.startswith("--") for w in WORD.findall(l.split("--")[0] if "--" in l else l))

    def publish(self):
        if self.module or "pub" in self.words:
            return
        at = self.lines.index(self.head)
        if self.head.startswith("abbrev "):
            self.lines[at] = "abbrev pub " + self.head[len("abbrev "):]
        elif self.head.startswith("unfoldable "):
            self.lines[at] = "unfoldable pub " + self.head[len("unfoldable "):]
        else:
            self.lines[at] = "pub " + self.head
        if {"record"} & set(self.words):
            self.lines = [re.sub(r"^  (" + NAME + r" : )", r"  pub \1", l) for l in self.lines]


def blocks(text):
    lines = text.split("\n")
    head, uses, at = [], [], 0
    while at < len(lines) and lines[at].startswith("--"):
        head.append(lines[at]); at += 1
    while at < len(lines) and (lines[at].startswith("use ") or not lines[at].strip()):
        if lines[at].strip():
            line = lines[at]
            while line.count("{") > line.count("}"):
                at += 1
                line += " " + lines[at].strip()
            uses.append(line)
        at += 1
    out, cur, seen = [], [], False
    for l in lines[at:]:
        starts = l and not l[0].isspace()
        if starts and seen and (l.startswith("--") or HEAD.match(l) or l.startswith("module ")):
            if l.startswith("--") or not continues(cur, l):
                out.append(cur); cur, seen = [], False
        cur.append(l)
        seen = seen or bool(l.strip()) and not l.startswith("--")
    if any(x.strip() for x in cur):
        out.append(cur)
    return head, uses, [Block(b) for b in out]


def continues(cur, line):
    """Whether a line at the margin goes on with the block: the `unfolding` line, or a clause of the function that it declares."""
    if line.startswith("unfolding "):
        return True
    head = next((l for l in cur if l.strip() and not l.startswith("--")), "")
    m, n = HEAD.match(head), HEAD.match(line)
    return bool(m and n and not n.group(1) and m.group(2) == n.group(2))


def main(crates):
    side = {}
    for c in crates:
        folder = f"crates/{c}/specs"
        os.makedirs(f"crates/{c}/proofs", exist_ok=True)
        for f in sorted(os.listdir(folder)):
            if f == "Lib.antt":
                continue
            name = f[: -len(".antt")]
            text = open(f"{folder}/{f}", encoding="utf-8").read()
            head, uses, bs = blocks(text)
            keep = {i for i, b in enumerate(bs) if b.definition and "pub" in b.words}
            grown = True
            while grown:
                grown = False
                need = set().union(*[bs[i].uses() for i in keep]) if keep else set()
                for i, b in enumerate(bs):
                    if i not in keep and not b.module and b.name in need:
                        keep.add(i); grown = True
            for i in keep:
                bs[i].publish()
            specs = [b for i, b in enumerate(bs) if i in keep]
            laws = [b for i, b in enumerate(bs) if i not in keep]
            for b in specs:
                for n in b.names:
                    side[c, name, n] = "specs"
            for b in laws:
                for n in b.names:
                    side.setdefault((c, name, n), "proofs")
            uses = [re.sub(r"\{ *(.*?),? *\}", lambda m: "{" + m.group(1) + "}", u) for u in uses]
            own = [f"use Rattle.{c}.specs.{name}.{{{', '.join(sorted(n for b in specs for n in b.names if b.name))}}}"] if specs else []
            os.remove(f"{folder}/{f}")
            if specs:
                open(f"{folder}/{f}", "w", encoding="utf-8").write("\n".join(head + uses) + "\n\n" + "\n\n".join(b.text() for b in specs) + "\n")
            if laws:
                open(f"crates/{c}/proofs/{f}", "w", encoding="utf-8").write("\n".join(head + uses + own) + "\n\n" + "\n\n".join(b.text() for b in laws) + "\n")
        order = re.findall(r"^pub mod (\w+)", open(f"{folder}/Lib.antt").read(), re.M)
        rest = [l for l in open(f"{folder}/Lib.antt").read().split("\n") if l.strip() and not l.startswith("pub mod ")]
        open(f"{folder}/Lib.antt", "w").write("\n".join(rest + [f"pub mod {m}" for m in order if os.path.exists(f"{folder}/{m}.antt")]) + "\n")
        lib = f"crates/{c}/proofs/Lib.antt"
        had = open(lib).read() if os.path.exists(lib) else ""
        open(lib, "w").write(had + "\n".join(f"pub mod {m}" for m in order if os.path.exists(f"crates/{c}/proofs/{m}.antt")) + "\n")
    places = "|".join(crates)
    group = re.compile(r"^(\s*(?:ghost )?)use Rattle\.(" + places + r")\.specs\.(\w+)\.\{([^}]*)\}(;?)", re.M)

    def split(m, path):
        out = {"specs": [], "proofs": []}
        for n in m.group(4).split(","):
            n = n.strip()
            if n:
                out[side.get((m.group(2), m.group(3), n.split(" as ")[0]), "specs")].append(n)
        if path.split("/")[2] == "specs":
            out["proofs"] = []
        return "\n".join(f"{m.group(1)}use Rattle.{m.group(2)}.{s}.{m.group(3)}.{{{', '.join(out[s])}}}{m.group(5)}" for s in ("specs", "proofs") if out[s])

    dotted = re.compile(r"Rattle\.(" + places + r")\.specs\.(\w+)\.(" + NAME + ")")
    whole = re.compile(r"^use Rattle\.(" + places + r")\.specs\.(\w+)( as \S+)?$", re.M)
    for p in [*files(".antt"), *files(".rt")]:
        text = open(p, encoding="utf-8").read()
        to = group.sub(lambda m: split(m, p), text)
        to = "\n".join(l if l.lstrip().startswith(("use ", "ghost use ")) else dotted.sub(lambda m: f"Rattle.{m.group(1)}.{side.get((m.group(1), m.group(2), m.group(3)), 'specs')}.{m.group(2)}.{m.group(3)}", l) for l in to.split("\n"))
        if to != text:
            open(p, "w", encoding="utf-8").write(to)
        for m in whole.finditer(to):
            print(f"look: {p}: {m.group(0)}")


if __name__ == "__main__":
    main(sys.argv[1:])
