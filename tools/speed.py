#!/usr/bin/env python3
"""What the benchmark programs take.

    speed.py [PROGRAM ..] [BENCH]

Times the programs crates/NAME/out/NAME (`rt run` in each one's folder makes them), all or those named, and BENCH, a
program that prints the Rust's own times for the demands of bench_count. A time is CPU time of the whole program for many
turns, less that for one turn, by the turn: starting up and making the table drop out. BENCH's own are wall time. All are run
in turn, ROUNDS times, and the least is taken. Compared, not timed: what bench_sum writes for each value, with the words and
clauses that tools/paper.py appends.
"""
import os
import re
import resource
import subprocess
import sys

HERE = os.path.dirname(os.path.abspath(__file__))
ROUNDS = 20
PLAN = """fresh 2 100000
leaf 1
join 0 1 0 2
join 1 1 0 4
join 2 1 0 8
join 3 1 0 16
join 4 1 4 32
join 4 1 4 32
join 5 1 6 1
join 5 1 1 341
sum 7 1024
sum 7 2
sum 7 512
sum 7 1023
sum 7 2046
sum 8 1200
"""
# what is timed: input, how often (1, 2, 3: 10, 100, 1000 turns), what it is
CASES = {
    "bench_count": [
        ("r", 3, "4,096 leaves: the rows cleared and checked, which is in each of the next four"),
        ("i", 1, "demands at index 0 to 63, If, in earnest"),
        ("I", 1, ".. dry"),
        ("b", 1, "both, in earnest"),
        ("B", 1, ".. dry"),
    ],
    "bench_sum": [("ta", 2, "table check, 6,194 cells")],
    "bench_table": [
        ("u", 3, "table check, 16,384 cells of units"),
        ("a", 2, "table check, general nodes, 4,602 cells"),
        ("b", 2, ".. 9,149 cells"),
        ("c", 1, "table check, general nodes with one leaf each, 4,082 cells"),
        ("d", 1, ".. 8,177 cells"),
        ("e", 2, "inner, the general node of the 4,602 cells"),
        ("f", 2, ".. of the 9,149 cells"),
    ],
}
VALUES = "3 clauses", "513 clauses", "1,024 clauses", "1 clause", "3 clauses, apart", "1,023 clauses and 2,102 below"
for letter, what in zip("abcdef", VALUES):
    CASES["bench_sum"] += [
        ("w" + letter, 2 if letter == "f" else 3, f"weighted demand, {what}: its recursion in earnest"),
        ("d" + letter, 2 if letter == "f" else 3, ".. dry"),
        ("p" + letter, 2, ".. the public call, with the table check"),
    ]


def run(program, text):
    """What a program writes, and its seconds."""
    before = resource.getrusage(resource.RUSAGE_CHILDREN)
    out = subprocess.run([os.path.join(HERE, "../crates", program, "out", program)], input=text, text=True, stdout=subprocess.PIPE, check=True)
    after = resource.getrusage(resource.RUSAGE_CHILDREN)
    return out.stdout, after.ru_utime + after.ru_stime - before.ru_utime - before.ru_stime


def same():
    """bench_sum's words and clauses are document 01's."""
    paper = subprocess.run([sys.executable, os.path.join(HERE, "paper.py")], input=PLAN, text=True, stdout=subprocess.PIPE, check=True)
    asked = zip(PLAN.splitlines(), paper.stdout.splitlines())
    words = [(ask.split()[2], line.split("|")[1].split()) for ask, line in asked if ask.startswith("sum")]
    want = [f"value {v}: words {len(w)}, clauses {w.count('0')}" for v, w in words]
    got = [line for line in run("bench_sum", "**0")[0].splitlines() if line.startswith("value")]
    assert sorted(got) == sorted(want), (got, want)
    print("bench_sum writes what tools/paper.py appends:", *got, sep="\n  ", flush=True)


def rust(bench):
    """The Rust's own milliseconds, from the first six lines: for each kind of demand, clauses as words and as the Rust's own."""
    program = subprocess.Popen([bench, "1"], stdout=subprocess.PIPE, text=True)
    lines = [program.stdout.readline() for _ in range(6)]
    program.kill()
    program.wait()
    for k in 0, 3:
        name = lines[k].split(":")[0]
        for line in lines[k + 1 : k + 3]:
            kind, ms = re.match(r" *(.*?): *demands best ([0-9.]+) ms", line).groups()
            yield f"the Rust's own, {name}, {kind}", float(ms)


def times(program, benches):
    cases, once, often, own = CASES[program], {}, {}, {}
    for _ in range(ROUNDS):
        for text, digit, _ in cases:
            once[text] = min(once.get(text, 1e9), run(program, text + "0")[1])
            often[text] = min(often.get(text, 1e9), run(program, text + str(digit))[1])
        for bench in benches:
            for name, ms in rust(bench):
                own[name] = min(own.get(name, 1e9), ms)
    for text, digit, what in cases:
        print(f"{(often[text] - once[text]) / (10**digit - 1) * 1e3:9.3f} ms  {what}  ({program}, {text})", flush=True)
    for name, ms in own.items():
        print(f"{ms:9.3f} ms  {name}", flush=True)


def main():
    same()
    named = [a for a in sys.argv[1:] if a in CASES]
    for name in named or CASES:
        times(name, [a for a in sys.argv[1:] if a not in CASES and name == "bench_count"])


if __name__ == "__main__":
    main()
