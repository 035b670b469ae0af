#!/usr/bin/env python3
"""Prints how fast equations are solved, and how fast a store is marked and taken back.

Usage: bench/unify.py [PROGRAM]      (PROGRAM: crates/bench_unify/out/bench_unify by default, which `rt run` in its folder makes)

The time that it takes to build a problem and to check that it is typed is taken off. Nodes are the heads and lambdas of both sides of all equations. The last column is the ratio
of a row's time to that of the row before it, beside the ratio of their sizes: where they agree, the work grows as the problem does.
"""
import os
import sys

from running import spent

HERE = os.path.dirname(os.path.abspath(__file__))
DEFAULT = os.path.join(HERE, "..", "crates", "bench_unify", "out", "bench_unify")
PROGRAM = os.path.abspath(sys.argv[1]) if len(sys.argv) > 1 else DEFAULT

# kind, what it is, equations and nodes of terms for a size, answer, sizes
TABLES = [
    ("spine", "one constant on N arguments", lambda n: n, lambda n: 2 * n + 2, "Answer(Solved)", (250, 1000, 4000)),
    ("tower", "one argument inside another, N deep", lambda n: n, lambda n: 2 * n + 2, "Answer(Solved)", (250, 1000, 4000)),
    ("flat", "N metavariables that are z", lambda n: n, lambda n: 2 * n, "Answer(Solved)", (40000, 160000, 640000)),
    ("chain", "N metavariables, each the next one, and then the first is z", lambda n: n, lambda n: 2 * n, "Answer(Solved)", (10000, 40000, 160000)),
    ("waking", "N equations that wake behind N that stay left", lambda n: 3 * n, lambda n: 9 * n, "Answer(Left)", (250, 1000, 4000)),
    ("proof", "a proof of N steps under 20 hypotheses, with indices of 200 nodes", lambda n: 2 * n, lambda n: 644 * n, "Answer(Solved)", (50, 200, 800)),
    ("append", "a list of N behind another, both bound element by element", lambda n: 3 * n + 3, lambda n: 14 * n + 6, "Answer(Solved)", (250, 1000, 4000)),
]


def seconds(kind, size, work, answer):
    found = []
    for _ in range(3):
        took, _, told = spent(PROGRAM, [kind, str(size), work], b"")
        if told != f"{kind} {size} {answer}\n".encode():
            sys.exit(f"{kind} {size}: {told!r}")
        found.append(took)
    return min(found)


def table(title, heads, rows):
    print(title)
    told = "".join(f"{head + ' a second':>20}" for head in heads)
    print(f"{'size':>10} {'seconds':>9} {told} {'ratio of times':>15} {'of sizes':>9}")
    last = None
    for size, counts, took in rows:
        rates = "".join(f"{count / took:20,.0f}" for count in counts)
        ratio = f"{took / last[0]:15.2f} {size / last[1]:9.2f}" if last else ""
        print(f"{size:>10} {took:9.4f} {rates} {ratio}")
        last = (took, size)


def solving(kind, equations, nodes, answer, sizes):
    for size in sizes:
        built = seconds(kind, size, "build", "Ready")
        yield size, (equations(size), nodes(size)), max(seconds(kind, size, "solve", answer) - built, 1e-4)


def walking(levels):
    for level in levels:
        took, _, _ = spent(PROGRAM, ["tree", str(level), "walk"], b"")
        branches = 2 ** (level + 1) - 2
        yield branches, (branches,), max(took, 1e-4)


for kind, title, equations, nodes, answer, sizes in TABLES:
    table(f"{title} ({kind})", ("equations", "nodes"), solving(kind, equations, nodes, answer, sizes))
table("a tree of marks, each taken back: depth 16, 18 and 20", ("branches",), walking((16, 18, 20)))
