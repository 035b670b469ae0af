#!/usr/bin/env python3
"""Prints how fast the clauses of groups are checked for modes, for orders and for worlds of 1, 10 and 100 blocks, and how fast subordination is found.

Usage: bench/checks.py [PROGRAM]      (PROGRAM: crates/bench_checks/out/bench_checks by default, which `rt run` in its folder makes)

The time that it takes to build a signature is taken off. The last columns are the ratio of a row's time to that of the row before it, beside the ratio of their sizes: where they
agree, the work grows as the signature does.
"""
import os
import sys

from running import spent

HERE = os.path.dirname(os.path.abspath(__file__))
DEFAULT = os.path.join(HERE, "..", "crates", "bench_checks", "out", "bench_checks")
PROGRAM = os.path.abspath(sys.argv[1]) if len(sys.argv) > 1 else DEFAULT

WORKS = [("modes", "the check of modes"), ("order", "the check of orders"), ("subord", "subordination")]
WORLDS = [(f"worlds{count}", f"the check of worlds with {count} block{'s' if count > 1 else ''}") for count in (1, 10, 100)]
KINDS = [
    ("families", "a group of N families with one clause each", "families", (1000, 4000, 16000), WORKS),
    ("clauses", "one family of N clauses", "clauses", (2500, 10000), WORKS),
    ("hypotheses", "one family of N clauses with a hypothesis each", "clauses", (2500, 10000), WORLDS),
    ("context", "one clause with N hypotheses", "hypotheses", (500, 1000, 2000), WORLDS),
    ("instances", "one clause with N hypotheses, each with two `some` terms", "hypotheses", (500, 1000, 2000), WORLDS),
]


def seconds(kind, size, work, answer):
    found = []
    for _ in range(3):
        took, _, told = spent(PROGRAM, [kind, str(size), work], b"")
        if told != f"{kind} {size} {work} {answer}\n".encode():
            sys.exit(f"{kind} {size} {work}: {told!r}")
        found.append(took)
    return min(found)


for kind, what, head, sizes, works in KINDS:
    built = {size: seconds(kind, size, "build", "Built") for size in sizes}
    for work, title in works:
        print(f"{title}: {what} ({work} {kind})")
        print(f"{'size':>10} {'seconds':>9} {head + ' a second':>20} {'ratio of times':>15} {'of sizes':>9}")
        last = None
        for size in sizes:
            took = max(seconds(kind, size, work, "Passed") - built[size], 1e-4)
            ratio = f"{took / last[0]:15.2f} {size / last[1]:9.2f}" if last else ""
            print(f"{size:>10} {took:9.4f} {size / took:20,.0f} {ratio}")
            last = (took, size)
