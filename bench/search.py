#!/usr/bin/env python3
"""Prints how many tries a second searches make, and how their time grows beside their tries.

Usage: bench/search.py [PROGRAM]      (PROGRAM: crates/bench_search/out/bench_search by default, which `rt run` in its folder makes)

Each search goes on to the end of its tree, but the loop, which ends with its budget. The tries and answers were worked out by hand, and are compared. The time that it takes to build a
program and a goal is taken off. Memory is the peak of a run. The last columns are the ratio of a row's time to that of the row before it, beside the ratio of what stands in the first
column: where they agree, the work grows as that does.
"""
import os
import sys

from running import spent

HERE = os.path.dirname(os.path.abspath(__file__))
DEFAULT = os.path.join(HERE, "..", "crates", "bench_search", "out", "bench_search")
PROGRAM = os.path.abspath(sys.argv[1]) if len(sys.argv) > 1 else DEFAULT


def hanoi(disks, moves):
    """Both clauses at each of the nodes, and all moves between two of them."""
    return 2 * (2 ** (disks + 1) - 1) + moves * (2**disks - 1)


# kind, what it is, its tries by the size, answers and end (or these by the size), what stands in the first column, sizes
TABLES = [
    ("hanoi", "hanoi with N disks", lambda n: hanoi(n, 6), "1 Exhausted", "tries", (14, 15, 16, 17)),
    ("nrev", "a list of N elements reversed by append", lambda n: (n + 1) * (n + 2), "1 Exhausted", "tries", (200, 400, 800)),
    ("proof", "the same with the proof read, which has some N^3 nodes", lambda n: (n + 1) * (n + 2), "1 Exhausted", "tries", (50, 100, 200)),
    ("loop", "a loop of N calls without choice points", lambda n: n, "0 Budget", "tries", (10000, 40000, 160000)),
    ("answers", "an enumeration without an end, cut off at N tries", lambda n: n, lambda n: f"{n // 2} Budget", "tries", (10000, 40000, 160000)),
    ("clashes", "hanoi with 10 disks, and N more moves that clash", lambda n: hanoi(10, 6 + n), "1 Exhausted", "tries", (100, 400, 1600)),
    ("families", "hanoi with 10 disks, beside N families with a constant each", lambda n: hanoi(10, 6), "1 Exhausted", "families", (1000, 4000, 16000)),
]


def seconds(kind, size, work, told):
    found = []
    for _ in range(3):
        took, memory, said = spent(PROGRAM, [kind, str(size), work], b"")
        if said != f"{kind} {size} {told}\n".encode():
            sys.exit(f"{kind} {size}: {said!r}")
        found.append((took, memory))
    return min(found)


for kind, what, tries, told, first, sizes in TABLES:
    print(f"{what} ({kind})")
    print(f"{first:>10} {'N':>8} {'seconds':>9} {'tries a second':>20} {'MiB':>8} {'ratio of times':>15} {'of ' + first:>12}")
    last = None
    for size in sizes:
        built, _ = seconds(kind, size, "build", "built")
        ended = told(size) if callable(told) else told
        took, memory = seconds(kind, size, "search", f"{tries(size)} {ended}")
        took = max(took - built, 1e-4)
        shown = tries(size) if first == "tries" else size
        ratio = f"{took / last[0]:15.2f} {shown / last[1]:12.2f}" if last else ""
        print(f"{shown:>10} {size:>8} {took:9.4f} {tries(size) / took:20,.0f} {memory:8.1f} {ratio}")
        last = (took, shown)
