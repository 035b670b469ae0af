#!/usr/bin/env python3
"""Prints how fast the program reads: bytes a second for one text of blanks, and for many declarations.

Usage: bench/serve.py [PROGRAM]      (PROGRAM: ./twelf by default)

The time of an empty input is taken off each figure. The last column is the ratio of a row's time to that of the row
before it, beside the ratio of their sizes: where they agree, the work grows as the input does.
"""
import os
import sys

from running import spent

HERE = os.path.dirname(os.path.abspath(__file__))
PROGRAM = os.path.abspath(sys.argv[1]) if len(sys.argv) > 1 else os.path.join(HERE, "..", "twelf")


def seconds(given):
    return min(spent(PROGRAM, [], given)[0] for _ in range(3))


def table(title, rows):
    print(title)
    print(f"{'size':>10} {'bytes':>10} {'seconds':>9} {'bytes/s':>13} {'ratio of times':>15} {'of bytes':>9}")
    last = None
    for size, given in rows:
        took = max(seconds(given) - EMPTY, 1e-6)
        ratio = f"{took / last[0]:15.2f} {len(given) / last[1]:9.2f}" if last else ""
        print(f"{size:>10} {len(given):>10} {took:9.4f} {len(given) / took:13,.0f} {ratio}")
        last = (took, len(given))


seconds(b"")  # builds the program where it isn't built yet
EMPTY = seconds(b"")
print(f"an empty input: {EMPTY:.4f} seconds")
MIB = 1 << 20
table("one text of blanks", [(f"{n} MiB", b"readDecl\n" + b" " * (n * MIB - 2) + b".\n") for n in (1, 4, 16)])
table(
    "declarations",
    [(n, b"".join(b"readDecl\nc%d : type.\n" % i for i in range(n))) for n in (1000, 4000, 16000)],
)
