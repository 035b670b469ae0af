#!/usr/bin/env python3
"""Prints how fast declarations are made, and how much memory they take.

Usage: bench/declare.py [PROGRAM]      (PROGRAM: ./twelf by default)

A chain: each family is indexed by a term of the one before it. A wide signature: many constants over one family of vectors. One
declaration of many tokens. Each is run at sizes that grow fourfold; where the ratio of times is that of sizes, the work grows as the
input does. The time and the memory of an empty input are taken off.
"""
import os
import sys

from running import measured, read

HERE = os.path.dirname(os.path.abspath(__file__))
PROGRAM = os.path.abspath(sys.argv[1]) if len(sys.argv) > 1 else os.path.join(HERE, "..", "twelf")


def chain(n):
    lines = [b"a0 : type.", b"c0 : a0.", b"a1 : a0 -> type.", b"c1 : a1 c0."]
    for i in range(2, n // 2):
        lines += [b"a%d : a%d c%d -> type." % (i, i - 1, i - 2), b"c%d : a%d c%d." % (i, i, i - 1)]
    return read(lines)


VECTORS = [b"nat : type.", b"z : nat.", b"s : nat -> nat.", b"vec : nat -> type."]


def wide(n):
    return read(VECTORS + [b"v%d : {n:nat} vec n -> vec (s n) -> vec (s (s n))." % i for i in range(n - 4)])


def long(n):
    # n tokens, 17 for each domain
    return read(VECTORS + [b"c : " + b"(vec (s (s (s (s z))))) -> " * ((n - 4) // 17) + b"nat."])


def table(title, rows):
    print(title)
    print(f"{'size':>8} {'bytes':>9} {'seconds':>9} {'declarations/s':>15} {'MiB':>7} {'ratio of times':>15}")
    last = None
    for size, given, count in rows:
        seconds, memory = min(measured(PROGRAM, given, count) for _ in range(3))
        seconds = max(seconds - EMPTY[0], 1e-6)
        ratio = f"{seconds / last:15.2f}" if last else ""
        print(f"{size:>8} {len(given):>9} {seconds:9.4f} {count / seconds:15,.0f} {max(memory - EMPTY[1], 0):7.1f} {ratio}")
        last = seconds


measured(PROGRAM, b"", 0)  # builds the program where it isn't built yet
EMPTY = measured(PROGRAM, b"", 0)
print(f"an empty input: {EMPTY[0]:.4f} seconds, {EMPTY[1]:.1f} MiB")
SIZES = (1000, 4000, 16000)
table("a chain of families", [(n, chain(n), n) for n in SIZES])
table("many constants over one family", [(n, wide(n), n) for n in SIZES])
table("one declaration", [(n, long(n), 5) for n in (3750, 15000, 60000)])
