#!/usr/bin/env python3
"""Prints how fast declarations are reconstructed, and how much memory they take.

Usage: bench/reconstruct.py [PROGRAM]      (PROGRAM: ./twelf by default)

Clauses with implicit arguments: the two of addition under ever new names. Proof terms: a chain of n steps with an index that is left to be found at each, and a
balanced tree of n, as one definition each. Implicit arguments: one constant with n of them. Each is run at sizes that grow fourfold; where the ratio of times is that of sizes, the work
grows as the input does. The time and the memory of the declarations before are taken off.
"""
import os
import sys

from running import measured, read

HERE = os.path.dirname(os.path.abspath(__file__))
PROGRAM = os.path.abspath(sys.argv[1]) if len(sys.argv) > 1 else os.path.join(HERE, "..", "twelf")

NUMBERS = [b"nat : type.", b"z : nat.", b"s : nat -> nat.", b"plus : nat -> nat -> nat -> type.", b"plus-z : plus z Y Y.", b"plus-s : plus (s X) Y (s Z) <- plus X Y Z."]


def clauses(n):
    return read(NUMBERS + [b"p%d : plus (s X) Y (s Z) <- plus X Y Z <- plus Y X W." % i for i in range(n)])


RULES = [b"ok : nat -> type.", b"ok-z : ok z.", b"ok-s : ok X -> ok X.", b"ok-t : ok X -> ok X -> ok X.", b"%prefix 10 ok-s."]


def proof(n):
    return read(NUMBERS + RULES + [b"d = " + b"ok-s " * n + b"ok-z."])


def tree(n):
    return b"ok-z" if n <= 1 else b"(ok-t " + tree(n // 2) + b" " + tree(n - n // 2) + b")"


def trees(n):
    return read(NUMBERS + RULES + [b"d = " + tree(n // 2) + b"."])


def implicit(n):
    names = [b"X%d" % i for i in range(n)]
    family = b"many : " + b"nat -> " * n + b"type."
    return read(NUMBERS + [family, b"c : many " + b" ".join(names) + b"."])


def table(title, sizes, make, extra):
    print(title)
    print(f"{'size':>8} {'bytes':>9} {'seconds':>9} {'a second':>12} {'MiB':>7} {'ratio of times':>15}")
    last = None
    for size in sizes:
        given = make(size)
        seconds, memory = min(measured(PROGRAM, given, len(NUMBERS) + extra(size)) for _ in range(3))
        seconds = max(seconds - EMPTY[0], 1e-6)
        ratio = f"{seconds / last:15.2f}" if last else ""
        print(f"{size:>8} {len(given):>9} {seconds:9.4f} {size / seconds:12,.0f} {max(memory - EMPTY[1], 0):7.1f} {ratio}")
        last = seconds


EMPTY = min(measured(PROGRAM, read(NUMBERS), len(NUMBERS)) for _ in range(3))
table("clauses with implicit arguments", [1000, 4000, 16000], clauses, lambda n: n)
table("steps of one proof term, in a chain", [500, 1000, 2000], proof, lambda n: len(RULES) + 1)
table("nodes of one proof term, in a tree", [1000, 4000, 16000], trees, lambda n: len(RULES) + 1)
table("implicit quantifiers of one constant", [10, 40, 160, 640], implicit, lambda n: 2)
