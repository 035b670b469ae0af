#!/usr/bin/env python3
"""Prints how fast a file of explicit declarations is loaded, and how much memory that takes.

Usage: bench/files.py [PROGRAM] [COUNT]      (PROGRAM: ./twelf, COUNT: 10000 by default)

The file has COUNT declarations: four of vectors, and constants over them. It is loaded as a word of the program, and shown whole by
`Print.sgn`. The time and the memory of an empty input are taken off. Figures only: nothing is judged.
"""
import os
import sys
import tempfile

from running import spent

HERE = os.path.dirname(os.path.abspath(__file__))
PROGRAM = os.path.abspath(sys.argv[1]) if len(sys.argv) > 1 else os.path.join(HERE, "..", "twelf")
COUNT = int(sys.argv[2]) if len(sys.argv) > 2 else 10000

VECTORS = ["nat : type.", "z : nat.", "s : nat -> nat.", "vec : nat -> type."]


def main():
    lines = VECTORS + [f"v{i} : {{n:nat}} vec n -> vec (s n) -> vec (s (s n))." for i in range(COUNT - len(VECTORS))]
    with tempfile.TemporaryDirectory() as folder:
        with open(os.path.join(folder, "wide.elf"), "w") as file:
            file.write("\n".join(lines) + "\n")
        nothing, base, _ = spent(PROGRAM, [], b"", folder)
        loading, held, told = spent(PROGRAM, ["wide.elf"], b"", folder)
        both, shown, _ = spent(PROGRAM, ["wide.elf"], b"Print.sgn\n", folder)
    reports = told.count(b"\n") - 5
    if reports != COUNT:
        sys.exit(f"{reports} of {COUNT} declarations were reported:\n{told[-300:].decode()}")
    seconds = max(loading - nothing, 1e-6)
    showing = max(both - loading, 1e-6)
    size = sum(len(line) + 1 for line in lines)
    print(f"{COUNT} declarations, {size / 1e6:.2f} MB")
    print(f"loaded: {seconds:.3f} s, {COUNT / seconds:,.0f} declarations and {reports / seconds:,.0f} lines of reply a second, {held - base:.0f} MB more than an empty run")
    print(f"shown by Print.sgn: {showing:.3f} s, {COUNT / showing:,.0f} lines a second, {shown - base:.0f} MB more than an empty run")


main()
