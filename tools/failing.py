#!/usr/bin/env python3
"""Lets each allocation of a short session fail in turn, and looks at what the program answers then.

    tools/failing.py [--show] [PROGRAM]      the program, else `crates/twelf/out/twelf`; --show writes a line for each allocation

A run is right if the program refuses one command with `E0 Memory`, or ends one search so, and answers all others as it does where that command was never given;
or if it ends with the exit status of want of memory, and what it wrote before is the front of what it writes with enough memory; or if it
answers as ever. The line at the end counts each of the three, and the status is 1 where any run is otherwise.

The program takes memory from the C library. A library of a few lines that stands before that one counts its calls and fails in one of
them; `cc` builds it. Without the program, `rt try --fail-alloc N` does the same for one allocation at a time, with no proof.
"""
import os
import subprocess
import sys
import tempfile

TOP = os.path.dirname(os.path.dirname(os.path.abspath(__file__)))
NO_MEMORY = 4
BANNER = b"Twelf 1.4 LF profile\n%% OK %%\n"
REFUSED = b"E0 Memory\n%% ABORT %%\n"
# In the loop of answers a search ends so, or the loop at the end of the input.
LEFT = b"E0 Memory\n%% OK %%\n"

# Declarations with arguments that are left out, a definition that is solved for, one that is refused, questions, checks, and searches, of which the last is the loop's.
SESSION = [
    b"readDecl\nnat : type.\n",
    b"readDecl\nz : nat.\n",
    b"readDecl\ns : nat -> nat.\n",
    b"readDecl\nvec : nat -> type.\n",
    b"readDecl\nnil : vec z.\n",
    b"readDecl\ncons : nat -> vec N -> vec (s N).\n",
    b"readDecl\n%infix right 10 cons.\n",
    b"readDecl\ntwo = z cons s z cons nil.\n",
    b"readDecl\nbad : vec nat.\n",
    b"decl cons\n",
    b"decl two\n",
    b"readDecl\nplus : nat -> nat -> nat -> type.\n",
    b"readDecl\nplus-z : plus z Y Y.\n",
    b"readDecl\nplus-s : plus (s X) Y (s Z) <- plus X Y Z.\n",
    b"readDecl\n%mode plus +X +Y -Z.\n",
    b"readDecl\n%terminates X (plus X _ _).\n",
    b"readDecl\n%block b : some {N:nat} block {v:vec N} {w:vec N}.\n",
    b"readDecl\n%worlds (b) (plus _ _ _).\n",
    b"readDecl\n%query 2 * plus X Y (s z).\n",
    b"readDecl\n%solve one : plus (s z) z X.\n",
    b"top\nplus (s (s z)) X (s z).\n",
]

LIBRARY = r"""
#define _GNU_SOURCE
#include <dlfcn.h>
#include <stddef.h>
#include <stdio.h>
#include <stdlib.h>

static unsigned long calls, failing;

__attribute__((constructor)) static void begin(void) {
    const char *at = getenv("FAILING_AT");
    failing = at ? strtoul(at, NULL, 10) : 0;
    calls = 0;
}

__attribute__((destructor)) static void end(void) {
    const char *to = getenv("FAILING_COUNT");
    unsigned long made = calls;
    failing = 0;
    FILE *file = to ? fopen(to, "w") : NULL;
    if (file) {
        fprintf(file, "%lu\n", made);
        fclose(file);
    }
}

void *malloc(size_t size) {
    static void *(*next)(size_t);
    if (!next) next = dlsym(RTLD_NEXT, "malloc");
    return ++calls == failing ? NULL : next(size);
}

void *realloc(void *block, size_t size) {
    static void *(*next)(void *, size_t);
    if (!next) next = dlsym(RTLD_NEXT, "realloc");
    return ++calls == failing ? NULL : next(block, size);
}
"""


class Runs:
    """Runs of the program over the library."""

    def __init__(self, program, folder):
        self.program, self.library, self.count = program, f"{folder}/failing.so", f"{folder}/count"
        source = f"{folder}/failing.c"
        with open(source, "w", encoding="utf-8") as file:
            file.write(LIBRARY)
        subprocess.run(["cc", "-shared", "-fPIC", "-O1", "-o", self.library, source, "-ldl"], check=True)

    def run(self, commands, failing=0):
        """What is written where this allocation fails, 0 for none; the exit status; and how many allocations there were."""
        given = {**os.environ, "LD_PRELOAD": self.library, "FAILING_AT": str(failing), "FAILING_COUNT": self.count}
        done = subprocess.run([self.program], input=b"".join(commands), stdout=subprocess.PIPE, env=given, timeout=60)
        with open(self.count, encoding="utf-8") as file:
            return done.stdout, done.returncode, int(file.read())


def replies(written):
    """The banner and the replies, each up to the line that ends it."""
    parts, part = [], b""
    for line in written.splitlines(keepends=True):
        part += line
        if line in (b"%% OK %%\n", b"%% ABORT %%\n"):
            parts.append(part)
            part = b""
    return parts + [part] if part else parts


def main(words):
    show = "--show" in words
    words = [it for it in words if it != "--show"]
    program = words[0] if words else f"{TOP}/crates/twelf/out/twelf"
    if len(words) > 1 or not os.access(program, os.X_OK):
        print(__doc__)
        return 2
    with tempfile.TemporaryDirectory() as folder:
        runs = Runs(os.path.abspath(program), folder)
        right, status, count = runs.run(SESSION)
        parts = replies(right)
        if status or parts[0] != BANNER or len(parts) != 1 + len(SESSION):
            print(f"with enough memory the session ends with {status} and {len(parts)} replies")
            return 1
        # what is answered where a command is left out
        without = [replies(runs.run(SESSION[:at] + SESSION[at + 1 :])[0]) for at in range(len(SESSION))]
        refused = ended = same = wrong = 0
        for failing in range(1, count + 1):
            written, status, _ = runs.run(SESSION, failing)
            told = replies(written)
            at = next((at for at, part in enumerate(told) if part == REFUSED or part.endswith(LEFT)), 0)
            if written == right and status == 0:
                same += 1
                says = "as ever"
            elif at and told[:at] + told[at + 1 :] == without[at - 1] and status == 0:
                refused += 1
                says = f"refuses {SESSION[at - 1]!r}"
            elif status == NO_MEMORY and right.startswith(written):
                ended += 1
                says = f"ends behind {len(told)} replies"
            else:
                wrong += 1
                says = f"ends with {status}, having written {written!r}"
                print(f"allocation {failing}: {says}")
                continue
            if show:
                print(f"allocation {failing}: {says}")
    print(
        f"{count} allocations: {refused} refuse one command and change nothing, {ended} end the program, {same} make no difference, {wrong} are wrong"
    )
    return 1 if wrong else 0


sys.exit(main(sys.argv[1:]))
