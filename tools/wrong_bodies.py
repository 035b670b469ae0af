#!/usr/bin/env python3
"""Tries the wrong bodies of crates that the gate doesn't try: the edits of crates/NAME/wrong-bodies, each of which the prover has to refuse.

    tools/wrong_bodies.py NAME..

It copies the repository into a folder of its own, where they stand as must-fail edits, and runs `rt must-fail NAME..` there. The first edit of a crate
costs a proof of it, and libraries below are proved first; so it is run by hand, after a change of the crate's contracts.
"""
import os
import shutil
import subprocess
import sys
import tempfile

TOP = os.path.dirname(os.path.dirname(os.path.realpath(__file__)))


def moved(top, name):
    """Puts a crate's wrong bodies where rt looks for edits, in place of those that the gate tries."""
    crate = f"{top}/crates/{name}"
    shutil.rmtree(f"{crate}/must-fail", ignore_errors=True)
    os.rename(f"{crate}/wrong-bodies", f"{crate}/must-fail")


def main(names):
    lacking = [name for name in names if not os.path.isdir(f"{TOP}/crates/{name}/wrong-bodies")]
    if not names or lacking:
        print(f"no wrong bodies beside the gate's: {' '.join(lacking)}" if lacking else __doc__.strip(), file=sys.stderr)
        return 2
    with tempfile.TemporaryDirectory(prefix="wrong-bodies-") as room:
        top = f"{room}/repository"
        shutil.copytree(TOP, top, ignore=shutil.ignore_patterns(".git"))
        for name in names:
            moved(top, name)
        return subprocess.run(["rt", "must-fail", *names], cwd=top).returncode


if __name__ == "__main__":
    sys.exit(main(sys.argv[1:]))
