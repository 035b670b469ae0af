#!/usr/bin/env python3
"""Lays into `out/` of a clone each library that a gate on this machine has proved of the same files, so that `rt check` begins with it.

    tools/seed.py [FOLDER]      the clone, or the current folder

It proves and builds nothing, and no verdict rests on it: the gate reads what it kept itself. The last line names the libraries that no gate has
proved of these files yet.
"""

import importlib.machinery
import importlib.util
import os
import shutil
import sys

sys.dont_write_bytecode = True


def kit():
    """The kit's command `rt` as a module."""
    path = os.path.realpath(shutil.which("rt") or sys.exit("seed.py: no rt on the path"))
    loader = importlib.machinery.SourceFileLoader("rtmain", path)
    made = importlib.util.module_from_spec(importlib.util.spec_from_loader("rtmain", loader))
    sys.modules["rtmain"] = made
    loader.exec_module(made)
    if not hasattr(made, "Kept"):
        sys.exit("seed.py: this kit keeps nothing that it proved: use tools/keep.py --lay")
    return made


def lay(rt, kept, crate):
    """Lays the crate's library there, if one is kept, and returns whether it is there."""
    key, out = kept.key(crate), f"{crate.folder}/out"
    note = f"{out}/seeded"
    if (rt.rtlib.text_of(note) or "").strip() == key and crate.is_built():
        return True
    if not os.path.isdir(kept.place(crate, False, key)):
        return False
    shutil.rmtree(f"{out}/rlib", ignore_errors=True)
    os.makedirs(out, exist_ok=True)
    if not kept.give(crate, False, key):
        return False
    for path, text in ((f"{out}/rlib/stamp", crate.stamp()), (note, key)):
        with open(path, "w", encoding="utf-8") as it:
            it.write(text)
    return True


def main(folder="."):
    rt = kit()
    root = os.path.abspath(folder)
    os.chdir(root)
    rt.Crate.allowed = rt.handles_of(root)
    rt.rtlib.Crate = rt.Crate
    crates = sorted(rt.rtlib.crates_below(root), key=lambda it: len(it.below()))
    kept, there, lacking = rt.Kept(crates), set(), []
    for crate in crates:
        if crate.is_program:
            continue
        if all(it.name in there for it in crate.below()) and lay(rt, kept, crate):
            kept.is_built(crate)
            there.add(crate.name)
        else:
            lacking.append(crate.name)
    print(f"{len(there)} libraries are there; lacking: {' '.join(lacking) or 'none'}")


if __name__ == "__main__":
    main(*sys.argv[1:])
