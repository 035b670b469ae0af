#!/usr/bin/env python3
"""Proves crates as `rt ci` does, and keeps what passed on this machine for later runs, for a kit whose own `rt ci` keeps nothing.

    tools/keep.py [--edits] [--run] [NAME..]   proves these crates and those below them (no NAME: all); with --edits tries their refused
                                               edits, with --run runs their programs, as both compilers build them
    tools/keep.py --lay [NAME..]               lays the libraries that are kept into `out/`, so that `rt check` begins with them

A crate is kept by a sum over its files and those of all crates below it, in the folder $KEPT, or /tmp/gemivaloon-kept. Nothing of it is a
verdict: the gate is `rt ci` alone, which proves all from nothing. What a crate's proof printed stands in the folder's `logs`.
"""
import copy
import hashlib
import importlib.machinery
import importlib.util
import os
import shutil
import signal
import subprocess
import sys
import tempfile
import threading
import time

sys.dont_write_bytecode = True
KEPT = os.environ.get("KEPT") or "/tmp/gemivaloon-kept"
FLAGS = ("--edits", "--run", "--lay")
PRINTING = threading.Lock()


def say(text):
    with PRINTING:
        print(f"{time.strftime('%H:%M:%S')} {text}", flush=True)


def kit():
    """The kit's command `rt` as a module, set up as for `rt ci`."""
    path = os.path.realpath(shutil.which("rt") or sys.exit("keep.py: no rt on the path"))
    loader = importlib.machinery.SourceFileLoader("rtmain", path)
    rt = importlib.util.module_from_spec(importlib.util.spec_from_loader("rtmain", loader))
    sys.modules["rtmain"] = rt
    loader.exec_module(rt)
    if hasattr(rt, "Kept"):
        sys.exit("keep.py: this kit keeps what it proved itself: use rt ci NAME.., and tools/seed.py")
    rt.rtlib.stop, rt.rtlib.Crate, rt.Crate.cuts_libraries = rt.stop, rt.Crate, True
    for name in (rt.rtlib.ALLOW_C, rt.rtlib.BACKEND, "RT_SECONDS"):
        os.environ.pop(name, None)
    # (its first call sets a signal's handler, which only the main thread may)
    rt.rtlib.guarded()
    told_once(rt, "below")
    told_once(rt, "stamp")
    return rt


def told_once(rt, name):
    """Has a crate tell this once: it goes over all crates below, and these over those below them."""
    plain, known = getattr(rt.Crate, name), {}

    def told(crate):
        if crate.folder not in known:
            known[crate.folder] = plain(crate)
        return known[crate.folder]

    setattr(rt.Crate, name, told)


class Store:
    """What is kept, by crate and sum."""

    def __init__(self, rt):
        self.rt, self.texts = rt, {}
        os.makedirs(f"{KEPT}/logs", exist_ok=True)

    def text_sum(self, crate):
        """A sum over the crate's own files as they are now."""
        return hashlib.sha256("".join(map(self.rt.rtlib.sum_of, self.rt.rtlib.files_of(crate.folder))).encode()).hexdigest()

    def place(self, crate):
        """Where it is kept, by a sum over its files and those below it as they were when it was first asked for."""
        self.texts.setdefault(crate.name, self.text_sum(crate))
        return f"{KEPT}/{crate.name}-{crate.stamp()[:24]}"

    def is_as_before(self, crate):
        """Whether its own files still are as they were then."""
        return self.texts[crate.name] == self.text_sum(crate)

    def lay(self, crate):
        """Lays what is kept of the crate into its `out/`, and returns whether there was something."""
        place, out = self.place(crate), f"{crate.folder}/out"
        if not os.path.isdir(place):
            return False
        os.makedirs(out, exist_ok=True)
        if crate.is_program:
            for name in os.listdir(place):
                shutil.copy(f"{place}/{name}", f"{out}/{name}")
        elif not crate.is_built():
            shutil.rmtree(f"{out}/rlib", ignore_errors=True)
            subprocess.run(["cp", "-al", f"{place}/rlib", f"{out}/rlib"], check=True)
        return True

    def keep(self, crate):
        """Keeps what a proof of the crate has just made."""
        room = tempfile.mkdtemp(prefix="new-", dir=KEPT)
        if crate.is_program:
            for name in (crate.name, f"{crate.name}.by-rattle"):
                if os.path.isfile(f"{crate.folder}/out/{name}"):
                    shutil.copy(f"{crate.folder}/out/{name}", f"{room}/{name}")
        else:
            subprocess.run(["cp", "-al", f"{crate.folder}/out/rlib", f"{room}/rlib"], check=True)
            with open(f"{room}/rlib/stamp", "w", encoding="utf-8") as file:
                file.write(crate.stamp())
        try:
            os.rename(room, self.place(crate))
        except OSError:
            shutil.rmtree(room, ignore_errors=True)


def prove(rt, store, crate, given, jobs):
    """Proves one crate, unless it is kept. What a lane of `rt ci` does."""
    lacking = [it.name for it in crate.below() if not given[it.name, "proof"]]
    if lacking:
        say(f"{crate.name} NOT PROVED: its library {lacking[0]} failed")
        return False
    if store.lay(crate):
        return True
    begun, crate, log = time.time(), copy.copy(crate), f"{KEPT}/logs/{crate.name}.log"
    os.makedirs(f"{crate.folder}/out", exist_ok=True)
    with open(log, "w", errors="replace") as crate.out:
        try:
            status = rt.rtlib.fmt(crate.folder, "--check", crate.out) or crate.ci(["--jobs", str(jobs)], False)
            if status == -signal.SIGKILL:
                status = crate.ci(["--jobs", "1"], False)
        except SystemExit:
            status = 1
    if not status and store.is_as_before(crate):
        store.keep(crate)
        store.lay(crate)
    say(f"{crate.name} {'NOT PROVED, see ' + log if status else 'proved'}, {time.time() - begun:.0f} seconds, {jobs} jobs")
    return not status


def try_edits(rt, store, crate, given):
    """Tries the crate's refused edits, unless these were refused over the same files before."""
    good, bad = rt.edits_of(crate)
    if bad or not given[crate.name, "proof"]:
        return False
    texts = "".join(rt.rtlib.text_of(it) for it in sorted(good))
    note, wanted = f"{store.place(crate)}.edits", hashlib.sha256(texts.encode()).hexdigest()
    if rt.rtlib.text_of(note) == wanted:
        return True
    begun, tried = time.time(), rt.must_fail_all(crate, good, ["--jobs", "1"])
    for is_refused, text in tried:
        say(text if not is_refused else text.partition("\n")[0])
    is_well = all(is_refused for is_refused, _ in tried)
    if is_well:
        with open(note, "w", encoding="utf-8") as file:
            file.write(wanted)
    say(f"{crate.name}: {len(good)} edits {'refused' if is_well else 'NOT ALL REFUSED'}, {time.time() - begun:.0f} seconds")
    return is_well


def is_refused_text(rt, crate, crates):
    """Whether the kit refuses the crate's text before anything is proved."""
    try:
        rt.rtlib.stop_on_links(crate.folder)
        rt.rtlib.stop_on_unread(crate.folder, crates)
        rt.rtlib.stop_on_text(crate, "verdict")
        rt.stop_on_words(crate)
        return False
    except SystemExit:
        return True


def main(words):
    flags, names = {it for it in words if it in FLAGS}, [it for it in words if it not in FLAGS]
    if any(it.startswith("-") for it in names):
        print(__doc__)
        return 2
    rt = kit()
    root = os.getcwd()
    rt.Crate.allowed = rt.handles_of(root)
    crates = sorted(rt.rtlib.crates_below(root), key=lambda it: len(it.below()))
    wanted = [it for it in crates if not names or it.name in names or any(it in above.below() for above in crates if above.name in names)]
    store = Store(rt)
    if "--lay" in flags:
        there = sum(store.lay(it) for it in wanted)
        print(f"{there} of {len(wanted)} are there")
        return 0
    refused = [it.name for it in wanted if is_refused_text(rt, it, crates)]
    tasks = {}
    for crate in wanted:
        is_kept, lines = os.path.isdir(store.place(crate)), crate.count(rb"\n")
        work = lambda given, jobs, it=crate: prove(rt, store, it, given, jobs)
        tasks[crate.name, "proof"] = ([(it.name, "proof") for it in crate.below()], 1 if is_kept else lines, 1 if is_kept else rt.need(crate), work)
        if "--edits" in flags and any(rt.edits_of(crate)):
            work = lambda given, jobs, it=crate: try_edits(rt, store, it, given)
            tasks[crate.name, "edits"] = ([(crate.name, "proof")], lines, rt.need(crate), work)
    given = rt.in_lanes(tasks)
    failed = [*refused, *(" ".join(key) for key, is_well in given.items() if not is_well)]
    for crate in wanted:
        built = [it for it in rt.BACKENDS.values() if os.path.isfile(f"{crate.folder}/out/{crate.name}{it}")]
        if "--run" in flags and crate.is_program and given[crate.name, "proof"]:
            failed += [f"{crate.name}{it} (run)" for it in built if not rt.run(crate, False, it)]
    say(f"{len(tasks)} done; failed: {', '.join(failed) or 'none'}")
    return 1 if failed else 0


if __name__ == "__main__":
    sys.exit(main(sys.argv[1:]))
