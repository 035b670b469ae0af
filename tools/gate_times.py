#!/usr/bin/env python3
"""Says what a run of the gate takes: for each crate seconds of its proof, its tests, its edits and its runs, and the peak of memory.

    tools/gate_times.py [-o FILE] -- COMMAND..     runs the command, mostly rt ci, and prints the table when it has ended
    tools/gate_times.py [-o FILE] -p PID           attaches to a command that runs, until it ends or Ctrl-C

The gate's log has no times. So the processes below the command are looked at twice a second: each check names its crate in its words,
the check of a crate's tests has the word --test, one of an edit runs in a folder of its own, and what was proved runs outside of the
repository. Seconds are the processor's, so that other work on the machine changes them little; what a process takes behind its last
sample is not seen. Memory is that of one check with the copies of itself that it starts, pages that they share counted once.
"""
import os
import re
import subprocess
import sys
import time

PHASES = ("proof", "tests", "edits", "runs")
TICKS = os.sysconf("SC_CLK_TCK")
EVERY = 0.5


def read(path):
    """The text of a file of /proc, or nothing where its process has ended."""
    try:
        with open(path, "rb") as file:
            return file.read().decode(errors="replace")
    except OSError:
        return ""


def processes():
    """The parent and the processor seconds, those of ended children with them, of each process by its number."""
    found = {}
    for pid in filter(str.isdigit, os.listdir("/proc")):
        behind = read(f"/proc/{pid}/stat").rpartition(")")[2].split()
        if len(behind) > 14:
            found[int(pid)] = int(behind[1]), sum(map(int, behind[11:15])) / TICKS
    return found


def work_of(pid):
    """The crate and the phase that a process works for, if it is a check, or a run of what was proved."""
    words = read(f"/proc/{pid}/cmdline").split("\0")
    if words[0].endswith("/rattle") and "--crate-name" in words:
        crate = words[words.index("--crate-name") + 1]
        if "--test" in words:
            return crate, "tests"
        try:
            folder = os.readlink(f"/proc/{pid}/cwd")
        except OSError:
            return None
        return crate, "edits" if "/rt-edit-" in folder else "proof"
    if ran := re.match(r"\S*/rt-run-[^/]*/bin/(\w+)", words[0]):
        return ran[1].removesuffix("_tests"), "runs"
    return None


def memory_of(pid):
    """The memory of a process in bytes; a page that several share counts in parts."""
    share = re.search(r"^Pss:\s+(\d+) kB", read(f"/proc/{pid}/smaps_rollup"), re.M)
    return 1024 * int(share[1]) if share else 0


class Table:
    def __init__(self):
        # seconds of each process, by its number and what it works for, as they were last seen
        self.seconds = {}
        self.peaks = {}
        self.begun = time.time()

    def look(self, top):
        """Takes one sample of the processes below this one."""
        found = processes()
        below = {}
        for pid, (parent, _) in found.items():
            below.setdefault(parent, []).append(pid)

        def tree(pid):
            return [pid] + [it for child in below.get(pid, []) for it in tree(child)]

        waiting = [top]
        while waiting:
            pid = waiting.pop()
            work = work_of(pid)
            if not work:
                waiting += below.get(pid, [])
                continue
            whole = tree(pid)
            spent = sum(found[it][1] for it in whole if it in found)
            self.seconds[pid, work] = max(spent, self.seconds.get((pid, work), 0))
            memory = sum(map(memory_of, whole))
            self.peaks[work[0]] = max(memory, self.peaks.get(work[0], 0))

    def text(self):
        rows = {}
        for (_, (crate, phase)), seconds in self.seconds.items():
            row = rows.setdefault(crate, dict.fromkeys(PHASES, 0))
            row[phase] += seconds
        head = f"{'crate':22}" + "".join(f"{it:>9}" for it in PHASES) + f"{'peak MB':>9}"
        lines = [head]
        order = sorted(rows, key=lambda crate: -sum(rows[crate].values()))
        for crate in order:
            numbers = "".join(f"{rows[crate][it]:9.0f}" for it in PHASES)
            lines.append(f"{crate:22}{numbers}{self.peaks[crate] / 1e6:9.0f}")
        sums = "".join(f"{sum(row[it] for row in rows.values()):9.0f}" for it in PHASES)
        lines.append(f"{'all':22}{sums}{max(self.peaks.values(), default=0) / 1e6:9.0f}")
        took = (time.time() - self.begun) / 60
        return "\n".join([*lines, f"processor seconds; {took:.1f} minutes by the clock"]) + "\n"


def main(words):
    out = top = child = None
    while words and words[0] in ("-o", "-p") and len(words) > 1:
        if words[0] == "-o":
            out = words[1]
        else:
            top = int(words[1])
        words = words[2:]
    if top is None and (len(words) < 2 or words[0] != "--"):
        print(__doc__)
        return 2
    if top is None:
        child = subprocess.Popen(words[1:])
        top = child.pid
    table = Table()
    try:
        while child.poll() is None if child else os.path.exists(f"/proc/{top}"):
            table.look(top)
            time.sleep(EVERY)
    except KeyboardInterrupt:
        pass
    text = table.text()
    if out:
        with open(out, "w", encoding="utf-8") as file:
            file.write(text)
    print(text, end="")
    return child.wait() if child else 0


sys.exit(main(sys.argv[1:]))
