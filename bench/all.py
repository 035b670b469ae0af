#!/usr/bin/env python3
"""Runs all benches, and writes their figures as one table, with the machine named, into bench/README.md.

    bench/all.py                  runs them and writes the table; ./twelf and the programs in crates/bench_* have to be built
    bench/all.py --only WORD      only those with this word in their name; the table is printed and not written
    bench/all.py --saved FOLDER   takes what was printed before from FOLDER/NAME.txt, and runs nothing; printed too

A bench prints tables: a line with the title, a line with the heads of the columns, and a row for each size. Here each title has one
line with its greatest size, and how many times the time grew over the row before, beside how many times the size did.
"""

import os
import platform
import re
import subprocess
import sys
import time

HERE = os.path.dirname(os.path.abspath(__file__))
TOP = os.path.dirname(HERE)
PAGE = os.path.join(HERE, "README.md")
BEGIN, END = "<!-- bench/all.py writes from here -->", "<!-- to here -->"


def built(crate):
    return os.path.join(TOP, "crates", crate, "out", crate)


# The name of each bench, the program that has to be built for it, and the command that prints its figures.
BENCHES = {
    **{name: (built("twelf"), [sys.executable, os.path.join(HERE, f"{name}.py")]) for name in ("serve", "declare", "files", "reconstruct")},
    "checks": (built("bench_checks"), [sys.executable, os.path.join(HERE, "checks.py")]),
    "unify": (built("bench_unify"), [sys.executable, os.path.join(HERE, "unify.py")]),
    "search": (built("bench_search"), [sys.executable, os.path.join(HERE, "search.py")]),
    "hered": (built("bench_hered"), [built("bench_hered"), "run"]),
}


def machine():
    """The processor, how many there are, memory and system."""
    with open("/proc/cpuinfo", encoding="utf-8") as file:
        models = re.findall(r"^model name\s*:\s*(.+)$", file.read(), re.M)
    with open("/proc/meminfo", encoding="utf-8") as file:
        memory = int(re.search(r"^MemTotal:\s*(\d+)", file.read(), re.M)[1]) / (1 << 20)
    model = " ".join(models[0].split()) if models else platform.machine()
    return f"{len(os.sched_getaffinity(0))} of {model}, {memory:.0f} GiB, {platform.system()} {platform.release()}"


def cells(line):
    """The cells of a row, which stand apart by blanks; a unit stays with its number."""
    return re.sub(r"(?<=\d) MiB\b", "_MiB", line).split()


def is_row(line):
    return re.match(r"\s+\d[\d,]*(\s|_|$)|\s+\d+ MiB\b", line) is not None


def number(text):
    return float(re.sub(r"[,%]|_MiB", "", text))


def heads(line):
    """The heads of the columns; some are several words, with one blank between."""
    return re.split(r"\s{2,}", line.strip())


def tables(text):
    """Each table that a bench printed: its title, the heads of its columns and its rows."""
    title, columns, rows, last = None, [], [], []
    for line in [*text.splitlines(), ""]:
        if is_row(line):
            if not rows:
                title, columns = (last[-2] if len(last) > 1 else "").strip(), heads(last[-1])
            rows.append(cells(line))
        else:
            if rows:
                yield title, columns, rows
                rows, last = [], []
            last.append(line)


def sentences(text):
    """What a bench without tables says: a name, a colon and figures."""
    for line in text.splitlines() if not any(map(is_row, text.splitlines())) else ():
        found = re.match(r"([A-Za-z][^:]*): (.*\d.*)$", line)
        if found:
            yield found[1], found[2]


def lines_of(name, text):
    """The lines of the table that tell a bench's figures."""
    for title, columns, rows in tables(text):
        last = dict(zip(columns, rows[-1]))
        size = rows[-1][0].replace("_", " ")
        at = next(n for n, it in enumerate(columns) if "seconds" in it)
        unit = "µs" if columns[at].startswith("micro") else "s"
        rate = next((f"{last[it]} {it}" for it in columns if it.endswith("/s") or it.endswith("a second")), "")
        memory = f", {last['MiB']} MiB" if "MiB" in last else ""
        growth = ""
        if len(rows) > 1:
            more, before = number(rows[-1][0]) / number(rows[-2][0]), number(rows[-2][at])
            # (a shorter time is as much the clock's as the bench's)
            if before < (100 if unit == "µs" else 0.002):
                growth = "the size before took too little to be compared"
            else:
                growth = f"{number(rows[-1][at]) / before:.1f} times the time for {more:.1f} times the size"
        yield f"| {name} | {title} | {size} | {rows[-1][at]} {unit}{memory} | {rate} | {growth} |"
    for what, figures in sentences(text):
        yield f"| {name} | {what} | | {figures} | | |"


def run(program, command):
    """What a bench prints; None where its program isn't built or it fails, which is said."""
    if not os.path.exists(program):
        print(f"bench/all.py: {os.path.relpath(program, TOP)} isn't built", file=sys.stderr)
        return None
    done = subprocess.run(command, stdin=subprocess.DEVNULL, capture_output=True, text=True)
    if done.returncode:
        print(f"bench/all.py: {' '.join(command)} ended with {done.returncode}\n{done.stderr}{done.stdout[-500:]}", file=sys.stderr)
        return None
    return done.stdout


def main(words):
    only = words[1] if words[:1] == ["--only"] and len(words) == 2 else None
    saved = words[1] if words[:1] == ["--saved"] and len(words) == 2 else None
    if words and only is None and saved is None:
        print(__doc__.strip(), file=sys.stderr)
        return 64
    found, missing = [], []
    for name, (program, command) in BENCHES.items():
        if only is not None and only not in name:
            continue
        if saved is not None:
            path = os.path.join(saved, f"{name}.txt")
            text = open(path, encoding="utf-8").read() if os.path.exists(path) else None
        else:
            text = run(program, command)
        if text is None:
            missing.append(name)
        else:
            found += lines_of(name, text)
    head = [f"On {machine()}, {time.strftime('%Y-%m-%d')}; load {os.getloadavg()[0]:.1f} at the end.", ""]
    head += ["| bench | what | greatest size | took | rate | growth |", "|---|---|---|---|---|---|"]
    table = "\n".join([*head, *found])
    if saved is not None or only is not None or missing:
        print(table)
        if missing:
            print(f"not in the table, so nothing was written: {', '.join(missing)}", file=sys.stderr)
        return 1 if missing else 0
    with open(PAGE, encoding="utf-8") as file:
        page = file.read()
    before, rest = page.split(BEGIN)
    with open(PAGE, "w", encoding="utf-8") as file:
        file.write(f"{before}{BEGIN}\n{table}\n{END}{rest.split(END)[1]}")
    return 0


if __name__ == "__main__":
    sys.exit(main(sys.argv[1:]))
