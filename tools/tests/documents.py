#!/usr/bin/env python3
"""Runs what the pages for users show: sessions, commands behind a `$`, and the inputs of docs/REFUSALS.md, each with what it writes.

    tools/tests/documents.py PROGRAM

In a page `> ` marks what is typed into a session, and `$ ` what is typed into a shell at the top of the repository.
"""

import os
import re
import subprocess
import sys
import tempfile
import time

sys.dont_write_bytecode = True
HERE = os.path.dirname(os.path.abspath(__file__))
TOP = os.path.dirname(os.path.dirname(HERE))
sys.path.insert(0, os.path.join(TOP, "tools"))
import cases  # noqa: E402
import prover  # noqa: E402

SECONDS = 60
failures, count = [], 0

# What stands before the inputs of a refusal's section, where it isn't the numbers with the rules of addition.
BEFORE = {
    "E3": "a : type.\nb : type.\nd : type.\nc : a.\ni : a -> a -> a.\n",
    "E8": "b : type.\n",
    "E9": "b : type.\n",
    "E10": "b : type.\n",
    "E6": cases.OPEN,
    "E7": cases.OPEN,
    "E12": cases.CALLS,
    "E13": cases.UNDETERMINED,
    "E14": cases.COPYING,
    "E15": cases.LOOPING,
    "E20": cases.LOOP,
    "E22": cases.RULES + "vec : nat -> type.\nlen : vec N -> nat -> type.\n",
}


def expect(what, found, wanted):
    global count
    count += 1
    if found != wanted:
        failures.append(what)
        print(f"FAILED {what}\n  found  {found}\n  wanted {wanted}")


def page(name):
    with open(os.path.join(TOP, name), encoding="utf-8") as file:
        return file.read()


def blocks(text):
    """Each indented block of a page: the number of its first line, and its lines."""
    lines, first = [], None
    for number, line in enumerate([*text.splitlines(), "-"], 1):
        if line.startswith("    ") or (lines and not line):
            first = first or number
            lines.append(line[4:])
        elif lines:
            while not lines[-1]:
                lines.pop()
            yield first, lines
            lines, first = [], None


def asked(session, lines):
    """All that the program writes when these lines are typed, up to the end of its reply."""
    try:
        found, done = session.ask("\n".join(lines).encode(), time.monotonic() + SECONDS)
    except prover.TimeIsUp:
        return ["no answer"]
    return [*(it.decode() for it in found), prover.ENDS[0 if done else 1].decode()]


def sessions(name):
    """The sessions of a page are one, from the first block on; what the text calls declared stands between two of them."""
    session = prover.Session(SECONDS)
    text = page(name)
    declared = re.search(r"^(?:So are declared (.*?), and then|Where (.*?) are declared):$", text, re.M | re.S)
    for number, lines in blocks(text):
        if not any(line.startswith("> ") for line in lines):
            continue
        if declared and text.count("\n", 0, declared.start()) < number:
            for declaration in re.findall(r"`([^`]+)`", declared[1] or declared[2]):
                expect(f"{name}: {declaration}", asked(session, ["readDecl", declaration])[-1], "%% OK %%")
            declared = None
        typed, wanted = [], []
        for line in [*lines, None]:
            is_typed = line is not None and line.startswith("> ")
            # The lines of a dialogue are typed all at once.
            is_open = typed[:1] == ["top"] and wanted[-1:] != ["%% OK %%"]
            if typed and wanted and not is_open and (line is None or is_typed):
                expect(f"{name}:{number}: {' / '.join(typed)}", asked(session, typed), wanted)
                typed, wanted = [], []
            if is_typed:
                typed.append(line[2:])
            elif line is not None:
                wanted.append(line)
        if typed and typed != ["quit"]:
            expect(f"{name}:{number}", typed, [])
    session.close()


def commands(name, folder):
    """What is typed into a shell writes what stands below it."""
    for number, lines in blocks(page(name)):
        if lines[0].startswith("$ "):
            done = subprocess.run(["bash", "-c", lines[0][2:]], cwd=folder, stdin=subprocess.DEVNULL, capture_output=True, text=True)
            expect(f"{name}:{number}: {lines[0]}", (done.stdout + done.stderr).splitlines(), lines[1:])


def guide(folder):
    """The file of the guide, also with the mistake that the guide makes in it."""
    signature = next(lines for _, lines in blocks(page("docs/GUIDE.md")) if lines[0] == "nat : type.")
    file = os.path.join(folder, "numbers.elf")
    with open(file, "w", encoding="utf-8") as it:
        it.write("\n".join(signature) + "\n")
    commands("docs/GUIDE.md", folder)
    mistake = re.search(r"write\s+`(plus-z [^`]+)`\s+in the place\s+of line (\d+)", page("docs/GUIDE.md"))
    signature[int(mistake[2]) - 1] = mistake[1]
    with open(file, "w", encoding="utf-8") as it:
        it.write("\n".join(signature) + "\n")
    found = subprocess.run([os.path.join(folder, "twelf"), "numbers.elf"], cwd=folder, stdin=subprocess.DEVNULL, capture_output=True, text=True)
    wanted = next(lines for _, lines in blocks(page("docs/GUIDE.md")) if re.match(r"numbers\.elf:\d", lines[0]))
    expect("docs/GUIDE.md: the mistake", found.stdout.splitlines()[-len(wanted) :], wanted)


def inputs_of(part):
    """The inputs that a section of the page of refusals writes out, each as its lines and the line of its refusal."""
    for _, lines in blocks(part):
        typed = []
        for line in filter(None, lines):
            if not re.match(r"(stdin:\d+:\d+ E|[EC]\d+ [A-Z])", line):
                typed.append(line)
                continue
            if typed and not any(" .. " in it for it in typed):
                yield typed, line
            typed = []


def refusals():
    """Each input of the page of refusals that is written out gives its line, and has its case among those of the tools."""
    for part in re.split(r"^## ", page("docs/REFUSALS.md"), flags=re.M)[1:]:
        code = re.match(r"([EC]\d+)?", part)[0]
        session = prover.Session(SECONDS)
        for declaration in BEFORE.get(code, cases.RULES).splitlines():
            asked(session, ["readDecl", declaration])
        for typed, wanted in inputs_of(part):
            replies = [asked(session, [line] if code.startswith("C") else ["readDecl", line]) for line in typed]
            expect(f"docs/REFUSALS.md: {typed[-1]}", replies[-1], [wanted, "%% ABORT %%"])
        for text in re.findall(r"`([^`]+)` is accepted", part):
            expect(f"docs/REFUSALS.md: {text}", asked(session, ["readDecl", text])[-1], "%% OK %%")
        for text, wanted in re.findall(r"`(_ = [^`]+)` shows\s+`([^`]+)`", part):
            expect(f"docs/REFUSALS.md: {text}", asked(session, ["readDecl", text]), [wanted, "%% OK %%"])
        session.close()
    shown = {line for _, lines in blocks(page("docs/REFUSALS.md")) for line in lines}
    for _, declaration, wanted in cases.REFUSED:
        place, rest = wanted.split(" ", 1)
        line = f"stdin:1:{place.split(':')[1]} {rest}"
        is_shown = len(declaration) > 100 or declaration in shown
        expect(f"docs/REFUSALS.md shows {declaration[:60]}", is_shown and any(it.startswith(line) for it in shown), True)


def main(words):
    program = os.path.abspath(words[0])
    with tempfile.TemporaryDirectory(prefix="documents tests ") as folder:
        for name, target in (("twelf", program), *((it, os.path.join(TOP, it)) for it in ("twelf-check", "twelf-why", "examples"))):
            os.symlink(target, os.path.join(folder, name))
        os.environ["TWELF"] = program
        sessions("docs/TOUR.md")
        sessions("docs/GUIDE.md")
        with open(os.path.join(folder, "sums.elf"), "w", encoding="utf-8") as it:
            it.write(cases.RULES + "t : plus (s z) (s z) (s z) = plus-s plus-z.\n")
        for name in ("README.md", "docs/TOUR.md"):
            commands(name, folder)
        guide(folder)
        refusals()
    print(f"{count - len(failures)} of {count} tests passed")
    return 1 if failures else 0


if __name__ == "__main__":
    prover.open_streams()
    if len(sys.argv) != 2:
        sys.exit("usage: tools/tests/documents.py PROGRAM")
    sys.exit(main(sys.argv[1:]))
