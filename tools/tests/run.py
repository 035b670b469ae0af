#!/usr/bin/env python3
"""Tests of twelf-check and twelf-why: against PROGRAM where one is given, else against a stand-in that speaks the program's protocol
and checks no types.

    tools/tests/run.py [PROGRAM]
"""

import os
import pty
import re
import signal
import subprocess
import sys
import tempfile
import time

sys.dont_write_bytecode = True
HERE = os.path.dirname(os.path.abspath(__file__))
TOP = os.path.dirname(os.path.dirname(HERE))
sys.path.insert(0, HERE)
import cases  # noqa: E402
from cases import NUMBERS, OPEN, RULES  # noqa: E402

STAND_IN = os.path.join(TOP, "editors", "tests", "stand_in.py")
PROGRAM = os.path.abspath(sys.argv[1]) if len(sys.argv) > 1 else STAND_IN
IS_REAL = PROGRAM != STAND_IN
CHECK, WHY = os.path.join(TOP, "twelf-check"), os.path.join(TOP, "twelf-why")
failures, count = [], 0

# Of twelf-why: what stands before, the declaration, and what it has to say.
REASONS = [
    (RULES, "t : plus (s z) (s z) (s z) = plus-s plus-z.", ["argument 1 of `plus-s`: `plus-z`", "has the type   plus z X X", "due   plus z (s z) z"]),
    (RULES, "c : {N:nat} plus z N nat.", ["argument 3 of `plus`: `nat`", "`nat` is a family"]),
    (RULES, "c : plus z z.", ["`plus` takes 3 arguments, and 2 are written"]),
    (RULES, "c : nat -> z.", ["`z` is no family"]),
    (RULES + OPEN, "b : plus X Y Z -> k X -> type.", ["argument 1 of `k`: `X`", "has the type   nat", "due   a"]),
    (RULES, "d : nat = plus-z.", ["the term: `plus-z`", "has the type   plus z X X", "due   nat"]),
    (RULES, "d : plus z z z = [x] plus-z.", ["`[x] plus-z`", "is a function", "due   plus z z z"]),
    (RULES, "d : plus z z z = plus-z z.", ["`plus-z` takes no arguments, and 1 is written"]),
    (
        NUMBERS + "ps : {M:nat} {N:nat} {P:nat} plus M N P -> type.\npz : {N:nat} plus z N N.\n",
        "d : ps z (s z) (s z) (pz z) -> type.",
        ["argument 1 of `pz`: `z`", "but the other parts determine   s z"],
    ),
    (OPEN, "j : k (E V).", ["variable `V`, as `(V : a)`", "variable `E`"]),
    (OPEN, "m : h c (W : k (E (V : a))).", ["accepted with `c` in the place of"]),
]


def run(words, program=PROGRAM, folder=None, seconds=900, **streams):
    """The exit code and what was written to the two outputs."""
    streams = {"stdin": subprocess.DEVNULL, "stdout": subprocess.PIPE, "stderr": subprocess.PIPE, **streams}
    done = subprocess.run(words, env={**os.environ, "TWELF": program}, cwd=folder, timeout=seconds, **streams)
    return done.returncode, *(it.decode("utf-8", "replace") if it is not None else "" for it in (done.stdout, done.stderr))


def expect(what, is_so, found=""):
    global count
    count += 1
    if not is_so:
        failures.append(what)
        print(f"FAILED {what}\n{str(found)[:2000]}")


def write(path, text):
    with open(path, "w", encoding="utf-8") as file:
        file.write(text)
    return path


def program_of(path, text):
    """A program of its own, as a shell script."""
    write(path, f"#!/bin/sh\n{text}\n")
    os.chmod(path, 0o755)
    return path


def each_refusal(folder):
    file = os.path.join(folder, "refused.elf")
    told = {it[2].split()[1] for it in cases.REFUSED} | {"E0"}
    expect("a case for each refusal of the page", told == {code for code, _ in cases.refusals_of_page()}, told)
    for text, wanted in cases.refused(IS_REAL):
        write(file, text)
        place, code, word = wanted.split()
        status, out, _ = run([CHECK, file])
        lines = out.splitlines()
        expect(f"{code}: exit code", status == 1, (status, out))
        expect(f"{code}: the refusal and its sentence", lines and lines[0].startswith(f"{file}:{place} {code} {word}: "), out)
        line, column = map(int, place.split(":"))
        source = text.splitlines()[line - 1]
        if len(source) < 100:
            expect(f"{code}: the source line", lines[1:3] == [f"    {source}", "    " + " " * (column - 1) + "^"], out)
        else:
            expect(f"{code}: the source line is clipped", len(lines) > 2 and len(lines[1]) < 120 and lines[2].endswith("^"), out)
        status, out, _ = run([CHECK, "--format=gnu", file])
        expect(f"{code}: --format=gnu", re.fullmatch(rf"{re.escape(file)}:{place}: {code} {word}: .+\n", out), out)
        status, out, _ = run([WHY, file, str(line)])
        first = next((it for it in out.splitlines() if not it.startswith("refused before")), "")
        expect(f"{code}: twelf-why", first.startswith(file) and (code in first or "E1" == code), (status, out))
    stand_in = STAND_IN
    write(file, "nat : type.\nrefuse-E0-Memory : nat.\n")
    status, out, _ = run([CHECK, file], program=stand_in)
    expect("E0", status == 1 and out.startswith(f"{file}: E0 Memory: "), (status, out))
    status, out, _ = run([WHY, file, "2"], program=stand_in)
    expect("E0: twelf-why", status == 1 and "E0 Memory" in out, (status, out))
    if IS_REAL:
        write(file, "b : type.\nz : b.\ns : b -> b.\n%prefix 10 s.\nd : b -> b = [x] z.\nc = d (" + "s " * 20000 + "z).\n")
        status, out, _ = run([CHECK, file])
        expect("E0 where a limit is passed", status == 1 and out.startswith(f"{file}: E0 Memory: "), (status, out))


def files(folder):
    good = write(os.path.join(folder, "good one.elf"), "nat : type.\n")
    bad = write(os.path.join(folder, "bad one.elf"), "% é\n\té : natt.\n")
    status, out, _ = run([CHECK, "good one.elf"], folder=folder)
    expect("accepted with spaces in the name: nothing is written", (status, out) == (0, ""), (status, out))
    status, out, _ = run([CHECK, "good one.elf", "bad one.elf", "none.elf", "/"], folder=folder)
    wanted = ["bad one.elf:2:7 E4 Unknown: ", "    \té : natt.", "    \t    ^", "none.elf: C2 NoFile: ", "/: C3 FileFault: "]
    lines = out.splitlines()
    expect("refused, absent and a folder", status == 1 and len(lines) == 5 and all(a.startswith(b) for a, b in zip(lines, wanted)), out)
    status, out, _ = run([CHECK, "-v", good])
    expect("-v shows all", status == 0 and "nat : type.\n" in out and out.endswith("%% OK %%\n"), out)
    write(os.path.join(folder, "-v.elf"), "nat : type.\n")
    expect("a name that begins with a dash", run([CHECK, "--", "-v.elf"], folder=folder)[:2] == (0, ""))
    expect("no words", run([CHECK])[0] == 64)
    expect("an unknown option", run([CHECK, "--foo", good])[0] == 64)
    expect("a name with a line end", run([CHECK, "a\nb"])[0] == 64)
    status, out, _ = run([WHY, bad, "2"])
    expect("twelf-why: bytes and spaces", "bad one.elf:2:7 E4" in out and "    \t    ^" in out, out)
    expect("twelf-why: accepted", "is accepted" in run([WHY, good, "1"])[1])
    expect("twelf-why: no declaration there", run([WHY, bad, "1"])[0] == 1 and run([WHY, good, "99"])[0] == 1)
    expect("twelf-why: no such file", run([WHY, os.path.join(folder, "none.elf"), "1"])[0] == 66)
    expect("twelf-why: bad words", run([WHY, good])[0] == 64 and run([WHY, good, "x"])[0] == 64)
    for text, said in (("nat : type.\nc : nat\n", "no dot ends"), ("c : %{ nat.\n", "a fault of its tokens")):
        write(bad, text)
        status, out, _ = run([WHY, bad, str(text.count("\n"))])
        expect(f"twelf-why: {said}", said in out, out)
    if IS_REAL:
        with open(os.path.join(folder, "long.elf"), "wb") as file:
            file.write(b" " * 16777217)
        status, out, _ = run([CHECK, "long.elf"], folder=folder)
        expect("C4", status == 1 and out.startswith("long.elf: C4 TextLong: "), out)


def streams(folder):
    file = write(os.path.join(folder, "a.elf"), "nat : type.\nc : natt.\n")
    leader, follower = pty.openpty()
    for words in ([CHECK, file], [WHY, file, "2"]):
        name = os.path.basename(words[0])
        wanted = run(words)
        expect(f"{name}: input from a terminal", run(words, stdin=follower) == wanted)
        expect(f"{name}: input from a pipe that stays open", run(words, stdin=subprocess.PIPE) == wanted)
        for closed in ("<&-", "2>&-"):
            found = run(["sh", "-c", f'exec "$@" {closed}', "", *words])
            expect(f"{name}: {closed}", found[:2] == wanted[:2], found)
        expect(f"{name}: >&-", run(["sh", "-c", 'exec "$@" >&-', "", *words])[0] == wanted[0])
        status, out, error = run(["bash", "-c", '"$@" | true; echo ${PIPESTATUS[0]}', "", *words])
        expect(f"{name}: output to a closed pipe", out.strip() in ("141", str(wanted[0])) and "Traceback" not in error, (out, error))
    os.close(leader)
    os.close(follower)


def many(folder):
    """10,000 declarations, and a refused one behind them."""
    text = "nat : type.\n" + "".join(f"c{n} : nat.\n" for n in range(9999))
    file = write(os.path.join(folder, "many.elf"), text + "d : natt.\n")
    status, out, _ = run([CHECK, file])
    expect("10,000 declarations", status == 1 and out.startswith(f"{file}:10001:5 E4"), (status, out))
    status, out, error = run(["bash", "-c", '"$@" | head -n 1; echo ${PIPESTATUS[0]}', "", CHECK, "-v", file])
    expect("-v to a closed pipe", out.split("\n")[1] == "141" and error == "", (out, error))
    status, out, _ = run([WHY, "--seconds", "250", file, "10001"])
    expect("twelf-why behind 10,000 declarations", f"{file}:10001:5 E4" in out and "much like it: `nat`" in out, (status, out))


def failing(folder):
    """Programs that end by themselves, write nothing or never answer."""
    file = write(os.path.join(folder, "a.elf"), "nat : type.\nc : natt.\n")
    fails = program_of(os.path.join(folder, "fails"), "exit 3")
    expect("the program's own code", run([CHECK, file], program=fails)[0] == 3)
    expect("twelf-why: the program ends", run([WHY, file, "2"], program=fails)[0] == 69)
    expect("no program", run([CHECK, file], program="/nowhere/twelf")[0] == 69 and run([WHY, file, "2"], program="/nowhere/twelf")[0] == 69)
    silent = program_of(os.path.join(folder, "silent"), "printf 'Twelf\\n%%%% OK %%%%\\n'; exec sleep 100")
    begin = time.monotonic()
    status, out, _ = run([WHY, "--seconds", "1", file, "2"], program=silent)
    expect("twelf-why ends when the time is up", status == 1 and "time was up" in out and time.monotonic() - begin < 60, (status, out))
    mute = program_of(os.path.join(folder, "mute"), "exec sleep 100")
    status, out, _ = run([WHY, "--seconds", "1", file, "2"], program=mute)
    expect("twelf-why ends where the program says nothing", status == 1 and "time was up" in out, (status, out))
    dies = program_of(os.path.join(folder, "dies"), "printf 'Twelf\\n%%%% OK %%%%\\n'; read a; exit 4")
    status, out, _ = run([WHY, file, "2"], program=dies)
    expect("twelf-why: the program dies", status == 1 and "code 4" in out, (status, out))


def watching(folder):
    file = write(os.path.join(folder, "a.elf"), "nat : type.\nc : natt.\n")
    child = subprocess.Popen(
        [CHECK, "--watch", "--format=gnu", file], env={**os.environ, "TWELF": PROGRAM}, stdin=subprocess.DEVNULL,
        stdout=subprocess.PIPE, stderr=subprocess.STDOUT, text=True,
    )  # fmt: skip
    lines = iter(child.stdout.readline, "")
    begin = [next(lines) for _ in range(3)]
    expect("--watch: refused", begin[0] == "twelf-check: checks\n" and ":2:5: E4" in begin[1] and "refused; waits" in begin[2], begin)
    os.replace(write(f"{file} new", "nat : type.\nc : nat.\n"), file)
    again = [next(lines) for _ in range(2)]
    expect("--watch: mended", again[0] == "twelf-check: checks\n" and "accepted; waits" in again[1], again)
    child.send_signal(signal.SIGINT)
    rest = child.communicate(timeout=60)[0]
    expect("--watch: Ctrl-C", child.returncode == 130 and rest == "", (child.returncode, rest))


def reasons(folder):
    file = os.path.join(folder, "why.elf")
    for before, declaration, wanted in REASONS:
        write(file, before + declaration + "\n")
        status, out, _ = run([WHY, file, str(before.count("\n") + 1)])
        expect(f"twelf-why: {declaration}", status == 0 and all(it in out for it in wanted), out)


def main():
    with tempfile.TemporaryDirectory(prefix="tools tests ") as folder:
        for part in (files, streams, each_refusal, failing, watching, *([reasons] if IS_REAL else []), many):
            part(folder)
    print(f"{count - len(failures)} of {count} tests passed" + ("" if IS_REAL else ", against the stand-in"))
    return 1 if failures else 0


sys.exit(main())
