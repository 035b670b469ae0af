#!/usr/bin/env python3
"""Tests of the script `twelf`: what it says while the program is proved and built, and what it leaves behind. Nothing is proved here: a
stand-in answers for rt, and PROGRAM for the program, where none is given a stand-in too.

    tools/tests/first_use.py [PROGRAM]
"""

import os
import pty
import shutil
import signal
import subprocess
import sys
import tempfile
import time

HERE = os.path.dirname(os.path.abspath(__file__))
TOP = os.path.dirname(os.path.dirname(HERE))
STAND_IN = os.path.join(TOP, "editors", "tests", "stand_in.py")
PROGRAM = os.path.abspath(sys.argv[1]) if len(sys.argv) > 1 else STAND_IN
failures, count = [], 0

CRATES = "# some crates\nlow:\nmiddle: low unicode\nbeside: low\ntwelf: middle\n"
# Proves a library by leaving its stamp, and builds the program by a link.
RT = """#!/bin/sh
name=$(basename "$PWD")
echo "$*" "$name" >>"$RT_CALLS"
[ "$name" != "$RT_FAILS_AT" ] || { echo "no proof of $name"; exit 1; }
[ "$name" != "$RT_SLEEPS_AT" ] || sleep 60
mkdir -p out/rlib
case $1 in
    lib) touch out/rlib/stamp ;;
    run) echo "rt: chose --jobs 2 for twelf" >&2; cp -P "$RT_PROGRAM" out/twelf ;;
esac
"""


def expect(what, is_so, found=""):
    global count
    count += 1
    if not is_so:
        failures.append(what)
        print(f"FAILED {what}\n{str(found)[:2000]}")


class Clone:
    """A repository of four crates in a folder of its own, as one finds it behind a clone."""

    def __init__(self, folder):
        self.top = os.path.join(folder, "a clone")
        self.logs = os.path.join(folder, "logs")
        self.calls = os.path.join(folder, "calls")
        tools = os.path.join(folder, "bin")
        for name in (self.logs, tools, *(os.path.join(self.top, "crates", it, "src") for it in ("low", "middle", "beside", "twelf"))):
            os.makedirs(name)
            if name.endswith("src"):
                self.write(os.path.join(name, "lib.rt"), "")
        shutil.copy(os.path.join(TOP, "twelf"), self.top)
        self.write(os.path.join(self.top, "crates.txt"), CRATES)
        self.write(os.path.join(tools, "rt"), RT)
        os.chmod(os.path.join(tools, "rt"), 0o755)
        program = os.path.join(folder, "program")
        os.symlink(PROGRAM, program)
        self.with_rt = {**os.environ, "PATH": f"{tools}:/usr/bin:/bin", "TMPDIR": self.logs, "RT_CALLS": self.calls, "RT_PROGRAM": program}
        self.without_rt = {**self.with_rt, "PATH": "/usr/bin:/bin"}

    @staticmethod
    def write(path, text):
        with open(path, "w", encoding="utf-8") as file:
            file.write(text)

    def command(self, *words):
        return [os.path.join(self.top, "twelf"), *words]

    def run(self, *words, env=None, **more):
        """The exit code, what was written, and what rt was asked for."""
        self.write(self.calls, "")
        streams = {"stdin": subprocess.DEVNULL, "stdout": subprocess.PIPE, "stderr": subprocess.PIPE, **more}
        done = subprocess.run(self.command(*words), env={**self.with_rt, **(env or {})}, timeout=100, text=True, **streams)
        with open(self.calls, encoding="utf-8") as file:
            return done.returncode, done.stdout, done.stderr, file.read().splitlines()

    def logs_left(self):
        return os.listdir(self.logs)


def building(clone):
    status, out, _, calls = clone.run(env=clone.without_rt)
    expect("without rt", (status, out, calls) == (69, "", []))
    status, out, error, calls = clone.run(env={"RT_FAILS_AT": "middle"})
    expect("a crate isn't proved", status == 70 and out == "" and "no proof of middle" in error, (status, error))
    expect("no crate behind it is tried", calls == ["lib low", "lib middle"], calls)
    expect("no log is left", clone.logs_left() == [])
    status, out, error, calls = clone.run()
    expect("what was proved is not proved again", status == 0 and calls == ["lib middle", "run twelf"], calls)
    begun = ["twelf: 1 of 3 crates proved, now middle", "twelf: 2 of 3 crates proved, now twelf", "twelf: 3 of 3 crates proved"]
    expect("how many are proved is told", error.splitlines()[1:] == begun, error)
    expect("and the program is run", out == "Twelf 1.4 LF profile\n%% OK %%\n", out)
    status, out, error, calls = clone.run(env=clone.without_rt)
    expect("a built program is run at once", (status, error, calls) == (0, "", []), error)
    source = os.path.join(clone.top, "crates", "low", "src", "lib.rt")
    os.utime(source, (time.time() + 5, time.time() + 5))
    expect("behind an edit it is built anew", clone.run()[3] == ["run twelf"])
    os.utime(source, (0, 0))
    expect("an edit of a crate beside it changes nothing", clone.run()[3] == [])


def interrupted(clone):
    shutil.rmtree(os.path.join(clone.top, "crates", "twelf", "out"))
    env = {**clone.with_rt, "RT_SLEEPS_AT": "twelf"}
    child = subprocess.Popen(clone.command(), env=env, stdin=subprocess.DEVNULL, stdout=subprocess.PIPE, stderr=subprocess.PIPE, start_new_session=True)
    time.sleep(1)
    expect("while it builds there is a log", len(clone.logs_left()) == 1, clone.logs_left())
    os.killpg(child.pid, signal.SIGINT)
    child.communicate(timeout=30)
    expect("Ctrl-C ends it and leaves no log", (child.returncode, clone.logs_left()) == (130, []), (child.returncode, clone.logs_left()))


def streams(clone):
    clone.run()
    leader, follower = pty.openpty()
    os.write(leader, b"quit\n")
    status, out, error, _ = clone.run(stdin=follower)
    told = "twelf: waits for commands on this terminal; quit or Ctrl-D ends\n"
    expect("at a terminal it says that it waits", (status, error) == (0, told) and out.startswith("Twelf"), (status, out, error))
    os.close(leader)
    os.close(follower)
    signature = os.path.join(clone.top, "a file.elf")
    clone.write(signature, "nat : type.\n")
    status, out, error, _ = clone.run("a file.elf", "none.elf", cwd=clone.top)
    expect("a name with a space, and a file that isn't there", status == 0 and "nat : type.\n" in out and "C2 NoFile none.elf\n" in out, out)
    done = subprocess.run(
        ["bash", "-c", '"$@" | true; echo ${PIPESTATUS[0]}', "", *clone.command(*[signature] * 2000)],
        env=clone.with_rt, stdin=subprocess.DEVNULL, capture_output=True, text=True,
    )  # fmt: skip
    expect("output to a closed pipe", done.stdout == "3\n" and done.stderr == "", (done.stdout, done.stderr))
    if PROGRAM != STAND_IN:
        done = subprocess.run(["bash", "-c", '"$@" <&-', "", *clone.command()], env=clone.with_rt, capture_output=True, text=True)
        expect("input that is closed can't be read", (done.returncode, done.stderr) == (2, ""), (done.returncode, done.stdout, done.stderr))


def main():
    with tempfile.TemporaryDirectory(prefix="first use ") as folder:
        clone = Clone(folder)
        for part in (building, interrupted, streams):
            part(clone)
    print(f"{count - len(failures)} of {count} tests passed" + ("" if PROGRAM != STAND_IN else ", against the stand-in"))
    return 1 if failures else 0


sys.exit(main())
