"""Runs the program once on a given input, and says how much of the processor's time that took, how much memory, and what was written."""
import os
import sys
import tempfile


def spent(program, words, given, folder="."):
    """The processor's seconds, which other work on the machine changes little, the peak of memory in MiB and the bytes written by one run in
    this folder; the exit code must be 0."""
    with tempfile.TemporaryFile() as source, tempfile.TemporaryFile() as sink:
        source.write(given)
        source.seek(0)
        child = os.fork()
        if child == 0:
            os.chdir(folder)
            os.dup2(source.fileno(), 0)
            os.dup2(sink.fileno(), 1)
            os.execv(program, [program] + words)
        _, status, used = os.wait4(child, 0)
        seconds = used.ru_utime + used.ru_stime
        sink.seek(0)
        told = sink.read()
    if status != 0:
        sys.exit(f"status {status}")
    return seconds, used.ru_maxrss / 1024, told


def read(declarations):
    """The commands that make these declarations."""
    return b"".join(b"readDecl\n" + d + b"\n" for d in declarations)


def measured(program, given, declarations):
    """Seconds and memory of a run in which so many declarations are accepted, and nothing is refused."""
    seconds, memory, told = spent(program, [], given)
    accepted = told.count(b"%% OK %%\n") - 1
    if accepted != declarations:
        sys.exit(f"{accepted} of {declarations} accepted")
    return seconds, memory
