"""Runs the program of this repository and reads what it answers. The scripts `twelf-check` and `twelf-why` stand on this module."""

import os
import re
import selectors
import subprocess
import sys
import time
import unicodedata

ROOT = os.path.dirname(os.path.dirname(os.path.abspath(__file__)))
ENDS = (b"%% OK %%", b"%% ABORT %%")
# The widest piece of a source line that is shown.
WIDTH = 100
# What a shell says of a program that was ended by a closed pipe, and of one that was interrupted.
CLOSED_PIPE, INTERRUPTED = 128 + 13, 128 + 2


def program():
    """The program that is run: the one that the variable TWELF names, else `twelf` at the top of the repository."""
    return os.environ.get("TWELF") or os.path.join(ROOT, "twelf")


def open_streams():
    """Opens the standard streams that the caller has closed, so that no other file gets their numbers."""
    for number in (0, 1, 2):
        try:
            os.fstat(number)
        except OSError:
            os.open(os.devnull, os.O_RDWR)
    for name in ("stdout", "stderr"):
        if getattr(sys, name) is None:
            setattr(sys, name, open(os.devnull, "w", encoding="utf-8"))
        getattr(sys, name).reconfigure(encoding="utf-8", errors="surrogateescape")


def run_to_end(main, words):
    """Runs a script's main function; a closed pipe and Ctrl-C end it quietly."""
    open_streams()
    try:
        status = main(words)
        sys.stdout.flush()
    except BrokenPipeError:
        os.dup2(os.open(os.devnull, os.O_WRONLY), 1)
        status = CLOSED_PIPE
    except KeyboardInterrupt:
        status = INTERRUPTED
    sys.exit(status)


class Refusal:
    """A line by which the program refuses something. Line and column are None where it tells no place; they count from 1, columns in bytes."""

    PLACED = re.compile(rb":(\d+):(\d+) (E\d+) (\w+)(?: (.*))?", re.S)
    PLAIN = re.compile(rb"([EC]\d+) (\w+)(?: (.*))?", re.S)

    def __init__(self, line, column, code, name, shown):
        self.line, self.column, self.code, self.name, self.shown = line, column, code, name, shown

    @staticmethod
    def read(text, origin):
        """Reads a line of the program, whose texts come from this origin; None where it is no refusal."""
        found = Refusal.PLACED.fullmatch(text[len(origin) :]) if text.startswith(origin) else None
        if found:
            line, column, code, name, shown = found.groups()
            return Refusal(int(line), int(column), code.decode(), name.decode(), decoded(shown or b""))
        found = Refusal.PLAIN.fullmatch(text)
        return found and Refusal(None, None, found[1].decode(), found[2].decode(), decoded(found[3] or b""))

    def message(self):
        """The refusal with the sentence about it, in one line."""
        shown = self.shown if self.code not in ("C2", "C3", "C4") else ""
        return ": ".join(part for part in (f"{self.code} {self.name}", sentences().get(self.code), shown) if part)


def decoded(text):
    """Bytes as text that may be shown: each byte that is no UTF-8 and each control character is a replacement character."""
    return re.sub(r"[\x00-\x08\x0a-\x1f\x7f-\x9f]", "\ufffd", text.decode("utf-8", "replace"))


def sentences(known={}):
    """The sentence of docs/REFUSALS.md about each code: the heading's, or else the first one behind 'Why'."""
    if not known:
        try:
            with open(os.path.join(ROOT, "docs", "REFUSALS.md"), encoding="utf-8") as page:
                text = page.read()
        except OSError:
            text = ""
        known["read"] = ""
        for part in re.split(r"^## ", text, flags=re.M)[1:]:
            head = re.match(r"([EC]\d+) \w+(?:: (.+))?", part)
            why = re.search(r"\*\*Why\.\*\*\s+(.+?)\.(?=\s|\Z)", part, re.S)
            if head and (head[2] or why):
                known[head[1]] = head[2] or " ".join(why[1].split())
    return known


def columns_of(text):
    """How many columns of a terminal a text takes."""
    return sum(0 if unicodedata.combining(it) else 2 if unicodedata.east_asian_width(it) in "WF" else 1 for it in text)


def pointed(source, line, column):
    """The source line of a place and a line with a caret below it, clipped to what fits a terminal; nothing where no such line stands."""
    lines = source.split(b"\n")
    if not 1 <= line <= len(lines):
        return []
    text = lines[line - 1].rstrip(b"\r")
    before, behind = decoded(text[: column - 1]), decoded(text[column - 1 :])
    if len(before) > WIDTH // 2:
        before = ".. " + before[len(before) - WIDTH // 2 :]
    room = WIDTH - len(before)
    if len(behind) > room:
        behind = behind[:room] + " .."
    blank = "".join("\t" if it == "\t" else " " * columns_of(it) for it in before)
    return [before + behind, blank + "^"]


class TimeIsUp(Exception):
    """The program didn't answer in the time that was given."""


class Ended(Exception):
    """The program ended; the argument is its exit code."""


class Session:
    """A running program that is asked one command after the other, until `close`."""

    def __init__(self, seconds):
        """Starts it, and waits for its first line: so many seconds for one that TWELF names, and without a limit for `twelf` at the top,
        which may have to be built first and says so."""
        self.left = b""
        self.process = subprocess.Popen([program()], stdin=subprocess.PIPE, stdout=subprocess.PIPE)
        os.set_blocking(self.process.stdin.fileno(), False)
        try:
            self.reply(time.monotonic() + seconds if "TWELF" in os.environ else None)
        except BaseException:
            self.close()
            raise

    def close(self):
        self.process.kill()
        self.process.wait()
        for pipe in (self.process.stdin, self.process.stdout):
            try:
                pipe.close()
            except BrokenPipeError:
                pass

    def ask(self, command, until):
        """The lines of the reply to a command, and whether it was done; until is the moment at which waiting ends."""
        self.send(command, until)
        return self.reply(until)

    def declare(self, text, until):
        """The same for one declaration's text."""
        return self.ask(b"readDecl\n" + text, until)

    def wait(self, pipe, event, until):
        with selectors.DefaultSelector() as ready:
            ready.register(pipe, event)
            if not ready.select(None if until is None else max(0, until - time.monotonic())):
                raise TimeIsUp

    def send(self, command, until):
        rest = command + b"\n"
        while rest:
            self.wait(self.process.stdin, selectors.EVENT_WRITE, until)
            try:
                rest = rest[os.write(self.process.stdin.fileno(), rest) :]
            except BlockingIOError:
                pass
            except BrokenPipeError:
                raise Ended(self.process.wait()) from None

    def reply(self, until):
        lines = []
        while True:
            line, end, rest = self.left.partition(b"\n")
            if not end:
                self.wait(self.process.stdout, selectors.EVENT_READ, until)
                piece = os.read(self.process.stdout.fileno(), 1 << 16)
                if not piece:
                    raise Ended(self.process.wait())
                self.left += piece
                continue
            self.left = rest
            if line in ENDS:
                return lines, line == ENDS[0]
            lines.append(line)
