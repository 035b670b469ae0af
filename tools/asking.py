"""Asks the program about declarations. Nothing is claimed here: each type that is told is one that the program has printed, and each
piece of advice was accepted by it."""

import time

import prover
import written

# How long the program may think about one question, in seconds.
QUESTION = 10
ENTRY = "why-try"


class Lost(Exception):
    """The program answered a question in a way that leads no further."""


class Asker:
    """A session that has made the declarations before the one in question."""

    def __init__(self, source, seconds):
        self.source, self.seconds, self.table, self.count, self.left_out = source, seconds, {}, 0, []
        self.session = prover.Session(seconds)
        self.end = time.monotonic() + seconds

    def until(self):
        return min(self.end, time.monotonic() + QUESTION)

    def declare(self, text, until):
        """The lines of the program's answer to a declaration, and whether it was accepted."""
        return self.session.declare(text.encode("utf-8", "surrogateescape"), until)

    def load(self, before):
        self.session.ask(b"set chatter 0", self.until())
        for it in before:
            if it.is_whole:
                if self.declare(it.text, self.end)[1]:
                    self.table.update(it.fixities())
                else:
                    self.left_out.append(it.first_line)
        self.session.ask(b"set chatter 3", self.until())

    def fresh(self, name):
        """A name that doesn't occur in the file."""
        while name in self.source:
            name += "'"
        return name

    def ask(self, text):
        """The code of the refusal of a declaration, or None and the line by which it is shown."""
        lines, done = self.declare(text, self.until())
        line = lines[-1] if lines else b""
        if done:
            return None, line.decode("utf-8", "replace")
        refusal = prover.Refusal.read(line, b"stdin")
        if refusal is None:
            raise Lost
        return refusal.code, line.decode("utf-8", "replace")

    def fits(self, text):
        """Whether a declaration isn't refused as a mismatch."""
        code, _ = self.ask(text)
        if code in (None, "E6", "E7"):
            return True
        if code == "E5":
            return False
        raise Lost

    def shown(self, text):
        """The quantifiers and the type by which an accepted declaration is shown, as trees with the text; None where it is refused."""
        code, line = self.ask(text)
        if code is not None:
            return None
        try:
            ty, _ = written.read_declaration(list(written.tokens(line)), self.table)
        except written.Unread:
            raise Lost from None
        return ty, line

    def classifier(self, name):
        """The type or kind of a declared name as it is shown, or None."""
        lines, done = self.session.ask(b"decl " + name.encode("utf-8", "surrogateescape"), self.until())
        if not done or not lines:
            return None
        line = lines[-1].decode("utf-8", "replace")
        try:
            ty, _ = written.read_declaration(list(written.tokens(line)), self.table)
        except written.Unread:
            return None
        return line[ty.start : ty.end]

    def is_family(self, name):
        """Whether a name is declared as a family; None where it isn't declared."""
        found = self.classifier(name)
        return None if found is None else found.split()[-1] == "type"

    def new_entry(self):
        self.count += 1
        return f"{self.fresh(ENTRY)}-{self.count}"


def with_holes(name, count, asker):
    """A declared name on so many holes."""
    row = asker.table.get(name)
    if row and row[0] == "infix" and count >= 2:
        return " ".join(["(_", name, "_)", *["_"] * (count - 2)])
    if row and row[0] == "infix" or row and not count:
        raise Lost
    if row:
        return f"{name} _" if row[0] == "prefix" else f"_ {name}"
    return " ".join([name, *["_"] * count])


def plural(count):
    return f"{count or 'no'} argument{'' if count == 1 else 's'}"
