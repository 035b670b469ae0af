"""Cuts a file into declarations and reads their terms as trees, as far as `twelf-why` needs it. What it reads wrongly leads to
questions that the program refuses, and to no claim."""

import re

TOKEN = re.compile(
    r"""(?P<blank>\s+|%(?=[\s%]|\Z)[^\n]*)
      | (?P<open>%\{) | (?P<end>%\.) | (?P<keyword>%[^\s:.()\[\]{}"%]+)
      | (?P<mark>[:.()\[\]{}]) | (?P<name>[^\s:.()\[\]{}"%]+) | (?P<bad>.)""",
    re.X | re.S,
)
CLOSERS = {"(": ")", "{": "}", "[": "]"}
FIXITY = re.compile(r"%(infix|prefix|postfix)$")


class Unread(Exception):
    """A text that this module can't read."""


class Token:
    def __init__(self, kind, text, start):
        self.kind, self.text, self.start, self.end = kind, text, start, start + len(text)


def tokens(text):
    """The tokens of a text; a fault is a token of the kind bad, and the last one."""
    at = 0
    while at < len(text):
        found = TOKEN.match(text, at)
        kind, word = found.lastgroup, found[0]
        if kind == "open":
            at = behind_comment(text, at)
            if at is None:
                yield Token("bad", "%{", found.start())
                return
            continue
        at = found.end()
        if kind != "blank":
            yield Token(kind, word, found.start())
        if kind in ("end", "bad"):
            return


def behind_comment(text, at):
    """The end of the comment that begins here; comments nest."""
    level = 0
    for found in re.compile(r"%\{|\}%").finditer(text, at):
        level += 1 if found[0] == "%{" else -1
        if level == 0:
            return found.end()
    return None


class Declaration:
    """The tokens of a declaration with their text in the file; the dot is the last token of a whole one."""

    def __init__(self, source, found):
        self.tokens, self.start, self.end = found, found[0].start, found[-1].end
        self.text = source[self.start : self.end]
        self.first_line = source.count("\n", 0, self.start) + 1
        self.last_line = source.count("\n", 0, self.end) + 1
        self.is_whole = found[-1].text == "." and found[-1].kind == "mark"

    def declared(self):
        """The name that it declares, or None."""
        found = [it for it in self.tokens if it.text != "%abbrev"]
        is_one = len(found) > 1 and found[0].kind == "name" and found[1].text in (":", "=")
        return found[0].text if is_one and found[0].text != "_" else None

    def fixities(self):
        """The rows that it puts into the table of operators."""
        words = [it.text for it in self.tokens]
        found = FIXITY.match(words[0])
        if not found:
            return {}
        kind, side = found[1], words[1] if found[1] == "infix" else None
        rest = words[2:-1] if side else words[1:-1]
        return {name: (kind, side, int(rest[0])) for name in rest[1:]} if rest and rest[0].isdigit() else {}


def declarations(source):
    """The declarations of a file in order; behind a fault of its tokens nothing more is read."""
    found = []
    for token in tokens(source):
        if token.kind == "end":
            break
        found.append(token)
        if (token.text == "." and token.kind == "mark") or token.kind == "bad":
            yield Declaration(source, found)
            found = []
    if found:
        yield Declaration(source, found)


class Node:
    """A tree of a term or type. Kinds: name, hole, type, app (head and args), pi and lam (name, domain or None, body), arrow (domain,
    body) and ascription (body, domain). Start and end are places in the text that was read."""

    def __init__(self, kind, start, end, name=None, head=None, args=(), domain=None, body=None, form=None):
        self.kind, self.start, self.end, self.name, self.head = kind, start, end, name, head
        self.args, self.domain, self.body, self.form = list(args), domain, body, form

    def children(self):
        return [it for it in (self.head, *self.args, self.domain, self.body) if it is not None]

    def walk(self):
        yield self
        for child in self.children():
            yield from child.walk()


class Reader:
    """Reads sequences by a table of operators."""

    def __init__(self, found, table):
        self.tokens, self.at, self.table = found, 0, table

    def peek(self):
        return self.tokens[self.at] if self.at < len(self.tokens) else None

    def take(self, text=None):
        token = self.peek()
        if token is None or (text is not None and token.text != text):
            raise Unread
        self.at += 1
        return token

    def sequence(self):
        items = []
        while (token := self.peek()) is not None and token.text not in (")", "}", "]", ".", "="):
            if token.text in "{[":
                items.append(self.binder())
                break
            items.append(self.item())
        return self.ascribed(items)

    def item(self):
        token = self.take()
        if token.text == "(":
            inner = self.sequence()
            closer = self.take(")")
            inner.start, inner.end = token.start, closer.end
            return inner
        if token.text == ":" or token.text in ("->", "<-") or token.text in self.table:
            return token
        if token.kind != "name":
            raise Unread
        kind = {"_": "hole", "type": "type"}.get(token.text, "name")
        return Node(kind, token.start, token.end, name=token.text)

    def binder(self):
        opener = self.take()
        name, domain = self.take(), None
        if self.peek() is not None and self.peek().text == ":":
            self.take()
            domain = self.sequence()
        self.take(CLOSERS[opener.text])
        body = self.sequence()
        return Node("pi" if opener.text == "{" else "lam", opener.start, body.end, name=name.text, domain=domain, body=body)

    def ascribed(self, items):
        places = [at for at, it in enumerate(items) if isinstance(it, Token) and it.text == ":"]
        if not places:
            return self.arrows(items)
        term, domain = self.ascribed(items[: places[-1]]), self.arrows(items[places[-1] + 1 :])
        return Node("ascription", term.start, domain.end, body=term, domain=domain)

    def arrows(self, items):
        places = [at for at, it in enumerate(items) if isinstance(it, Token) and it.text in ("->", "<-")]
        if not places:
            return Operators(items, self.table).read()
        if items[places[0]].text == "->":
            domain, body = self.arrows(items[: places[0]]), self.arrows(items[places[0] + 1 :])
        else:
            body, domain = self.arrows(items[: places[-1]]), self.arrows(items[places[-1] + 1 :])
        form = items[places[0]].text
        return Node("arrow", min(domain.start, body.start), max(domain.end, body.end), domain=domain, body=body, form=form)


class Operators:
    """Reads atoms side by side and operators by their precedences."""

    def __init__(self, items, table):
        self.items, self.at, self.table = items, 0, table

    def row(self):
        """The row of the operator that is next, if one is."""
        it = self.items[self.at] if self.at < len(self.items) else None
        return self.table.get(it.text) if isinstance(it, Token) else None

    def read(self):
        found = self.level(0)
        if self.at < len(self.items):
            raise Unread
        return found

    def operator(self):
        token = self.items[self.at]
        self.at += 1
        return Node("name", token.start, token.end, name=token.text)

    def level(self, least):
        row = self.row()
        if row is not None and row[0] == "prefix":
            head = self.operator()
            operand = self.level(row[2])
            left = Node("app", head.start, operand.end, head=head, args=[operand], form="prefix")
        else:
            left = self.atoms()
        while (row := self.row()) is not None and row[2] >= least and row[0] != "prefix":
            head = self.operator()
            if row[0] == "postfix":
                left = Node("app", left.start, head.end, head=head, args=[left], form="postfix")
            else:
                right = self.level(row[2] + (row[1] != "right"))
                left = Node("app", left.start, right.end, head=head, args=[left, right], form="infix")
        return left

    def atoms(self):
        found = []
        while self.at < len(self.items) and isinstance(self.items[self.at], Node):
            found.append(self.items[self.at])
            self.at += 1
        if not found:
            raise Unread
        return found[0] if len(found) == 1 else Node("app", found[0].start, found[-1].end, head=found[0], args=found[1:])


def read_declaration(found, table):
    """The type and the term of a declaration of a constant or a definition, each None where it isn't written."""
    reader = Reader([it for it in found if it.text != "%abbrev"], table)
    if reader.take().kind != "name":
        raise Unread
    has_type = reader.peek() is not None and reader.peek().text == ":"
    if has_type:
        reader.take()
    ty = reader.sequence() if has_type else None
    term = None
    if reader.peek() is not None and reader.peek().text == "=":
        reader.take()
        term = reader.sequence()
    reader.take(".")
    if ty is None and term is None or reader.peek() is not None:
        raise Unread
    return ty, term
