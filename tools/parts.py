"""A declaration of which some parts are left out, and the text that asks the program about it."""


def target(ty):
    """What a type ends in."""
    while ty.kind in ("pi", "arrow"):
        ty = ty.body
    return ty


def depth(ty):
    """How many quantifiers and arrows stand before what a type ends in."""
    count = 0
    while ty.kind in ("pi", "arrow"):
        count, ty = count + 1, ty.body
    return count


def head_of(node):
    return head_of(node.head) if node.kind == "app" else node


class Parts:
    """A declaration of which some parts are left out: terms that are blank, and domains and ascribed types that are dropped."""

    def __init__(self, asker, text, ty, term):
        self.asker, self.text, self.ty, self.term = asker, text, ty, term
        self.blank, self.dropped, self.special = set(), set(), {}
        self.has_term = term is not None

    def plain(self, node):
        return self.text[node.start : node.end]

    def show(self, node):
        if node in self.special:
            return self.special[node]
        if node in self.blank:
            return "_"
        if node.kind in ("name", "hole", "type"):
            return node.name
        if node.kind == "app":
            args = [self.show(it) for it in node.args]
            head = self.show(node.head)
            words = {"infix": [*args[:1], head, *args[1:]], "postfix": [*args, head]}.get(node.form, [head, *args])
            return f"({' '.join(words)})"
        without = node.domain is None or node.domain in self.dropped
        domain = "" if without else self.show(node.domain)
        if node.kind in ("pi", "lam"):
            opener, closer = "{}" if node.kind == "pi" else "[]"
            return f"({opener}{node.name}{'' if without else ':' + domain}{closer} {self.show(node.body)})"
        if node.kind == "arrow":
            body = self.show(node.body)
            if without:
                return body
            return f"({domain} -> {body})" if node.form == "->" else f"({body} <- {domain})"
        return self.show(node.body) if without else f"({self.show(node.body)} : {domain})"

    def question(self):
        if not self.has_term:
            return f"{self.asker.new_entry()} : {self.show(self.ty)}."
        if self.ty is None:
            return f"_ = {self.show(self.term)}."
        return f"_ : {self.show(self.ty)} = {self.show(self.term)}."

    def fits(self):
        return self.asker.fits(self.question())
