"""Tries types for what a declaration leaves open, and texts for an equation that is left."""

import itertools

import written
from asking import Lost, with_holes

# How many ascriptions are tried, and how many of those that are accepted are told.
TRIES, TOLD = 200, 6


class Ascriptions:
    """Tries types for what isn't determined: free variables, holes, and binders without a type."""

    def __init__(self, parts, families):
        self.parts, self.families = parts, families
        self.roots = [it for it in (parts.ty, parts.term) if it is not None]

    def sites(self):
        """The places at which a type can be written, each with what is written there and how it looks with a type."""
        found, seen = [], set()

        def walk(node, bound):
            if node.kind == "hole":
                found.append((node, "the hole `_`", "(_ : {})"))
            elif node.kind == "name" and node.name not in bound and node.name not in seen and is_free(node.name):
                if self.parts.asker.classifier(node.name) is None:
                    seen.add(node.name)
                    found.append((node, f"the variable `{node.name}`", f"({node.name} : {{}})"))
            elif node.kind in ("pi", "lam") and node.domain is None:
                found.append((node, f"the bound variable `{node.name}`", None))
            for child in node.children():
                walk(child, bound | {node.name} if child is node.body and node.kind in ("pi", "lam") else bound)

        for root in self.roots:
            walk(root, frozenset())
        return found

    def candidates(self):
        """Types to try: first families that stand in the types of what the declaration names, then the newest; then functions."""
        asker = self.parts.asker
        named = {it.name for root in self.roots for it in root.walk() if it.kind == "name"}
        near = named.union(*((asker.classifier(name) or "").split() for name in sorted(named)))
        order = sorted(reversed(self.families), key=lambda it: (it[0] not in near, it[1] > 0))
        plain = [name if not count else f"({with_holes(name, count, asker)})" for name, count in order]
        simple = [name for name, count in order if not count][:6]
        return plain[:40] + [f"({a} -> {b})" for a in simple for b in simple]

    def write(self, site, ty):
        """Writes a type at a site; what is returned takes it back."""
        node, _, form = site
        if form is not None:
            self.parts.special[node] = form.format(ty)
            return lambda: self.parts.special.pop(node)
        node.domain = written.Node("name", node.start, node.start, name=ty)

        def undo():
            node.domain = None

        return undo

    def is_accepted(self):
        return self.parts.asker.ask(self.parts.question())[0] is None

    def alone(self):
        """Each site with the types that are accepted there."""
        tries, types, found = 0, self.candidates(), []
        for site in self.sites():
            good = []
            for ty in types:
                if tries == TRIES or len(good) == TOLD:
                    break
                tries += 1
                undo = self.write(site, ty)
                try:
                    if self.is_accepted():
                        good.append(ty)
                except Lost:
                    pass
                finally:
                    undo()
            if good:
                found.append((site, good))
        return found

    def in_pairs(self):
        """Two sites with types that are accepted together, or None."""
        types = self.candidates()[:8]
        tries = itertools.product(itertools.combinations(self.sites(), 2), itertools.product(types, types))
        for (first, second), (one, other) in itertools.islice(tries, TRIES):
            undo = self.write(first, one)
            undo_other = self.write(second, other)
            try:
                if self.is_accepted():
                    return (first, one), (second, other)
            except Lost:
                pass
            finally:
                undo_other()
                undo()
        return None


def is_free(name):
    return "A" <= name[0] <= "Z" or name[0] == "_"


def sides_written(parts, shown):
    """For an equation that is left: the texts that the declaration would have with one side in the place of the other, where it is
    accepted so."""
    left, equals, right = shown.partition(" = ")
    if not equals:
        return
    for here, there in ((left, right), (right, left)):
        for root in (parts.ty, parts.term):
            for node in root.walk() if root is not None else ():
                bare = " ".join(word for word in bare_text(node).split())
                if bare != " ".join(here.replace("(", " ").replace(")", " ").split()):
                    continue
                parts.special[node] = f"({there})"
                try:
                    if parts.asker.ask(parts.question())[0] is None:
                        yield parts.plain(node), there
                        return
                except Lost:
                    pass
                finally:
                    del parts.special[node]


def bare_text(node):
    """The words of a term without brackets and ascriptions."""
    if node.kind in ("name", "hole", "type"):
        return node.name
    if node.kind == "ascription":
        return bare_text(node.body)
    if node.kind == "app":
        words = [bare_text(it) for it in node.args]
        head = bare_text(node.head)
        return " ".join({"infix": [*words[:1], head, *words[1:]], "postfix": [*words, head]}.get(node.form, [head, *words]))
    return ""
