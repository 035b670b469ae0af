"""Says of a part that doesn't fit which type it has and which is due, as the program prints them."""

import prover
import written
from asking import plural, with_holes
from parts import depth, head_of, target

DUE, MARK = "Why", "why-mark"


class Teller:
    """What is said of the parts of a declaration; the parts that don't fit are left out of it."""

    def __init__(self, parts):
        self.parts = parts
        self.above, self.scope = {}, {}  # of each part: what it is a part of, and the binders around it
        for root in (parts.ty, parts.term):
            if root is not None:
                self.note(root, None, ())

    def note(self, node, above, scope):
        self.above[node], self.scope[node] = above, scope
        for child in node.children():
            below = node.kind in ("pi", "lam") and child is node.body
            self.note(child, node, (*scope, node) if below else scope)

    def argument(self, node):
        """The application of which a part is an argument, and its number there from 0; None where it is none."""
        above = self.above[node]
        return (above, above.args.index(node)) if above is not None and node in above.args else None

    def names_in_scope(self, node):
        """The variables that are bound where a part stands, the outermost first; a shadowed one is left out."""
        scope = self.scope[node]
        names = [it.name for it in scope]
        return [(it.name, it) for at, it in enumerate(scope) if it.name != "_" and it.name not in names[at + 1 :]]

    def shown_with(self, node, text):
        """The declaration of a constant whose type holds all parts, with this text in the place of one of them; None where it is refused.
        A definition is put below a family over its type, since then each free variable is shown by its name."""
        parts, asker = self.parts, self.parts.asker
        parts.special[node] = text
        try:
            if not parts.has_term:
                return asker.shown(parts.question())
            if parts.ty is None:
                return None
            ty, family = parts.show(parts.ty), asker.new_entry()
            if asker.ask(f"{family} : {ty} -> type.")[0] is not None:
                return None
            return asker.shown(f"{asker.new_entry()} : {family} ({parts.show(parts.term)} : {ty}).")
        finally:
            del parts.special[node]

    def due(self, node):
        """The type that is due where a part stands: the quantifiers before it, the types of the variables in scope, and the type."""
        scope = self.names_in_scope(node)
        name = self.parts.asker.fresh(DUE)
        shown = self.shown_with(node, f"({' '.join([name, *(it for it, _ in scope)])})")
        if shown is None:
            return None
        ty, line = shown
        before = []
        while ty.kind == "pi" and ty.name != name:
            before.append((ty.name, line[ty.domain.start : ty.domain.end]))
            ty = ty.body
        if ty.kind != "pi" or ty.domain is None:
            return None
        found, types, renamed = ty.domain, [], {}
        for variable, _ in scope:
            if found.kind not in ("pi", "arrow"):
                return None
            types.append((variable, spelled(line, found.domain, renamed)))
            if found.kind == "pi":
                renamed[found.name] = variable
            found = found.body
        return before, types, spelled(line, found, renamed)

    def determined(self, node):
        """What the other parts make of a part, as it is shown; None where they leave it open, or where it isn't found."""
        shown = self.shown_with(node, "_")
        if shown is None:
            return None
        now, line = shown
        way, at = [], node
        while self.above[at] is not None:
            way.append((self.above[at], at))
            at = self.above[at]
        if at is self.parts.term:
            now = target(now)
            if len(now.args) != 1:
                return None
            now, openers = now.args[0], 0
        else:
            openers = depth(now) - depth(at)
        names = set()
        for _ in range(openers):
            names.add(now.name)
            now = now.body
        for above, child in reversed(way):
            if above.kind == "ascription":
                continue
            if above.kind == "app":
                if now.kind != "app" or child not in above.args or len(now.args) != len(above.args):
                    return None
                now = now.args[above.args.index(child)]
            elif now.kind not in ("pi", "arrow") and now.kind != above.kind:
                return None
            else:
                now = now.domain if child is above.domain else now.body
        if head_of(now).name in names:
            return None
        return spelled(line, now, {})

    def found(self, node, due):
        """The type that a part has by itself, with the variables that are free in it or bound around it in front."""
        parts = self.parts
        if due is not None:
            front = [*due[0], *due[1]]
        else:
            front = [(name, it.domain and parts.plain(it.domain)) for name, it in self.names_in_scope(node)]
        binders = "".join(f"[{name}:{ty}] " if ty else f"[{name}] " for name, ty in front)
        mark = parts.asker.fresh(MARK)
        parts.asker.ask(f"{mark} : type.")
        blank, parts.blank = parts.blank, {it for it in parts.blank if it is not node}
        try:
            shown = parts.asker.shown(f"_ = [{parts.asker.fresh('why-x')}:{mark}] {binders}{parts.show(node)}.")
        finally:
            parts.blank = blank
        if shown is None:
            return None
        ty, line = shown
        raised, renamed, names = set(), {}, set()
        while ty.kind in ("pi", "arrow") and line[ty.domain.start : ty.domain.end] != mark:
            raised.add(ty.name)
            ty = ty.body
        for name, _ in [(None, None), *front]:
            if ty.kind not in ("pi", "arrow"):
                return None
            if ty.kind == "pi":
                names.add(ty.name)
                renamed[ty.name] = name or ty.name
            ty = ty.body
        return spelled(line, ty, renamed, raised, names)

    def describe(self, fault):
        """What is said of a fault, in lines."""
        node, parts = fault.node, self.parts
        text = " ".join(parts.plain(node).split())
        text = text[1:-1] if text.startswith("(") and closes_last(text) else text
        within = self.argument(node)
        where = "the term" if node is parts.term else "the type" if within is None and node.kind != "name" else "this part"
        if within is not None:
            where = f"argument {within[1] + 1} of `{parts.plain(head_of(within[0]))}`"
        lines = [f"{where}: `{clipped(text)}`"]
        head = head_of(node)
        in_type = within is None and node is not parts.term and fault.what in ("head", "type")
        said = self.sort_or_count(node, head, in_type)
        if said:
            return [*lines, said]
        if in_type or fault.what == "type":
            return [*lines, "doesn't fit the rest of the declaration"]
        due = self.due(node)
        if fault.what == "head":
            parts.blank.update(node.args)
        found = self.found(node, due)
        parts.blank.difference_update(node.args)
        if found is not None:
            lines.append(f"has the type   {found}")
        elif fault.what == "function":
            lines.append("is a function")
        if due is not None:
            lines.append(f"and this is due   {due[2]}" if found or fault.what == "function" else f"this is due   {due[2]}")
            return lines
        value = self.determined(node)
        lines.append("doesn't fit what stands around it" if value is None else f"but the other parts determine   {value}")
        return lines

    def sort_or_count(self, node, head, in_type):
        """What is said of a head that is of the wrong sort, or has too many arguments or too few; None where it is neither."""
        asker = self.parts.asker
        if head.kind != "name" or head.name in [name for name, _ in self.names_in_scope(node)]:
            return None
        is_family = asker.is_family(head.name)
        if in_type and not is_family:
            return f"`{head.name}` is no family, and only a family on its arguments is a type"
        if not in_type and is_family:
            return f"`{head.name}` is a family, and a term is due"
        if is_family is None:
            return None  # a free variable
        given = len(node.args)
        if in_type:
            counts = [n for n in range(given + 8) if asker.fits(f"{asker.new_entry()} : {with_holes(head.name, n, asker)} -> type.")]
            if counts and given not in counts:
                return f"`{head.name}` takes {plural(counts[0])}, and {given or 'none'} {'is' if given < 2 else 'are'} written"
        elif given and not asker.fits(f"_ = {with_holes(head.name, given, asker)}."):
            most = max((n for n in range(given) if asker.fits(f"_ = {with_holes(head.name, n, asker)}.")), default=None)
            if most is not None:
                return f"`{head.name}` takes {plural(most)}, and {given} {'is' if given == 1 else 'are'} written"
        return None


def clipped(text):
    return text if len(text) <= prover.WIDTH else text[: prover.WIDTH] + " .."


def spelled(line, node, renamed, raised=(), front=()):
    """The text of a printed part, with other names for some variables. What the program has found for a hole may use all variables in
    scope: a name that is raised is written without those in front."""
    begin, end = node.start, node.end
    if line[begin] == "(" and closes_last(line[begin:end]):
        begin, end = begin + 1, end - 1
    left_out = set()
    for it in node.walk():
        if it.kind == "app" and it.head.name in raised:
            before = [it.head, *it.args]
            vain = [(last.end, arg.end) for last, arg in zip(before, it.args) if arg.kind == "name" and arg.name in front]
            if len(vain) == len(it.args) and line[it.start] == "(" and it.start >= begin:
                vain += [(it.start, it.start + 1), (it.end - 1, it.end)]
            for first, last in vain:
                left_out.update(range(first, last))

    def kept(first, last):
        return "".join(line[at] for at in range(first, last) if at not in left_out)

    pieces, at = [], begin
    for token in written.tokens(line[begin:end]):
        start, behind = begin + token.start, begin + token.end
        pieces += [kept(at, start), "" if start in left_out else renamed.get(token.text, token.text)]
        at = behind
    return "".join(pieces) + kept(at, end)


def closes_last(text):
    """Whether the bracket that opens a text is closed at its end."""
    level = 0
    for at, it in enumerate(text):
        level += (it == "(") - (it == ")")
        if level == 0:
            return at == len(text) - 1
    return False
