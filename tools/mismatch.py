"""Finds the parts of a declaration that don't fit: all is left out first, and put back from left to right where it fits."""

from parts import target


class Fault:
    """A part that doesn't fit: what it is (head, part, function, type or ascription)."""

    def __init__(self, what, node):
        self.what, self.node = what, node


class Mismatch:
    """Takes a declaration apart that is refused as a mismatch: all is left out first, and put back from left to right where it fits."""

    def __init__(self, parts):
        self.parts, self.faults = parts, []

    def empty(self, ty):
        """Leaves out all that can be left out of a type."""
        if ty.kind in ("pi", "arrow"):
            if ty.domain is not None:
                self.parts.dropped.add(ty.domain)
                self.empty(ty.domain)
            self.empty(ty.body)
        else:
            self.parts.blank.update(ty.args)

    def search(self):
        """The parts that don't fit, in the order in which they were found; they stay left out."""
        parts = self.parts
        if parts.ty is not None:
            parts.has_term = False
            if not parts.fits():
                self.empty(parts.ty)
                if parts.fits():
                    self.settle_type(parts.ty)
                else:
                    self.faults.append(Fault("head", target(parts.ty)))
                    return self.faults
            parts.has_term = parts.term is not None
        if parts.term is not None:
            parts.blank.add(parts.term)
            if parts.fits():
                self.settle_term(parts.term)
        return self.faults

    def settle_type(self, ty):
        """Puts back what fits of a type from which all is left out."""
        if ty.kind not in ("pi", "arrow"):
            for arg in ty.args:
                self.settle_term(arg)
            return
        for child in sorted((it for it in (ty.domain, ty.body) if it is not None), key=lambda it: it.start):
            if child is ty.body:
                self.settle_type(child)
                continue
            self.parts.dropped.discard(child)
            if self.parts.fits():
                self.settle_type(child)
            else:
                self.parts.dropped.add(child)
                self.faults.append(Fault("head", target(child)))

    def refuse(self, what, node, leave_out):
        for it in node.walk():
            self.parts.blank.discard(it)
            self.parts.dropped.discard(it)
        self.parts.blank.add(leave_out)
        self.faults.append(Fault(what, node))

    def settle_term(self, node):
        """Puts back what fits of a term that is blank."""
        parts = self.parts
        parts.blank.discard(node)
        if parts.fits():
            return
        if node.kind == "app":
            parts.blank.update(node.args)
            if not parts.fits():
                self.refuse("head", node, node)
                return
            for arg in node.args:
                self.settle_term(arg)
        elif node.kind == "lam":
            parts.blank.add(node.body)
            if node.domain is not None:
                parts.dropped.add(node.domain)
            if not parts.fits():
                self.refuse("function", node, node)
                return
            if node.domain is not None:
                parts.dropped.discard(node.domain)
                if not parts.fits():
                    parts.dropped.add(node.domain)
                    self.faults.append(Fault("type", node.domain))
            self.settle_term(node.body)
        elif node.kind == "ascription":
            parts.blank.add(node.body)
            if not parts.fits():
                self.refuse("ascription", node, node)
                return
            self.settle_term(node.body)
        else:
            self.refuse("part", node, node)
