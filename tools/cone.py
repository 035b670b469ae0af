#!/usr/bin/env python3
"""Counts how many lines of definitions each main statement rests on.

    tools/cone.py                     the ladder: for each statement what it adds to those before it, and the sum
    tools/cone.py CRATE FILE NAME     the files that one definition rests on, with lines and names
    tools/cone.py CRATE FILE NAME -v  the text of these definitions

A definition rests on those that it names, and on what these rest on. The count is approximate: a definition is told by
its head, what it names by its words; blank lines and imports don't count, comments do.
"""

import collections
import os
import re
import sys

TOP = os.path.dirname(os.path.dirname(os.path.abspath(__file__)))

# What is believed, and the definition that says it, from the bottom up.
LADDER = [
    ("nothing ill-typed is ever kept", ("tw_decl", "View", "IsSound")),
    ("the tokens are the text's", ("tw_lexer", "Tokens", "Lexes")),
    ("the text has this one reading", ("tw_parse", "Readings", "Declares")),
    ("what is kept is the most general completion", ("lf_elaboration", "Principal", "IsPrincipal")),
    ("of what was written: its names, its skeletons", ("tw_recon", "Reconstruction", "IsWrittenAs")),
    ("with its quantifiers in this order", ("tw_recon", "Reconstruction", "AreReadOff")),
    ("by these names, as this entry", ("tw_recon", "Reconstruction", "IsReconstructed")),
    ("shown by this line", ("tw_print", "Shown", "declaration_line")),
    ("what acceptance means, all in all", ("tw_decl", "Declaration", "Accepts")),
    ("each refusal has its cause", ("tw_decl", "Declaration", "Refuses")),
    ("the whole transcript", ("tw_server", "Outcome", "Serves")),
]

WORD = re.compile(r"[A-Za-z_Σ-ω][\w'\-]*(?:\.[A-Za-z_][\w'\-]*)*")
IMPORT = re.compile(r"^\s*use Rattle\.(\w+)\.specs\.([\w.]+?)(?:\.\{([^}]*)\})?(?: as (\S+))?\s*$", re.M)
HEAD = re.compile(r"(abbrev|pub|unfoldable|module|data|record)\b")
TYPE = re.compile(r"(\s*)(?:unfoldable )?(?:abbrev )?(?:pub )?(record|data)\s+([A-Za-z_][\w'\-]*)")
PUBLIC = re.compile(r"(\s*)(?:abbrev |unfoldable )*pub ([A-Za-z_][\w'\-]*)\s*:")
PRIVATE = re.compile(r"\s*abbrev ([A-Za-z_][\w'\-]*)\s*:")
CONSTRUCTOR = re.compile(r"(\s+)([a-z_][\w']*)\s*:")


def spec_files():
    """Each file of specs/, by its crate and name."""
    found = {}
    for crate in sorted(os.listdir(f"{TOP}/crates")):
        folder = f"{TOP}/crates/{crate}/specs"
        for name in sorted(os.listdir(folder)) if os.path.isdir(folder) else []:
            if name.endswith(".antt"):
                with open(f"{folder}/{name}", encoding="utf-8") as it:
                    found[crate, name[:-5]] = it.read()
    return found


def blocks_of(text):
    """The text's definitions, each with the comment before it."""
    blocks, now, comment = [], [], []
    for line in text.split("\n"):
        if line.startswith(("use ", "pub mod", "mod ")):
            continue
        if line.startswith("--"):
            comment.append(line)
        elif HEAD.match(line):
            if now:
                blocks.append(now)
            now, comment = [*comment, line], []
        else:
            now, comment = [*now, *comment, line], []
    return [*blocks, now] if now else blocks


def names_of(lines):
    """The names that a block defines; a record's fields are none."""
    names, within = set(), None
    for line in lines:
        if found := TYPE.match(line):
            names.add(found[3])
            within = found[2], len(found[1])
        elif (found := PUBLIC.match(line)) and not (within and within[0] == "record" and len(found[1]) > within[1]):
            names.add(found[2])
            within = None
        elif found := PRIVATE.match(line):
            names.add(found[1])
            within = None
        elif (found := CONSTRUCTOR.match(line)) and within and within[0] == "data" and len(found[1]) > within[1]:
            names.add(found[2])
    return names


class Specs:
    """The definitions of all crates, and which of them each one names."""

    def __init__(self):
        files = spec_files()
        self.text, self.names, self.place = {}, {}, {}
        for file, text in files.items():
            self.place[file] = {}
            for number, lines in enumerate(blocks_of(text)):
                block = *file, number
                code = [line for line in lines if not line.strip().startswith("--")]
                self.text[block] = [line for line in lines if line.strip()]
                self.names[block] = names_of(code)
                for name in self.names[block]:
                    self.place[file].setdefault(name, block)
        self.uses = {}
        imports = {file: self.imports_of(text, files) for file, text in files.items()}
        for block, lines in self.text.items():
            code = "\n".join(line for line in lines if not line.strip().startswith("--"))
            self.uses[block] = self.used(block, code, imports[block[:2]])

    def imports_of(self, text, files):
        found = {}
        for crate, module, names, alias in IMPORT.findall(text):
            if (crate, module) not in files:
                continue
            if not names:
                found[alias or module] = (crate, module), None
            for name in names.split(",") if names else []:
                given, _, local = name.strip().partition(" as ")
                found[(local or given).strip()] = (crate, module), given.strip()
        return found

    def used(self, block, code, imports):
        found = set()
        for word in set(WORD.findall(code)):
            first, _, rest = word.partition(".")
            own = self.place[block[:2]].get(first)
            if own and own != block:
                found.add(own)
            if first in imports:
                file, name = imports[first]
                other = self.place[file].get(name or rest.partition(".")[0])
                found |= {other} if other else set()
        return found

    def cone(self, item):
        """All blocks that a definition rests on, itself among them."""
        crate, file, name = item
        left, seen = [self.place[crate, file][name]], set()
        while left:
            block = left.pop()
            if block not in seen:
                seen.add(block)
                left += self.uses[block]
        return seen

    def lines(self, blocks):
        return sum(len(self.text[block]) for block in blocks)


def ladder(specs):
    """For each step what it says, its definition, the lines that it adds, all lines so far, and the files so far; and the lines of all definitions."""
    seen, rows = set(), []
    for meaning, item in LADDER:
        added = specs.cone(item) - seen
        seen |= added
        rows.append((meaning, item, specs.lines(added), specs.lines(seen), len({block[:2] for block in seen})))
    return rows, specs.lines(specs.text)


def main(words):
    if len(words) >= 3:
        specs = Specs()
        blocks = specs.cone(tuple(words[:3]))
        by_file = collections.defaultdict(list)
        for block in sorted(blocks):
            by_file[block[:2]].append(block)
        for (crate, file), own in by_file.items():
            names = " ".join(sorted(name for block in own for name in specs.names[block]))
            print(f"crates/{crate}/specs/{file}.antt: {specs.lines(own)} lines: {names}")
            if "-v" in words:
                print("\n".join("    " + line for block in own for line in specs.text[block]))
        print(f"in all {specs.lines(blocks)} lines in {len(by_file)} files")
        return
    rows, total = ladder(Specs())
    for meaning, (_, _, name), added, sum_, files in rows:
        print(f"{meaning:50} {name:18} {added:6} {sum_:6} lines {files:4} files")
    print(f"all definitions: {total} lines")


if __name__ == "__main__":
    main(sys.argv[1:])
