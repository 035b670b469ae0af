#!/usr/bin/env python3
"""Checks the pages of this repository. Each thing found is a line FILE:LINE: WHAT, and the exit code is 1 where one is found.

    tools/pages.py            checks
    tools/pages.py --write    first writes what can be counted: the ladder's lines, and the names of refused edits in crate pages;
                              and copies the examples to where the tests load them

What is checked:
- each crate has its page, of 10 to 40 lines (a crate of definitions alone has more), and its line in docs/MAP.md;
- a crate's page names each of its refused edits and no other, and has its definitions under 'To be believed' exactly where
  the transcript theorem rests on them;
- each name in backticks exists: as a file, a crate, or a word of the sources, definitions, proofs, scripts and examples;
- what is quoted from specs/, src/ and refused edits stands there; links lead somewhere; no cell of a table has more than 200
  characters; the examples are those that the tests load, and each has its line in examples/README.md;
- README.md has at most 120 lines, and the ladder there and in docs/BELIEVE.md has the lines that tools/cone.py counts.
"""

import os
import re
import sys

sys.dont_write_bytecode = True
import cone  # noqa: E402
import twice  # noqa: E402

TOP = cone.TOP
CELL = 200
README_LINES = 120
PAGE_LINES = range(10, 41)
EDITS = "## Refused edits"
BY_HAND = "wrong-bodies"
BELIEVED = "## To be believed"
OF_PROOF = "## Of the proof"
EDIT_WIDTH = 220

# Names in backticks that may stand in no source of ours.
OTHER_WORDS = set(
    """
    %query %solve %mode %block %worlds %terminates %covers %total %theorem %reduces %freeze %thaw %unique %define %clause %use
    top make help Config.read Config.load Print.TeX.sgn OS.chDir Timers.show Trace.trace --generate
    Lexer Parser ParseTerm ParseConDec ParseFixity Names Fixity Index Origins IntSyn ConDec EVar FVar Sub Root Spine Approx ReconTerm ReconCondec
    Whnf Conv Unify Constraints Trail Abstract TypeCheck Print Formatter Twelf Server Strict Subordinate ModeCheck WorldSyn Terminate Cover Total
    AbsMachine Search Compile
    E11 E20 E23 C8
    rt slab indexmap insert_reserved START-HERE.md tools/gate_times.py
    """.split()
)

# The sources whose names don't end as those of a language do.
OTHER_SOURCES = ("crates.txt", "twelf", "twelf-check", "twelf-why", "stdin", "run")

WORD = re.compile(r"[^\s`(){}\[\],;:\"]+")
SPAN = re.compile(r"(?<!`)(`+)(?!`)(.+?)(?<!`)\1(?!`)")
LINK = re.compile(r"\[[^\]]*\]\(([^)\s]+)\)")


def read(path):
    with open(f"{TOP}/{path}", encoding="utf-8", errors="replace") as it:
        return it.read()


def is_in_repository(folder):
    return not re.search(r"(^|/)(out|\.git|tmp|__pycache__)(/|$)", folder)


def files_below(folder):
    for at, _, names in os.walk(f"{TOP}/{folder}"):
        at = os.path.relpath(at, TOP)
        if is_in_repository(at):
            for name in sorted(names):
                yield os.path.normpath(f"{at}/{name}")


def crates():
    """The crates of crates.txt, with what each stands on, in order."""
    found = {}
    for line in read("crates.txt").splitlines():
        name, colon, below = line.partition("#")[0].partition(":")
        if colon:
            found[name.split()[0]] = below.split()
    return found


def pages():
    """The pages that are checked."""
    at_top = [name for name in os.listdir(TOP) if name.endswith(".md")]
    below = [path for folder in ("docs", "crates", "bench", "tools", "editors", "examples") for path in files_below(folder)]
    return sorted(at_top) + sorted(path for path in below if path.endswith(".md"))


class Known:
    """The names that exist: those of files, crates and edits, and the words of sources, definitions, proofs, scripts and examples."""

    def __init__(self):
        self.paths, self.words = set(), set(OTHER_WORDS) | set(crates())
        for path in files_below("."):
            parts = path.split("/")
            self.paths |= {"/".join(parts[-n:]) for n in range(1, len(parts) + 1)}
            self.paths |= {"/".join(parts[m:n]) for m in range(len(parts)) for n in range(m + 1, len(parts))}
            self.words.add(os.path.splitext(parts[-1])[0])
            if path == "tools/pages.py":
                continue
            if path.endswith((".rt", ".antt", ".elf", ".py", ".edit", ".el", ".vim", ".json")) or "/data/" in path or parts[-1] in OTHER_SOURCES:
                text = read(path)
                self.words |= set(re.findall(r"[A-Za-z_Σ-ω][\w']*", text)) | set(WORD.findall(text))
                self.words |= {word.strip(".") for word in WORD.findall(text)}

    def has(self, name):
        """Whether a name exists: a path, a word, or words joined by `::` or `.`, each of which exists."""
        path = name.rstrip("/").removeprefix("./")
        if path in self.paths or name in self.words:
            return True
        if "*" in name or "NAME" in name or "/out/" in name:
            return True
        parts = [part for part in re.split(r"::|\.", name) if part]
        return len(parts) > 1 and "/" not in name and all(part in self.words for part in parts)


def is_name(span):
    """Whether what stands in backticks is a single name or path, and no piece of a signature or of a text."""
    return re.fullmatch(r"(\./)?[A-Za-z_%\-][\w'./:%\-*]*[\w/*']", span) is not None and not re.fullmatch(r"[A-Z]'?|[a-z]'?", span)


def spans(text):
    """Each span in backticks with its line; blocks that are indented or fenced are none."""
    fenced = False
    for number, line in enumerate(text.splitlines(), 1):
        if line.startswith("```"):
            fenced = not fenced
        elif not fenced and not line.startswith("    "):
            for found in SPAN.finditer(line):
                yield number, found[2].strip()


def quoted(text):
    """Each block that is fenced as a quotation of specs/ or src/, with the line where it begins and the language."""
    for found in re.finditer(r"^```(antt|rust)\n(.*?)^```", text, re.M | re.S):
        yield text.count("\n", 0, found.start()) + 1, found[1], found[2].rstrip("\n")


def cells(text):
    for number, line in enumerate(text.splitlines(), 1):
        if line.startswith("|"):
            for cell in re.split(r"(?<!\\)\|", line)[1:-1]:
                yield number, cell.strip()


def edits_of(crate, part="must-fail"):
    folder = f"{TOP}/crates/{crate}/{part}"
    return sorted(name[:-5] for name in os.listdir(folder) if name.endswith(".edit")) if os.path.isdir(folder) else []


def edit_lines(crate):
    """The lines that name the refused edits of a crate: those that the gate tries, and those that are tried by hand."""
    return [*named_lines("", edits_of(crate)), *named_lines("By hand (`tools/wrong_bodies.py`): ", edits_of(crate, BY_HAND))]


def named_lines(head, names):
    """The names as a sentence behind its head, in lines."""
    lines, now = [], head
    for place, name in enumerate(names):
        word = f"`{name}`"
        if place and len(now) + len(word) + 2 > EDIT_WIDTH:
            lines.append(now + ",")
            now = word
        else:
            now = f"{now}, {word}" if place else now + word
    return [*lines, now + "."] if names else []


def edits_section(text):
    """Where the names of refused edits stand in a page: the first line behind the heading, and the one behind the last."""
    lines = text.splitlines()
    if EDITS not in lines:
        return lines, None, None
    first = last = lines.index(EDITS) + 1
    while last < len(lines) and not lines[last].startswith("#"):
        last += 1
    return lines, first, last


def write_edits():
    for crate in crates():
        path = f"crates/{crate}/README.md"
        if os.path.exists(f"{TOP}/{path}") and edit_lines(crate):
            lines, first, last = edits_section(read(path))
            if first is None:
                lines, first, last = [*lines, "", EDITS], len(lines) + 2, len(lines) + 2
            rest = ["", *lines[last:]] if lines[last:] else []
            with open(f"{TOP}/{path}", "w", encoding="utf-8") as it:
                it.write("\n".join([*lines[:first], *edit_lines(crate), *rest]) + "\n")


def section(text, heading):
    """The lines of a section, each with its number."""
    within = False
    for number, line in enumerate(text.splitlines(), 1):
        if line.startswith("## "):
            within = line == heading
        elif within:
            yield number, line


def misplaced(specs, believed, crate, text):
    """Names of the crate's definitions that stand in the wrong section of its page: believed is what the transcript theorem rests on."""
    own = {name: block for block, names in specs.names.items() if block[0] == crate for name in names}
    files = {block[1] for block in specs.names if block[0] == crate}
    inside = {name for block in believed if block[0] == crate for name in specs.names[block]}
    for heading, is_wrong in ((BELIEVED, lambda name: name not in inside), (OF_PROOF, lambda name: name in inside)):
        for number, line in section(text, heading):
            for name in re.findall(r"`(\w+)`", line if line.startswith(("- ", "  ")) else ""):
                if name in own and name not in files and is_wrong(name):
                    yield number, f"{name} doesn't stand under '{heading}' rightly"


def ladder_rows(specs):
    """The rows of the ladder, as README.md has them: the beginning of each, and its two numbers."""
    for meaning, (_, _, name), added, total, _ in cone.ladder(specs)[0]:
        yield f"| {meaning} | `{name}` |", f" {added:,} | {total:,} |"


def steps(text):
    """How many lines each part of docs/BELIEVE.md tells to read, with the place of the number."""
    return list(re.finditer(r"(?<=^\*\*Read\*\* )[\d,]+(?= lines)", text, re.M))


def write_ladder():
    specs = cone.Specs()
    text = read("README.md")
    for begin, numbers in ladder_rows(specs):
        text = re.sub(rf"^{re.escape(begin)}.*$", begin + numbers, text, flags=re.M)
    with open(f"{TOP}/README.md", "w", encoding="utf-8") as it:
        it.write(text)
    text = read("docs/BELIEVE.md")
    for found, row in reversed(list(zip(steps(text), cone.ladder(specs)[0]))):
        text = text[: found.start()] + f"{row[2]:,}" + text[found.end() :]
    with open(f"{TOP}/docs/BELIEVE.md", "w", encoding="utf-8") as it:
        it.write(text)


def findings():
    known = Known()
    sources = {"antt": [], "rust": []}
    for path in files_below("crates"):
        if "/specs/" in path or "/src/" in path:
            sources["rust" if path.endswith(".rt") else "antt"].append(read(path))
    in_map = read("docs/MAP.md")
    definitions = cone.Specs()
    believed = definitions.cone(cone.LADDER[-1][1])
    for crate in crates():
        path = f"crates/{crate}/README.md"
        if not os.path.exists(f"{TOP}/{path}"):
            yield path, 1, "the crate has no page"
            continue
        text = read(path)
        if text.splitlines()[:1] != [f"# {crate}"]:
            yield path, 1, f"the first line isn't '# {crate}'"
        if len(text.splitlines()) not in PAGE_LINES:
            yield path, 1, f"the page has {len(text.splitlines())} lines and not {PAGE_LINES[0]} to {PAGE_LINES[-1]}"
        if not re.search(rf"^\| `{crate}` \|", in_map, re.M):
            yield "docs/MAP.md", 1, f"the crate {crate} has no line"
        for number, what in misplaced(definitions, believed, crate, text):
            yield path, number, what
        lines, first, last = edits_section(text)
        named = set(re.findall(r"`(\w+)`", "\n".join(lines[first:last]))) if first is not None else set()
        for name in sorted(named ^ {*edits_of(crate), *edits_of(crate, BY_HAND)}):
            yield path, first or 1, f"the refused edit {name} {'does not exist' if name in named else 'is not named'}"
    for begin, numbers in ladder_rows(definitions):
        if begin + numbers not in read("README.md"):
            yield "README.md", 1, f"the ladder's row isn't {begin + numbers}"
    if [found[0] for found in steps(read("docs/BELIEVE.md"))] != [f"{row[2]:,}" for row in cone.ladder(definitions)[0]]:
        yield "docs/BELIEVE.md", 1, "the lines to read aren't those of the ladder"
    if len(read("README.md").splitlines()) > README_LINES:
        yield "README.md", README_LINES + 1, f"more than {README_LINES} lines"
    yield from twice.unlike_examples(read("examples/README.md"))
    for path in pages():
        text = read(path)
        yield from twice.unlike_edits(path, text)
        for number, span in spans(text):
            if is_name(span) and not known.has(span):
                yield path, number, f"nothing is named {span}"
        for number, cell in cells(text):
            if len(cell) > CELL:
                yield path, number, f"a cell has {len(cell)} characters"
        for number, language, block in quoted(text):
            if not any(block in it for it in sources[language]):
                yield path, number, "what is quoted doesn't stand in specs/ or src/"
        for number, line in enumerate(text.splitlines(), 1):
            for target in LINK.findall(line):
                if "://" not in target and not os.path.exists(os.path.join(TOP, os.path.dirname(path), target.partition("#")[0])):
                    yield path, number, f"the link {target} leads nowhere"


def main(words):
    if "--write" in words:
        write_edits()
        write_ladder()
        twice.copy_examples()
    found = sorted(findings())
    for path, number, what in found:
        print(f"{path}:{number}: {what}")
    return 1 if found else 0


if __name__ == "__main__":
    sys.exit(main(sys.argv[1:]))
