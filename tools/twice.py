"""What stands in two places of the repository, and has to be the same in both: the examples, and the edits that a page quotes."""

import os
import re

import cone

# The signatures that people read, and the copies that the session tests load: a test may read no file outside its crate's folder.
EXAMPLES, LOADED = "examples", "crates/tests_sessions/data/examples/files"


def signatures(folder):
    """The text of each signature in a folder."""
    found = {}
    for name in sorted(os.listdir(f"{cone.TOP}/{folder}")):
        if name.endswith(".elf"):
            with open(f"{cone.TOP}/{folder}/{name}", "rb") as it:
                found[name] = it.read()
    return found


def copy_examples():
    """Writes the examples where the session tests load them."""
    for name, text in signatures(EXAMPLES).items():
        with open(f"{cone.TOP}/{LOADED}/{name}", "wb") as it:
            it.write(text)


def unlike_examples(page):
    """Examples that aren't those which the tests load, or have no line in the page about them."""
    shown, loaded = signatures(EXAMPLES), signatures(LOADED)
    for name in sorted({*shown, *loaded}):
        if shown.get(name) != loaded.get(name):
            yield f"{EXAMPLES}/{name}", 1, f"isn't the file of this name in {LOADED}"
        elif f"`{name}`" not in page:
            yield f"{EXAMPLES}/README.md", 1, f"{name} has no line"


def quoted_edits(text):
    """Each line 'old: ..' or 'new: ..' that a page shows, with its number and the edit that is named last before it."""
    edit = None
    for number, line in enumerate(text.splitlines(), 1):
        named = re.findall(r"`(crates/\w+/must-fail/\w+\.edit)`", line)
        edit = named[-1] if named else edit
        shown = re.fullmatch(r" {4}(old|new):\s+(.+)", line)
        if shown:
            yield number, edit, shown[1], shown[2]


def unlike_edits(path, text):
    """Lines of edits that a page shows and that don't stand so in the edit which it names."""
    for number, edit, side, shown in quoted_edits(text):
        try:
            with open(f"{cone.TOP}/{edit}", encoding="utf-8") as it:
                lines = {re.sub(r":\s+", ": ", line.rstrip(), count=1) for line in it}
        except OSError:
            lines = set()
        if f"{side}: {shown}" not in lines:
            yield path, number, f"doesn't stand so in {edit}"
