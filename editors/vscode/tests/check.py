#!/usr/bin/env python3
"""Tries the files for Visual Studio Code without it: the JSON, the grammar on each file of the examples, and the problem matchers on
what twelf-check writes of each refusal, by PROGRAM or by a stand-in that speaks the program's protocol.

    editors/vscode/tests/check.py [PROGRAM]

The grammar is run by a small reader of its own, which takes the first pattern that matches earliest in a line, as the editor does.
The regular expressions are tried by Python, and where node and jq are there also by the engines that the editor has: those of
JavaScript for problem matchers, and Oniguruma for the grammar.
"""

import glob
import json
import os
import re
import shutil
import subprocess
import sys
import tempfile

sys.dont_write_bytecode = True
HERE = os.path.dirname(os.path.abspath(__file__))
TOP = os.path.join(HERE, "..", "..", "..")
sys.path[:0] = [os.path.join(TOP, "tools"), os.path.join(TOP, "tools", "tests")]
import cases  # noqa: E402
import prover  # noqa: E402
import written  # noqa: E402


def load(name):
    with open(os.path.join(HERE, "..", name), encoding="utf-8") as file:
        return json.load(file)


PACKAGE, GRAMMAR, CONFIGURATION = load("package.json"), load("syntaxes/gemivaloon.tmLanguage.json"), load("language-configuration.json")


def rules(patterns):
    return [GRAMMAR["repository"][it["include"][1:]] if "include" in it else it for it in patterns]


def scopes(text):
    """Each piece of a text with its scope, None where the grammar gives none."""
    stack = []
    for line in text.splitlines():
        at = 0
        while at <= len(line):
            within = stack[-1] if stack else None
            tries = rules(within.get("patterns", []) if within else GRAMMAR["patterns"])
            found = [(re.compile(it.get("match") or it["begin"]).search(line, at), it) for it in tries]
            if within:
                found.insert(0, (re.compile(within["end"]).search(line, at), None))
            found = [(match.start(), number, match, it) for number, (match, it) in enumerate(found) if match]
            if not found:
                if within:
                    yield line[at:], within["name"]
                break
            start, _, match, rule = min(found, key=lambda it: it[:2])
            if within and start > at:
                yield line[at:start], within["name"]
            if rule is None:
                yield match[0], within["name"]
                stack.pop()
            elif "begin" in rule:
                yield match[0], rule["name"]
                stack.append(rule)
            elif "captures" in rule:
                yield match[1], rule["captures"]["1"]["name"]
            else:
                yield match[0], rule.get("name")
            at = match.end() if match.end() > at else at + 1


def equal(found, wanted, what):
    if found != wanted:
        sys.exit(f"{what}: {found!r} and not {wanted!r}")


def checked(text, name, folder, program):
    """What twelf-check writes of a file with this text, or of a name where no file is."""
    if text is not None:
        with open(os.path.join(folder, name), "w", encoding="utf-8") as file:
            file.write(text)
    command = [os.path.join(TOP, "twelf-check"), "--format=gnu", name]
    return subprocess.run(command, cwd=folder, env={**os.environ, "TWELF": program}, stdin=subprocess.DEVNULL, capture_output=True, text=True).stdout


def found_by(pattern, line):
    """The parts of a line that a problem matcher tells, None where it doesn't match; by JavaScript's engine too, where node is there."""
    match = re.match(pattern["regexp"], line)
    found = match and {key: match[number] for key, number in pattern.items() if isinstance(number, int)}
    if shutil.which("node"):
        script = "const [r, l] = process.argv.slice(1); console.log(JSON.stringify(new RegExp(r).exec(l)))"
        told = json.loads(subprocess.run(["node", "-e", script, pattern["regexp"], line], capture_output=True, text=True, check=True).stdout)
        equal(told and {key: told[number] for key, number in pattern.items() if isinstance(number, int)}, found, f"JavaScript: {line}")
    return found


def matchers(program):
    """Each line of twelf-check is told by one of the two problem matchers."""
    placed, plain = (it["pattern"] for it in PACKAGE["contributes"]["problemMatchers"])
    with tempfile.TemporaryDirectory() as folder:
        for text, wanted in cases.refused(is_real=len(sys.argv) > 1):
            line = checked(text, "a b.elf", folder, program).rstrip("\n")
            row, column, word = wanted.replace(":", " ").split(maxsplit=2)
            found = found_by(placed, line) or {}
            equal([found.get(it) for it in ("file", "line", "column")], ["a b.elf", row, column], line)
            equal(found["message"].startswith(word), True, line)
            equal(found_by(plain, line), None, line)
        for name, word in (("none.elf", "C2 NoFile"), ("/", "C3 FileFault")):
            line = checked(None, name, folder, program).rstrip("\n")
            found = found_by(plain, line) or {}
            equal([found.get("file"), found.get("message", "")[: len(word)]], [name, word], line)
            equal(found_by(placed, line), None, line)


def expressions(rule):
    """Each regular expression of a grammar."""
    for key, value in rule.items():
        if key in ("match", "begin", "end"):
            yield value
        for it in value if key == "patterns" else value.values() if key == "repository" else ():
            yield from expressions(it)


def main():
    for name in [it["path"] for it in PACKAGE["contributes"]["grammars"]] + [it["configuration"] for it in PACKAGE["contributes"]["languages"]]:
        if not os.path.exists(os.path.join(HERE, "..", name)):
            sys.exit(f"{name} isn't there")
    for expression in expressions(GRAMMAR) if shutil.which("jq") else ():
        subprocess.run(["jq", "-n", "--arg", "it", expression, '"" | test($it)'], check=True, stdout=subprocess.DEVNULL)
    text = 'nat : type.\n% a comment\n%{ one %{ in }% end }%\n%infix left 5 plus.\nc : {x:nat} F x-y -> "nat.\n%.\nrest\n'
    wanted = {
        "nat": "entity.name.function.gemivaloon",
        "type": "storage.type.gemivaloon",
        "% a comment": "comment.line.percentage.gemivaloon",
        " end ": "comment.block.gemivaloon",
        "%infix": "keyword.control.gemivaloon",
        "x": "variable.parameter.gemivaloon",
        "F": "variable.other.gemivaloon",
        "x-y": None,
        "->": "keyword.operator.gemivaloon",
        '"': "invalid.illegal.gemivaloon",
        "rest": "comment.block.rest.gemivaloon",
    }
    found = {}
    for piece, scope in scopes(text):
        found.setdefault(piece, scope)
    for piece, scope in wanted.items():
        equal(found.get(piece, "nothing"), scope, piece)
    paths = sorted(glob.glob(os.path.join(TOP, "examples", "*.elf")))
    equal(len(paths) > 10, True, "the examples are there")
    for path in paths:
        with open(path, encoding="utf-8") as file:
            source = file.read()
        keywords = [it.text for it in written.tokens(source) if it.kind == "keyword"]
        equal([piece for piece, scope in scopes(source) if scope and scope.startswith("keyword.control")], keywords, path)
        declared = [it.declared() for it in written.declarations(source) if it.declared() and it.tokens[0].text != "%abbrev"]
        names = [piece for piece, scope in scopes(source) if scope == "entity.name.function.gemivaloon"]
        equal([it for it in names if it != "_"], declared, path)
    matchers(os.path.abspath(sys.argv[1]) if len(sys.argv) > 1 else os.path.join(TOP, "editors", "tests", "stand_in.py"))
    background = PACKAGE["contributes"]["problemMatchers"][0]["background"]
    with open(os.path.join(TOP, "twelf-check"), encoding="utf-8") as file:
        script = file.read()
    for pattern, words in (("beginsPattern", "twelf-check: checks"), ("endsPattern", "twelf-check: refused; waits for a change, Ctrl-C ends")):
        if not re.match(background[pattern], words) or words.split(":")[1].split(";")[-1].strip() not in script:
            sys.exit(f"{pattern} doesn't fit what twelf-check writes")
    re.compile(CONFIGURATION["wordPattern"])
    for pattern in CONFIGURATION["indentationRules"].values():
        re.compile(pattern)
    print("vscode: all tests passed")


main()
