#!/usr/bin/env python3
"""Stands in for the program where it isn't built: it speaks its protocol, and checks no types.

A name that is neither declared before nor in upper case is refused as unknown, and a declaration whose name is `refuse-CODE-WORD`
with this code and word at its first token, or without a place for `refuse-E0-Memory`. All others are accepted. Where the variable
STAND_IN_TOP is set, it has the loop `top`, in which each query has one answer.
"""

import os
import re
import sys

sys.dont_write_bytecode = True
sys.path.insert(0, os.path.join(os.path.dirname(os.path.realpath(__file__)), "..", "..", "tools"))
import written  # noqa: E402

KNOWN_KEYWORDS = ("%abbrev", "%infix", "%prefix", "%postfix", "%name")
VERSION = "Twelf 1.4 LF profile"
VALUES = {"chatter": "[0-6]", "Print.implicit": "true|false", "steps": "[1-9][0-9]{0,8}|1000000000"}
FIXED = ("->", "<-", "_", "=", "type")


class Refused(Exception):
    pass


class StandIn:
    def __init__(self):
        self.declared = {}
        self.parameters = {"chatter": "3", "Print.implicit": "false", "steps": "1000000"}

    def write(self, *lines):
        for line in lines:
            sys.stdout.buffer.write(line.encode("utf-8", "surrogateescape") + b"\n")
        sys.stdout.buffer.flush()

    def end(self, done):
        self.write("%% OK %%" if done else "%% ABORT %%")

    def refuse(self, origin, source, at, what):
        before = source[:at]
        line = before.count("\n") + 1
        column = len(before[before.rfind("\n") + 1 :].encode("utf-8", "surrogateescape")) + 1
        raise Refused(f"{origin}:{line}:{column} {what}")

    def declare(self, origin, source, it):
        first = it.tokens[0]
        if it.tokens[-1].kind == "bad":
            self.refuse(origin, source, it.tokens[-1].start, "E1 Lex")
        if first.kind == "keyword" and first.text not in KNOWN_KEYWORDS:
            self.refuse(origin, source, first.start, f"E21 Unsupported {first.text}")
        if not it.is_whole:
            self.refuse(origin, source, len(source), "E2 Syntax")
        if first.text == "refuse-E0-Memory":
            raise Refused("E0 Memory")
        if first.text.startswith("refuse-"):
            _, code, word = first.text.split("-", 2)
            self.refuse(origin, source, first.start, f"{code} {word}")
        bound = {token.text for opener, token in zip(it.tokens, it.tokens[1:]) if opener.text in "{["}
        for token in it.tokens[1:] if first.kind == "name" else []:
            name = token.text
            if token.kind == "name" and not (name in FIXED or name in bound or name in self.declared or "A" <= name[0] <= "Z"):
                self.refuse(origin, source, token.start, f"E4 Unknown {name}")
        line = " ".join(it.text.split())
        if it.declared():
            self.declared[it.declared()] = line
        if int(self.parameters["chatter"]) >= 3:
            self.write(line)

    def load(self, name):
        try:
            with open(name, "rb") as file:
                source = file.read().decode("utf-8", "surrogateescape")
        except FileNotFoundError:
            self.write(f"C2 NoFile {name}")
            return self.end(False)
        except OSError:
            self.write(f"C3 FileFault {name}")
            return self.end(False)
        self.write(f"[Opening file {name}]")
        done = True
        try:
            for it in written.declarations(source):
                self.declare(name, source, it)
        except Refused as refusal:
            self.write(str(refusal))
            done = False
        self.write(f"[Closing file {name}]")
        return self.end(done)

    def top(self, lines):
        while True:
            text = ""
            while "." not in text and (line := next(lines, None)) is not None:
                text += line
            if text.strip() in ("", "."):
                return self.end(True)
            self.write("solution 1", "X = z", "More?")
            answer = next(lines, "")[:1]
            if answer and answer in "qQ":
                return self.end(True)
            if answer and answer in "yY":
                self.write("exhausted tries 1")

    def read_declaration(self, lines):
        source = ""
        for line in lines:
            source += line
            found = list(written.declarations(source))
            if found and (found[-1].is_whole or found[-1].tokens[-1].kind == "bad" and "." in line):
                break
        try:
            if not found:
                raise Refused("stdin:1:1 E2 Syntax")
            self.declare("stdin", source, found[0])
            self.end(True)
        except Refused as refusal:
            self.write(str(refusal))
            self.end(False)

    def answer(self, words, lines):
        if words == ["readDecl"]:
            self.read_declaration(lines)
        elif words[0] == "loadFile" and len(words) == 2:
            self.load(words[1])
        elif words == ["top"] and "STAND_IN_TOP" in os.environ:
            self.top(lines)
        elif words == ["version"]:
            self.write(VERSION)
            self.end(True)
        elif words == ["reset"]:
            self.declared = {}
            self.end(True)
        elif words[0] == "decl" and len(words) == 2:
            self.write(self.declared.get(words[1], f"C7 UnknownName {words[1]}"))
            self.end(words[1] in self.declared)
        elif words[0] == "set" and len(words) == 3:
            is_good = re.fullmatch(VALUES.get(words[1], "(?!)"), words[2])
            if is_good:
                self.parameters[words[1]] = words[2]
            else:
                self.write("C6 BadParameter")
            self.end(is_good)
        elif words[0] == "get" and len(words) == 2 and words[1] in self.parameters:
            self.write(self.parameters[words[1]])
            self.end(True)
        else:
            self.write("C1 UnknownCommand")
            self.end(False)


def main(words):
    program = StandIn()
    program.write(VERSION)
    program.end(True)
    for word in words:
        program.load(word)
    lines = (line.decode("utf-8", "surrogateescape") for line in iter(sys.stdin.buffer.readline, b""))
    for line in lines:
        found = line.split()
        if found in (["quit"], ["OS.exit"]):
            break
        if found:
            program.answer(found, lines)


try:
    main(sys.argv[1:])
except BrokenPipeError:
    os.dup2(os.open(os.devnull, os.O_WRONLY), 1)
    sys.exit(3)
