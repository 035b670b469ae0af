#!/usr/bin/env python3
"""Cases that the tests of all tools share: for each refusal of a declaration a file in which it stands.

    tools/tests/cases.py FOLDER [--stand-in]

writes into the folder a file for each refusal, with a space in its name, and a file `wanted` with a line FILE:LINE:COLUMN CODE WORD
for each of them. With `--stand-in` the files are for the stand-in, which refuses what is named so.
"""

import os
import re
import sys

TOP = os.path.dirname(os.path.dirname(os.path.dirname(os.path.abspath(__file__))))

NUMBERS = "nat : type.\nz : nat.\ns : nat -> nat.\nplus : nat -> nat -> nat -> type.\n"
RULES = NUMBERS + "plus-z : plus z N N.\nplus-s : plus (s M) N (s P) <- plus M N P.\n"
CALLS = "nat : type.\ng : nat -> type.\nh : nat -> type.\nh-c : h X <- g X.\n"
UNDETERMINED = "nat : type.\nf : nat -> nat -> type.\nf-a : f X Y.\n"
LOOP = "a : type.\nl : a <- a.\n"
OPEN = "a : type.\nc : a.\nk : a -> type.\nh : {x:a} k x -> type.\n"
COPYING = "exp : type.\nlam : (exp -> exp) -> exp.\ncp : exp -> exp -> type.\ncp-lam : cp (lam E) (lam F) <- ({x:exp} cp x x -> cp (E x) (F x)).\n"
LOOPING = "nat : type.\ns : nat -> nat.\nloop : nat -> nat -> type.\nloop-s : loop (s X) Y <- loop (s X) Y.\n%mode loop +X -Y.\n"

# Of the program itself: what stands before, the declaration, and its refusal with line and column.
REFUSED = [
    (NUMBERS, 'c : "a".', "5:5 E1 Lex"),
    ("b : type.\n", "c : " + "b -> " * 33000 + "b.", "2:163840 E8 TooMany"),
    (NUMBERS, "%total plus.", "5:1 E21 Unsupported"),
    (NUMBERS, "n2 : type = nat.", "5:1 E21 Unsupported"),
    (NUMBERS, "c : [x:nat] nat.", "5:5 E21 Unsupported"),
    ("b : type.\n", "c : " + "(" * 1001 + "b" + ")" * 1001 + ".", "2:1005 E9 Nesting"),
    ("", "c : .", "1:5 E2 Syntax"),
    ("a : type.\nb : type.\nd : type.\n", "c : a -> b <- d.", "4:5 E3 Fixity"),
    (NUMBERS, "%infix none 10000 i.", "5:1 E22 BadDecl"),
    (NUMBERS, "%name nat n.", "5:1 E22 BadDecl"),
    (NUMBERS, "c : nat->nat.", "5:5 E4 Unknown"),
    (RULES, "t : plus (s z) (s z) (s z) = plus-s plus-z.", "7:1 E5 Mismatch"),
    (OPEN, "j : k (E V).", "5:1 E7 Loose"),
    (OPEN, "m : h c (W : k (E (V : a))).", "5:1 E6 Leftover"),
    ("b : type.\n", "c : " + "b -> " * 4100 + "b.", "2:1 E10 TooDeep"),
    (CALLS, "%mode h +X.", "5:1 E12 NotDeclared"),
    (UNDETERMINED, "%mode f +X -Y.", "4:1 E13 ModeFault"),
    (COPYING, "%worlds () (cp _ _).", "5:1 E14 WorldFault"),
    (LOOPING, "%terminates X (loop X _).", "6:1 E15 OrderFault"),
    (RULES, "%query 1 * plus X Y (s z).", "7:1 E19 Count"),
    (LOOP, "%query 0 * a.", "3:1 E20 Budget"),
    (RULES, "%solve bad : plus z z (s z).", "7:1 E23 NoAnswer"),
]


def refusals_of_page():
    """The code and the word of each declaration's refusal in the page of refusals."""
    with open(os.path.join(TOP, "docs", "REFUSALS.md"), encoding="utf-8") as page:
        return re.findall(r"^## (E\d+) (\w+)", page.read(), re.M)


def refused(is_real):
    """Each text with the line of its refusal, `LINE:COLUMN CODE WORD`. Want of memory isn't among them."""
    if is_real:
        return [(before + declaration + "\n", wanted) for before, declaration, wanted in REFUSED]
    return [(f"nat : type.\nrefuse-{code}-{word} : nat.\n", f"2:1 {code} {word}") for code, word in refusals_of_page() if code != "E0"]


def main(words):
    folder = words[0]
    with open(os.path.join(folder, "wanted"), "w", encoding="utf-8") as wanted:
        for number, (text, refusal) in enumerate(refused("--stand-in" not in words)):
            name = f"{number} {refusal.split()[1]}.elf"
            with open(os.path.join(folder, name), "w", encoding="utf-8") as file:
                file.write(text)
            wanted.write(f"{name}:{refusal}\n")


if __name__ == "__main__":
    main(sys.argv[1:])
