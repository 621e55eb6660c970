#!/usr/bin/env python3
"""Spells the repository's own definitions and lemmas in snake case, as the library now does.

usage: python3 tools/respell.py [FOLDER]

Run once in a checkout (or on FOLDER), after the kit's port.py. A word of the texts of specs/ and proofs/ that begins small and has
capitals inside, as maxArea or getD in getD-walked, becomes max_area and get_or; the same word follows in clauses, in must-fail edits, in
README.md and in docs/. Rust has no word of that form, so functions of src/, exported names, strings, inputs and outputs keep theirs.
Names of libraries stay (KEPT), and a new name that another declaration has already is given by hand (BY_HAND).
"""
import glob
import os
import re
import sys

WORD = re.compile(r"(?<![A-Za-z0-9_'])([a-z][A-Za-z0-9_]*)(?![A-Za-z0-9_])")
CAMEL = re.compile(r"[a-z0-9]*[a-z][A-Z]|[a-z]+[A-Z]")
DECLARED = re.compile(r"^\s*(?:(?:unfoldable|abbrev|pub|private) )*([^\s:(){}]+(?: [^\s:(){}]+)*)\s*:(?!=)")
# words of libraries, and facts whose capital is a type's
KEPT = {"mut_Tells", "mut_slice_Tells", "shr_slice_Tells", "uint_Lawful", "uint_Makes", "uint_Tells", "bool_Lawful", "walk_Meets"}
# variables that no line declares
ALSO = {"byLead", "newBytes", "laidOut", "noBlack", "noWhite"}
BY_HAND = {"getD": "get_or"}


def snake(word):
    if word in BY_HAND:
        return BY_HAND[word]
    return re.sub(r"(?<=[a-z0-9])([A-Z])", lambda m: "_" + m.group(1).lower(), word)


def read(path):
    with open(path, encoding="utf-8", newline="") as f:
        return f.read()


def main(root):
    antt = [f for top in ("specs", "proofs") for f in glob.glob(f"{root}/crates/*/{top}/**/*.antt", recursive=True)]
    others = glob.glob(f"{root}/crates/*/src/**/*.rt", recursive=True) + glob.glob(f"{root}/crates/*/must-fail/*.edit")
    papers = [f"{root}/README.md"] + glob.glob(f"{root}/docs/*.md")
    own = set(ALSO)
    for path in antt:
        for line in read(path).split("\n"):
            names = DECLARED.match(line)
            if names and not line.lstrip().startswith(("use ", "--")):
                own.update(w for w in WORD.findall(names.group(1)) if CAMEL.match(w))
    own -= KEPT
    news = {}
    for word in own:
        news.setdefault(snake(word), []).append(word)
    for new, olds in sorted(news.items()):
        if len(olds) > 1:
            print("fall together:", new, olds)
    count = 0
    for path in antt + others + [p for p in papers if os.path.exists(p)]:
        text = read(path)
        if path.endswith(".edit"):
            text = text.replace("′", "'")
        turned = WORD.sub(lambda m: snake(m.group(1)) if m.group(1) in own or m.group(1) in BY_HAND else m.group(1), text)
        if turned != read(path):
            with open(path, "w", encoding="utf-8", newline="") as f:
                f.write(turned)
            count += 1
    print(f"respelled: {len(own)} words in {count} files")


main(sys.argv[1] if len(sys.argv) > 1 else os.path.dirname(os.path.dirname(os.path.abspath(__file__))))
