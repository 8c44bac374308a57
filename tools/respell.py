#!/usr/bin/env python3
"""Spells the repository's own words of antt as today's Rattle does: definitions, fields, constructors and lemmas in snake case.

usage: tools/respell.py        at the top of the repository, once, after port.py
       tools/respell.py names  prints each old name with its new one, and changes nothing

A word is the repository's own where a file of specs/ or proofs/ declares it. In a function's proof (proofs/FUNCTION/) only words
that other files declare count, since its own are named after goals. Where two words would meet, the lemma gets _lem.
"""
import os
import re
import sys

NAME = r"[^\s(){}\[\];,.@\"«»]+"
DECLARED = re.compile(rf"^\s*((?:(?:unfoldable|abbrev|pub)\s+)*)((?:{NAME}\s+)*?{NAME})\s+:\s")
WORD = re.compile(NAME)
NOTE = re.compile(r"\s*(--|//)")
# A word that Rattle makes of a goal or a place, which keeps its dashes.
MADE = re.compile(r"(returns|invariant|decreases)-.*|.*-(requires|result|init|preserved|smaller)(-\d+)?|.*-\d+")

# A word that meets another in no file.
APART = {"ofOne"}


def files(ending):
    for folder, inside, names in os.walk("crates"):
        inside[:] = sorted(d for d in inside if d != "out")
        for name in sorted(names):
            if name.endswith(ending):
                yield os.path.join(folder, name)


def read(path):
    with open(path, encoding="utf-8") as f:
        return f.read()


def of_function(path):
    return len(path.split("/")) > 4 and path.split("/")[2] == "proofs"


def declared():
    """Each declared word, with whether a definition is among its declarations."""
    words = {}
    for path in files(".antt"):
        if of_function(path):
            continue
        defines = "/specs/" in path
        for line in read(path).splitlines():
            found = None if line.lstrip().startswith("--") else DECLARED.match(line)
            for word in found.group(2).split() if found else ():
                words[word] = words.get(word, False) or defines or "abbrev" in found.group(1)
    return words


def snake(word):
    lower = re.sub(r"(?<=[a-z0-9])[A-Z]", lambda m: "_" + m[0].lower(), word) if re.match(r"[a-z]", word) else word
    return lower if re.match(r"[A-Z]", word) else re.sub(r"(?<=\w)-(?=\w)", "_", lower)


def table():
    words = declared()
    turned = {w: snake(w) for w in words if not MADE.fullmatch(w)}
    taken = {}
    for word in sorted(words, key=lambda w: (not words[w], "-" in w, turned.get(w, w) != w, w)):
        new = turned.get(word, word)
        while new in taken and word not in APART:
            new += "_lem"
        taken[new] = word
        turned[word] = new
    return {old: new for old, new in turned.items() if old != new}


def respell(path, to):
    text = read(path)
    lines = text.splitlines(keepends=True)
    new = "".join(line if NOTE.match(line) else WORD.sub(lambda m: to.get(m[0], m[0]), line) for line in lines)
    if new != text:
        with open(path, "w", encoding="utf-8") as f:
            f.write(new)
    return new != text


def main():
    to = table()
    if sys.argv[1:] == ["names"]:
        for old, new in sorted(to.items()):
            print(old, new)
        return
    changed = sum(respell(path, to) for path in files((".antt", ".rt", ".edit")))
    print(f"respell: {len(to)} words, {changed} files")


main()
