#!/usr/bin/env python3
"""Spells the repository's own definitions, lemmas, fields and local names as the language's library does: words in snake case.

usage: python3 tools/respell.py            at the top, once, after the kit's port of an older repository

A name that begins with a small letter and has a capital inside it, as `howMany`, becomes `how_many`, and a lemma on it keeps its dashes, as
`how_many-append`. A field of a record gets underscores for its dashes. Types, modules and the constructors FALSE and IF keep their capitals.
It turns the .antt and .rt files of crates/, and the must-fail edits; a name that would meet another one in some file is printed, and
nothing is written then.
"""
import collections
import os
import re
import sys

NAME = re.compile(r"[^\s(){}\[\];,.@\"«»]+")
FIELD = re.compile(r"^ +pub ([a-z][\w'-]*)(?: \{[^{}\n]*\}| \([^()\n]*\))* :")
RECORD = re.compile(r"^ *pub record ")
FUNCTION = re.compile(r"\bfn (\w+)")

# Names that would fall together with another: a field with a definition that it cites, a lemma with the definition that it is about.
OTHERS = {
    "in-front": "is_in_front",
    "most-chosen": "at_most_chosen",
    "most-reads": "at_most_reads",
    "most-rows": "at_most_rows",
    "most-variables": "at_most_variables",
    "most-words": "at_most_words",
    "keptUnder": "kept_of_under",
}
# A lemma that already has underscores, in its one file.
LEMMAS = {"crates/paper/proofs/Share.antt": {"each_holds": "each_holds-is"}}
# A field of a Rust struct beside the definition of the section that it points at.
FIELDS = {"reads_at", "rows_at"}


def files(endings):
    for folder, inner, names in os.walk("crates"):
        inner[:] = sorted(d for d in inner if d != "out")
        for name in sorted(names):
            if name.endswith(endings):
                yield os.path.join(folder, name)


def snake(name):
    return re.sub(r"(?<=[a-z0-9])([A-Z]+)", lambda m: "_" + m[1].lower(), name)


def record_fields(text):
    """The fields of the records that a file declares."""
    inside = None
    for line in text.split("\n"):
        if RECORD.match(line):
            inside = len(line) - len(line.lstrip())
        elif line.strip() and not line.lstrip().startswith("--"):
            if inside is not None and len(line) - len(line.lstrip()) <= inside:
                inside = None
            found = FIELD.match(line)
            if inside is not None and found:
                yield found[1]


def main():
    texts = {p: open(p, encoding="utf-8").read() for p in files((".antt", ".rt", ".edit"))}
    turn = {}
    for path, text in texts.items():
        if path.endswith(".antt"):
            for token in set(NAME.findall(text)):
                if token in OTHERS:
                    turn[token] = OTHERS[token]
                elif re.match(r"[a-z]", token) and re.search(r"[a-z0-9][A-Z]", token) and "/" not in token and "ℤ" not in token:
                    turn[token] = snake(token)
            for field in record_fields(text):
                if "-" in field and field not in OTHERS:
                    turn[field] = snake(field).replace("-", "_")
    by_new = collections.defaultdict(set)
    for old, new in turn.items():
        by_new[new].add(old)
    clashes = 0
    for new, olds in sorted(by_new.items()):
        if len(olds) > 1:
            print(f"meet: {sorted(olds)} would both be {new}")
            clashes += 1
    # No clause and no proof can name a function of src/, so a definition may be spelled like one.
    functions = {f for path, text in texts.items() if path.endswith(".rt") for f in FUNCTION.findall(text)}
    for path, text in sorted(texts.items()):
        words = set(NAME.findall(text)) - functions - FIELDS - set(LEMMAS.get(path, ()))
        for word in words:
            if word in turn and turn[word] in words:
                print(f"meet: {path}: {word} and {turn[word]}")
                clashes += 1
    if clashes:
        sys.exit(1)
    changed = 0
    for path, text in texts.items():
        here = turn | LEMMAS.get(path, {})
        now = NAME.sub(lambda m: here.get(m[0], m[0]), text)
        if now != text:
            changed += 1
            with open(path, "w", encoding="utf-8") as f:
                f.write(now)
    print(f"respell: {len(turn)} names in {changed} files")


main()
