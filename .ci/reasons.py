#!/usr/bin/env python3
"""Holds the public functions that can refuse to their reasons.

Every public function of a library with a `Refusal` in its answer has one statement in crates/demands/proofs/ByReason.antt, under its crate's
name and its own: whatever its own contract allows, a refusal is for a reason of document 01, and not for a number of none. The statements
are of one form, word for word, as those that outcomes.py reads. So that a refusal shows in a function's head, it has no other name and
stands in no type of a library; what the functions for C answer is a number, of which demand 1 speaks. A function of a private module, which
no other crate can name, is passed over.
"""
import glob
import os
import re
import sys

sys.dont_write_bytecode = True  # what the gate runs on stays as it is
import outcomes

SAID = "Rattle.demands.specs.Reasons"
FILE = "proofs/ByReason.antt"

# What is said of an answer; of one that is not here `?` is asked for
BY = {"error Refusal": f"{SAID}.ByReason", "Refusal": f"{SAID}.ForReason"}

# A function without a statement, and why
EXCEPTIONS = {
    "paper::refusals::refusal_for": "it gives the refusal that it is asked for",
    "paper::refusals::refusal_at": "it gives the refusal that it is asked for",
}

GENERIC = {
    "filling::fill": (
        f"{outcomes.COPIED}{{answers}} ({{path}}.Kinds.ps T L C) ({{path}}.Kinds.r T L C) (λ κs. {{by}})"
        " ({path}.Reads.Pre T L C K D) ({path}.Reads.Post T L C K D)"
    ),
}
ONE = "{answers} {path}.Kinds.ps {path}.Kinds.r (λ κs. {by}) {path}.Reads.Pre {path}.Reads.Post"


def name_of(f):
    """The name of a function's statement."""
    return f"{f.shown.split('::')[0].replace('_', '-')}-{f.statement}"


def of_refusal(f):
    """Whether it stands in an impl of or for `Refusal`, where `Self` is one."""
    return any(part.startswith("Refusal") for part in f.shown.split("::"))


def can_refuse(f):
    """Whether the head, but for the parameters, says `Refusal`."""
    return bool(re.search(r"\bRefusal\b|\bSelf\b" if of_refusal(f) else r"\bRefusal\b", f.head))


def texts(crate):
    """The source files of a crate, and what they say."""
    return [(path, outcomes.without("//", path)) for path in sorted(glob.glob(f"crates/{crate}/src/**/*.rt", recursive=True))]


def is_private(f):
    """Whether it is a function of a module that is its crate's own: a method goes where its type goes."""
    crate, *modules, name = f.shown.split("::")
    if len(modules) != 1 or modules[0][0].isupper():
        return False
    declared = re.search(rf"^mod {modules[0]};", dict(texts(crate))[f"crates/{crate}/src/lib.rt"], re.M)
    handed_on = rf"\bpub use [^;]*\b{modules[0]}\b|\buse [^;]*\b{modules[0]}\s+as\b"
    return bool(declared) and not any(re.search(handed_on, text) for _, text in texts(crate))


def end_of(text, start):
    """The place where a struct, an enum or a union ends that begins at `start`."""
    depth = 0
    for i in range(start, len(text)):
        depth += (text[i] in "([") - (text[i] in ")]")
        if depth == 0 and text[i] in ";{":
            return i if text[i] == ";" else outcomes.closing(text, i)
    raise ValueError("a type does not end")


def hidden(crate):
    """What hides a refusal in a crate's source."""
    for path, text in texts(crate):
        found = re.findall(r"\bRefusal\s+as\s+\w+|\btype\s+\w+[^;]*\bRefusal\b", text)
        for head in re.finditer(r"\b(?:struct|enum|union)\s+\w+", text):
            if re.search(r"\bRefusal\b", text[head.end() : end_of(text, head.end())]):
                found.append(head[0])
        for words in found:
            yield f"{path}: a refusal under another name, or in a type: {' '.join(words.split())}"


def main():
    libraries = sorted(p.split("/")[1] for p in glob.glob("crates/*/src/lib.rt"))
    functions = [f for crate in libraries for f in outcomes.public_functions(crate) if can_refuse(f)]
    passed_over = [f.shown for f in functions if is_private(f)]
    asked = [f for f in functions if f.shown not in passed_over]
    stated = outcomes.statements("demands", "ByReason", SAID)
    failures = outcomes.failures
    failures.extend(line for crate in libraries for line in hidden(crate))
    for f in asked:
        said = stated.pop(name_of(f), None)
        by = BY.get("Refusal" if of_refusal(f) and f.result == "Self" else f.result, "?")
        form = GENERIC.get(f.shown, ONE).format(answers=f"{SAID}.Answers", path=f.path, by=by)
        if (said is None) != (f.shown in EXCEPTIONS):
            failures.append(f"{f.shown} has {'a' if said else 'no'} statement in {FILE}")
        elif said not in (None, form):
            failures.append(f"{f.shown}: {FILE} has\n  {said}\nand not\n  {form}")
    failures.extend(f"{name} in {FILE} is of no such function" for name in stated)
    failures.extend(f"{name} is excepted, and is no such function" for name in EXCEPTIONS.keys() - {f.shown for f in asked})
    for line in failures:
        print(f"reasons: {line}")
    if failures:
        sys.exit(1)
    for name in passed_over:
        print(f"reasons: passed over, since its module is private: {name}")
    for name, reason in EXCEPTIONS.items():
        print(f"reasons: excepted: {name}: {reason}")
    print(f"reasons: {len(asked) - len(EXCEPTIONS)} public functions can refuse, each for a reason")


if __name__ == "__main__":
    os.chdir(os.path.join(os.path.dirname(os.path.abspath(__file__)), ".."))
    main()
