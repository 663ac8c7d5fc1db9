#!/usr/bin/env python3
"""Holds the public functions of every library crate to their statements.

Every `pub fn` and `pub extern "C" fn`, methods too, has one statement in its crate's proofs/OneOutcome.antt: any two outcomes that
its own contract allows are equal, under a premise where PREMISES has one. So has every method of an `impl Trait for Type` that names no
private type, and the `eq` that a derive writes. One that lends and can refuse has one more in proofs/RefusalLeaves.antt: a refusal leaves
all that was lent as it was. A statement bears the function's name and is, word for word, of one form over the modules that the prover
makes of that function. Programs have no public functions, and are passed over. The functions that C links, in crate nocturenc_c, have the
clauses of those of the library that they call, in crate nocturenc.
"""
import glob
import os
import re
import sys

# A function without a statement of a kind, and why: (crate, file, statement): reason
EXCEPTIONS = {}

# What is said, and what a refusal is, by the error of a `Result` or the type of the result: a function with any `Result` can refuse, and one
# whose result is a u64 answers C, packed.
SAID = "Rattle.paper.specs.Outcome"
REFUSAL = {
    "error Refusal": "Rattle.paper.specs.Refusals.IsRefusal",
    "u64": "Rattle.nocturenc.specs.Packed.IsPackedRefusal",
}

# The method that a derive writes, if any; of a derive that is not here `?` is asked for
DERIVED = {"Clone": None, "Copy": None, "Drop": None, "Eq": None, "PartialEq": "eq"}

# The forms of a generic function's statements, over its type parameter and all that the parameter's bound brings.
COPIED = (
    "(T : denote.RattleType.RattleType) (L : denote.Param.Laws.Laws T) (C : denote.Param.Laws.IsCopy T)"
    " (K : Rattle.std.specs.declared.clone.Clone.Ghosts T.Denot) (D : mir.Syntax.Dict) → "
)
TESTED = "(T : denote.RattleType.RattleType) (L : denote.Param.Laws.Laws T) (F : {contract}.F-Fn.Ghosts T) (d e f g : mir.Syntax.Dict) → "
GENERIC = {
    ("OneOutcome", "entries::decided::first_decided"): (
        f"{TESTED}{{said}}.OneOutcome ({{path}}.Kinds.ps T L) ({{path}}.Kinds.r T L)"
        " ({path}.Reads.Pre T L F d e f g) ({path}.Reads.Post T L F d e f g)"
    ),
    ("OneOutcome", "entries::first_where"): (
        f"{TESTED}{{said}}.OneOutcome ({{path}}.Kinds.ps T L) ({{path}}.Kinds.r T L) (λ κs a. {{path}}.Reads.Pre T L F d e f g κs a"
        " × Rattle.entries.specs.Inside.Asked.OneAnswer (({contract}.F-Fn.words T F).post a.1.0) a.0) ({path}.Reads.Post T L F d e f g)"
    ),
    ("OneOutcome", "rows::walk::Formula::value_of"): (
        "(T U : denote.RattleType.RattleType) (t : denote.Param.Laws.Laws T) (u : denote.Param.Laws.Laws U)"
        " (F : Rattle.rows.specs.declared.walk.Folding.Ghosts T.Denot U.Denot) (d : mir.Syntax.Dict)"
        " → {said}.OneOutcome ({path}.Kinds.ps T U t u) ({path}.Kinds.r T U t u) ({path}.Reads.Pre T U t u F d) ({path}.Reads.Post T U t u F d)"
    ),
    ("OneOutcome", "filling::fill"): (
        f"{COPIED}{{said}}.OneOutcome ({{path}}.Kinds.ps T L C) ({{path}}.Kinds.r T L C)"
        " ({path}.Reads.Pre T L C K D) ({path}.Reads.Post T L C K D)"
    ),
    ("RefusalLeaves", "filling::fill"): (
        f"{COPIED}{{said}}.RefusalLeaves ({{path}}.Kinds.ps T L C) ({{path}}.Kinds.r T L C) (λ κs. {REFUSAL['error Refusal']})"
        " (λ κs a. (tt, (a.1.0.now, tt))) ({path}.Reads.Pre T L C K D) ({path}.Reads.Post T L C K D)"
    ),
}

# Which of these has a premise beside what the function requires
PREMISES = {("OneOutcome", "entries::first_where"): "where the test that it is handed has one answer at each number"}

# A function's head up to its parameters: whether it is public, whether C links it, its name, with what it is generic over
GENERICS = r"<(?:->|[^<>]|<(?:[^<>]|<[^<>]*>)*>)*>"
FUNCTION = r'(\bpub\b\s*(?:\([^)]*\)\s*)?)?(?:\b(?:const|unsafe)\s+)*(extern\s*""\s*)?\bfn\s+(\w+)\s*(?:' + GENERICS + r")?\s*\("

failures = []


def without(comment, path):
    """A file's text without its comments and without what stands in quotes."""
    with open(path, encoding="utf-8") as file:
        text = re.sub(r'"[^"\n]*"', '""', file.read())
    return re.sub(re.escape(comment) + r"[^\n]*", "", text)


class Function:
    """A public function: its modules, its statements' name, which parameters are lent to be changed, its result, its head without them."""

    def __init__(self, crate, modules, name, exported, parameters, result, head=""):
        whole = modules + [name]
        self.path = ".".join([f"Rattle.{crate}.proofs"] + whole)
        self.shown = "::".join([crate] + whole)
        self.statement = "-".join([m.lower() for m in modules if m[0].isupper()] + [name]).replace("_", "-")
        self.exported = exported
        self.lent = [bool(re.search(r"&\s*('\w+\s+)?mut\b", p)) for p in parameters]
        self.result = result
        self.head = head


def closing(text, start):
    """The place of the bracket that closes the one at `start`."""
    depth = 0
    for i in range(start, len(text)):
        depth += (text[i] in "({[") - (text[i] in ")}]")
        if depth == 0:
            return i
    raise ValueError("a bracket is not closed")


def parts(parameters):
    """The parameters, parted at the commas that stand in no bracket."""
    found, depth = [""], 0
    for c in parameters:
        depth += (c in "([{<") - (c in ")]}>")
        if c == "," and depth == 0:
            found.append("")
        else:
            found[-1] += c
    return [p for p in found if p.strip()]


def told(result):
    """What a result is known by: of a `Result` its error, behind a mark; else the type."""
    whole = re.match(r"Result<(.*)>$", result)
    return f"error {parts(whole.group(1))[-1].strip()}" if whole else result


def owners(text):
    """Each `impl` by the prover's name of it, whether its methods are public without a `pub`, and where it begins and ends. One of a
    trait is named by the type, the trait and what the trait is for, as U8FromFault."""
    private = set(re.findall(r"^\s*(?:struct|enum)\s+(\w+)", text, re.M))
    found = []
    for i in re.finditer(r"\bimpl\b(?:\s*<[^>]*>)?([^{;]*)\{", text):
        trait, of_trait, owner = i[1].rpartition(" for ")
        words = re.findall(r"\w+", re.sub(r"<[^>]*>", "", owner) + " " + trait)
        name = "".join(w[0].upper() + w[1:] for w in words)
        found.append((name, bool(of_trait) and private.isdisjoint(words), i.end() - 1, closing(text, i.end() - 1)))
    return found


def derived(crate, modules, text):
    """The methods of the public types of a source file that a derive writes."""
    for traits, name in re.findall(r"#\[derive\(([^)]*)\)\]\s*pub\s+(?:struct|enum)\s+(\w+)", text):
        for trait in parts(traits):
            method = DERIVED.get(trait.strip(), "?")
            if method:
                yield Function(crate, modules + [name + trait.strip()], method, False, ["&self", "&other"], "bool")


def public_functions(crate):
    """The public functions of a crate's source, in their order."""
    found = []
    source = f"crates/{crate}/src"
    for path in sorted(glob.glob(f"{source}/**/*.rt", recursive=True)):
        modules = os.path.relpath(path, source)[: -len(".rt")].split(os.sep)
        modules = [] if modules == ["lib"] else modules
        text = without("//", path)
        impls = owners(text)
        found.extend(derived(crate, modules, text))
        for item in re.finditer(FUNCTION, text):
            around = [(name, public) for name, public, start, stop in impls if start < item.start() < stop]
            if not item[1] and not any(public for _, public in around):
                continue
            end = closing(text, item.end() - 1)
            result = re.match(r"\s*->\s*([^\n{]+)", text[end + 1 :])
            lent, answer = parts(text[item.end() : end]), result and told(result[1].strip())
            head = item[0] + re.match(r"(?:(?!\b(?:requires|ensures)\b)[^{])*", text[end + 1 :])[0]
            found.append(Function(crate, modules + [name for name, _ in around], item[3], bool(item[2]), lent, answer, head))
    return found


def brought(path, text):
    """Each name that the `use` lines of a file of proofs bring, with the whole name that it stands for."""
    names = {}
    pairs = [(name, whole) for whole, name in re.findall(r"^use (\S+) as (\S+)$", text, re.M)]
    for module, listed in re.findall(r"^use (\S+)\.\{([^}]*)\}$", text, re.M):
        for entry in listed.split(","):
            words = entry.split()
            pairs.append((words[-1], f"{module}.{words[0]}"))
    for name, whole in pairs:
        if name in names or re.search(rf"^\s*(?:pub |abbrev |unfoldable )*{re.escape(name)} :", text, re.M):
            failures.append(f"{path}: {name} stands for two things")
        names[name] = whole
    return names


def statements(crate, file, said_in=SAID):
    """The statements of a file of proofs, by a word of `said_in`, each with its type, every name in it written out."""
    path = f"crates/{crate}/proofs/{file}.antt"
    if not os.path.exists(path):
        return {}
    if not re.search(rf"^(pub )?mod {file}$", without("--", f"crates/{crate}/proofs/Lib.antt"), re.M):
        failures.append(f"{path}: proofs/Lib.antt does not name it, so nothing proves it")
    text = without("--", path)
    names = brought(path, text)
    found = {}
    for name, said in re.findall(r"^pub (\S+) :(.*(?:\n[ ].*)*)", text, re.M):
        whole = re.sub(r"(?<![\w.-])[\w-]+", lambda m: names.get(m.group(0), m.group(0)), " ".join(said.split()))
        if f"{said_in}." in whole:
            found[name.replace("_", "-")] = whole
    return found


def of_generic(kind, f):
    """The form of a generic function's statement of a kind."""
    return GENERIC[kind, f.shown].format(said=SAID, path=f.path, contract=f.path.replace(".proofs", ".specs.contracts", 1))


def one_outcome(f):
    """Over the prover's reading of the contract or, for a function that is walked by hand, over the contract's clauses; of a generic
    function in the form above."""
    if ("OneOutcome", f.shown) in GENERIC:
        return [of_generic("OneOutcome", f)]
    read = f"{SAID}.OneOutcome {f.path}.Kinds.ps {f.path}.Kinds.r {f.path}.Reads.Pre {f.path}.Reads.Post"
    return [read, f"{SAID}.OneOutcomeWalked {f.path}.ended (λ M. {f.path}.clauses)"]


def refusal_leaves(f):
    """What is left of each value that was lent to be changed is what is there now."""
    if ("RefusalLeaves", f.shown) in GENERIC:
        return [of_generic("RefusalLeaves", f)]
    lent = "tt"
    for i in reversed(range(len(f.lent))):
        lent = f"(a{'.1' * i}.0.now, {lent})" if f.lent[i] else f"(tt, {lent})"
    refusal = REFUSAL.get(f.result, "?")
    kinds = f"{f.path}.Kinds.ps {f.path}.Kinds.r (λ κs. {refusal}) (λ κs a. {lent})"
    return [f"{SAID}.RefusalLeaves {kinds} {f.path}.Reads.Pre {f.path}.Reads.Post"]


def compare(crate, file, functions, forms):
    """Each of these functions has its statement in the file, and each statement there its function."""
    stated = statements(crate, file)
    for f in functions:
        if (crate, file, f.statement) in EXCEPTIONS:
            if f.statement in stated:
                failures.append(f"{f.shown} is excepted from {file}, and has a statement")
        elif f.statement not in stated:
            failures.append(f"{f.shown} has no statement in proofs/{file}.antt")
        elif stated[f.statement] not in forms(f):
            failures.append(f"{f.shown}: proofs/{file}.antt has\n  {stated[f.statement]}\nand not\n  {forms(f)[0]}")
    names = [f.statement for f in functions]
    failures.extend(f"{crate}: {name} is the name of two functions' statements" for name in {n for n in names if names.count(n) > 1})
    failures.extend(f"{crate}: {name} in proofs/{file}.antt is of no such function" for name in stated if name not in names)
    failures.extend(
        f"{crate}: {e[2]} is excepted from {file}, and is no such function" for e in EXCEPTIONS if e[:2] == (crate, file) and e[2] not in names
    )


def heads(path):
    """What each public function of a source file takes, gives and promises: its text from its name to its body."""
    text = without("//", path)
    return {m[1]: " ".join(m[2].split()) for m in re.finditer(r'\bpub\b\s*(?:extern\s*""\s*)?fn\s+(\w+)(.*?)\n\{\n', text, re.S)}


def cited(path):
    """Each word that the clauses of a source file may cite, with the module that it is brought from."""
    text = without("//", path)
    brought_in = re.findall(r"^ghost use (\S+)\.\{([^}]*)\};$", text, re.M)
    return {name.strip(): module for module, listed in brought_in for name in listed.split(",")}


def exports():
    """The functions that C links have the names and the clauses of the library's, of the same words. Gives how many there are."""
    paths = ("crates/nocturenc/src/exported.rt", "crates/nocturenc_c/src/lib.rt")
    (library, archive), (words, others) = map(heads, paths), map(cited, paths)
    for name in sorted(library.keys() | archive.keys()):
        if library.get(name) != archive.get(name):
            failures.append(f"{name}: nocturenc has\n  {library.get(name)}\nand nocturenc_c\n  {archive.get(name)}")
        for word in set(re.findall(r"\w+", archive.get(name, ""))) & (words.keys() | others.keys()):
            if words.get(word) != others.get(word):
                failures.append(f"{name}: {word} is of {words.get(word)} in nocturenc and of {others.get(word)} in nocturenc_c")
    return len(archive)


def but_for(file):
    """How many are excepted."""
    excepted = sum(e[1] == file for e in EXCEPTIONS)
    return f", but for {excepted}" if excepted else ""


def main():
    crates = sorted(os.path.basename(c) for c in glob.glob("crates/*"))
    libraries = [c for c in crates if os.path.exists(f"crates/{c}/src/lib.rt")]
    number = refusing = owners = 0
    for crate in libraries:
        functions = public_functions(crate)
        can_refuse = [f for f in functions if any(f.lent) and (f.exported or (f.result or "").startswith("error ") or f.result in REFUSAL)]
        compare(crate, "OneOutcome", functions, one_outcome)
        compare(crate, "RefusalLeaves", can_refuse, refusal_leaves)
        number, refusing, owners = number + len(functions), refusing + len(can_refuse), owners + bool(functions)
    exported = exports()
    for line in failures:
        print(f"outcomes: {line}")
    if failures:
        sys.exit(1)
    print(f"outcomes: {len(crates) - len(libraries)} programs and {len(libraries) - owners} libraries without a function are passed over")
    for (crate, file, name), reason in EXCEPTIONS.items():
        print(f"outcomes: excepted from {file}: {name} of {crate}: {reason}")
    print(f"outcomes: {refusing} public functions lend and can refuse, each leaving what was lent where it does{but_for('RefusalLeaves')}")
    print(f"outcomes: {exported} functions for C, with the clauses of the library's")
    print(f"outcomes: {number} public functions of {owners} crates, each with one outcome{but_for('OneOutcome')}")
    for (file, shown), premise in PREMISES.items():
        print(f"outcomes: in {file} {shown} has one {premise}")


if __name__ == "__main__":
    os.chdir(os.path.join(os.path.dirname(os.path.abspath(__file__)), ".."))
    main()
