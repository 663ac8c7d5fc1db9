#!/usr/bin/env python3
"""Does what README.md shows: compiles its programs, runs its commands, and holds what is printed to what it says is printed.

    readme.py

A program is a block fenced as c or rust. It gets the file name that the next command with a name of that kind compiles. A command is
an indented line that begins with `$ `; what it prints stands below it, indented alike. Commands run in a folder that has what they
name: the command nocturenc, the header, the examples and what is built. Runs from the top of the repository.
"""
import os
import pathlib
import re
import subprocess
import sys
import tempfile

NEEDED = ("nocturenc", "include", "examples", "target")
SUFFIX = {"c": ".c", "rust": ".rs"}


def fill(folder):
    """Puts links to what the commands name into an empty folder. It is none of the repository's: the prover's gate refuses links there."""
    for name in NEEDED:
        (folder / name).symlink_to(pathlib.Path(name).resolve())


def blocks(text):
    """Programs as (language, text) and commands as (None, command, what it prints), in their order."""
    for part in re.finditer(r"^```(c|rust)\n(.*?)^```$|^(?:    [^\n]*\n)+", text, re.M | re.S):
        if part[1]:
            yield part[1], part[2]
            continue
        lines = [line[4:] for line in part[0].splitlines()]
        for at, line in enumerate(lines):
            if line.startswith("$ "):
                rest = lines[at + 1:]
                until = next((i for i, other in enumerate(rest) if other.startswith("$ ")), len(rest))
                yield None, line[2:], "".join(printed + "\n" for printed in rest[:until])


def run(folder, command, wanted):
    """Gives what is wrong with a command, or None. It ends with 1 where a refusal is shown, else with 0, and says nothing beside
    that it builds something."""
    done = subprocess.run(["bash", "-c", command], cwd=folder, capture_output=True, text=True, check=False)
    complaints = [line for line in done.stderr.splitlines() if not line.startswith("nocturenc: ")]
    status = 1 if wanted.startswith("refused") else 0
    if done.stdout == wanted and not complaints and done.returncode == status:
        return None
    return "$ %s\nstatus %d, printed:\n%s%swanted:\n%s" % (command, done.returncode, done.stdout, done.stderr, wanted)


def follow(folder):
    """Goes through the page in a folder, and gives the exit status."""
    fill(folder)
    programs, commands, waiting = 0, 0, {}
    for language, text, *wanted in blocks(pathlib.Path("README.md").read_text(encoding="utf-8")):
        if language:
            waiting[SUFFIX[language]] = text
            continue
        for suffix in list(waiting):
            named = re.search(r"\S+" + re.escape(suffix) + r"(?=\s|$)", text)
            if named:
                (folder / os.path.basename(named[0])).write_text(waiting.pop(suffix), encoding="utf-8")
                programs += 1
        fault = run(folder, text, wanted[0])
        if fault:
            print("readme: %s" % fault)
            return 1
        commands += 1
    print("readme: %d programs compiled, %d commands run" % (programs, commands))
    return 0 if programs == 2 and commands >= 7 and not waiting else 1


def main():
    with tempfile.TemporaryDirectory() as folder:
        return follow(pathlib.Path(folder))


if __name__ == "__main__":
    sys.exit(main())
