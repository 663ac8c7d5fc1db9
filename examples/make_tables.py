#!/usr/bin/env python3
"""Makes the tables and the names of the examples from their text form (its grammar is in README.md).

    make_tables.py [TEXT...]            write NAME.table and NAME.names beside each NAME.txt; without TEXT, of all here
    make_tables.py --check [TEXT...]    write nothing; a line for each file that is not current, and exit status 1
    make_tables.py --labels TEXT...     print each text with the label of the row before each line of the formula

It writes what the text says and judges nothing: whether a table is accepted is for the lister to say.
"""
import os
import pathlib
import re
import struct
import sys

FALSE, STAR, CANDIDATE, AND, OR, EXISTS, IF = range(7)
MOST_VARIABLES, MOST_READS, MOST_ROWS, DEEPEST = 1024, 8192, 4096, 64

NAME = r"[A-Za-z_][A-Za-z0-9_]*"
READS = r"star(?:\((.*)\))?"


class BadText(Exception):
    """What is wrong with a text, and in which line."""

    def __init__(self, line, what):
        super().__init__(what)
        self.line = line


class Row:
    """A row before its label is known: its kind, a candidate's variable, a star's reads, and the rows under it."""

    def __init__(self, line, kind, variable=0, reads=(), under=(), chosen=False, takes_lines=False):
        self.line, self.kind, self.variable, self.reads, self.chosen = line, kind, variable, reads, chosen
        self.under = list(under)
        self.takes_lines = takes_lines          # deeper lines of the text stand under it


class Text:
    """A text form, read whole: the variables with their name numbers, and the root of the formula."""

    def __init__(self, text):
        self.numbers, self.names, self.root = [], [], None
        open_rows = []                          # the row at each depth down to the last line's, outermost first
        lines = text.split("\n")
        for at, full in enumerate(lines, 1):
            line = full.split("--", 1)[0].rstrip()
            if not line:
                continue
            words = line.lstrip(" ")
            if words[0].isspace():
                raise BadText(at, "indent with spaces only")
            depth, odd = divmod(len(line) - len(words), 2)
            if odd:
                raise BadText(at, "the indentation is not a whole number of steps of two spaces")
            if words.split()[0] == "variable":
                self.add_variable(at, depth, words)
                continue
            row = self.row_of(at, words)
            self.place(at, depth, row, open_rows)
            open_rows[depth:] = [row]
        if self.root is None or not self.names:
            raise BadText(len(lines), "there is no %s" % ("formula" if self.names else "variable"))
        self.check_shape(self.root, 1)

    def add_variable(self, at, depth, words):
        """variable NUMBER NAME: the name numbers ascend, as they must in the table."""
        found = re.fullmatch(r"variable\s+([0-9]+)\s+(%s)" % NAME, words)
        if not found:
            raise BadText(at, "a variable is written: variable NUMBER NAME")
        number, name = int(found[1]), found[2]
        if depth or self.root is not None:
            raise BadText(at, "the variables stand before the formula, without indentation")
        if number > 65535:
            raise BadText(at, "the name number %d is above 65535" % number)
        if self.numbers and number <= self.numbers[-1]:
            raise BadText(at, "the name number %d is not above the one before" % number)
        if name in self.names:
            raise BadText(at, "the variable '%s' is named twice" % name)
        if len(self.names) == MOST_VARIABLES:
            raise BadText(at, "there are more than %d variables" % MOST_VARIABLES)
        self.numbers.append(number)
        self.names.append(name)

    def position(self, at, name):
        """The position of a variable, by which the table refers to it."""
        if name not in self.names:
            raise BadText(at, "unknown variable '%s'" % name)
        return self.names.index(name)

    def star(self, at, inside):
        """A star with the primed variables in its brackets, ascending and without repeats."""
        reads = set()
        for part in [] if inside is None else inside.split(","):
            found = re.fullmatch(r"(%s)'" % NAME, part.strip())
            if not found:
                raise BadText(at, "a star reads primed variables, parted by commas, not '%s'" % part.strip())
            reads.add(self.position(at, found[1]))
        return Row(at, STAR, reads=sorted(reads))

    def candidate(self, at, name, star, chosen):
        return Row(at, CANDIDATE, self.position(at, name), under=[star], chosen=chosen)

    def row_of(self, at, words):
        """One line of the formula, without its indentation."""
        chosen = words.split()[0] == "chosen"
        rest = words[len("chosen"):].strip() if chosen else words
        if found := re.fullmatch(r"(%s)'\s+in\s+%s" % (NAME, READS), rest):
            return self.candidate(at, found[1], self.star(at, found[2]), chosen)
        if found := re.fullmatch(r"unchanged((?:\s+%s)+)" % NAME, rest):
            kept = [self.candidate(at, name, Row(at, STAR), chosen) for name in found[1].split()]
            return kept[0] if len(kept) == 1 else Row(at, AND, under=kept)
        if re.match(r"in\b", rest):
            raise BadText(at, "a candidate without its variable: write v' in star")
        if found := re.match(r"(%s)\s+in\b" % NAME, rest):
            raise BadText(at, "a candidate assigns a primed variable: write %s' in star" % found[1])
        if chosen:
            raise BadText(at, "only a candidate can be chosen, not '%s'" % rest)
        if rest == "false":
            return Row(at, FALSE)
        if rest in ("and", "or"):
            return Row(at, AND if rest == "and" else OR, takes_lines=True)
        if found := re.fullmatch(r"(test|exists|if)\s+%s" % READS, rest):
            star = self.star(at, found[2])
            return star if found[1] == "test" else Row(at, EXISTS if found[1] == "exists" else IF, under=[star], takes_lines=True)
        raise BadText(at, "unknown row '%s'" % rest)

    def place(self, at, depth, row, open_rows):
        """Puts a row under the row that its indentation says."""
        if depth > len(open_rows):
            raise BadText(at, "the indentation is more than one step deeper than the line above")
        if depth == 0:
            if self.root is not None:
                raise BadText(at, "a second formula begins here: all rows stand under the first")
            self.root = row
            return
        over = open_rows[depth - 1]
        if not over.takes_lines:
            raise BadText(at, "no row can stand under the one in line %d" % over.line)
        over.under.append(row)

    def check_shape(self, row, depth):
        """A join has as many rows under it as its kind asks, and none lies too deep."""
        if depth > DEEPEST:
            raise BadText(row.line, "the row is deeper than %d" % DEEPEST)
        if row.kind in (AND, OR) and not row.under:
            raise BadText(row.line, "'and' and 'or' have one row or more under them, not 0")
        if row.kind == EXISTS and len(row.under) != 2:
            raise BadText(row.line, "'exists' has one row under it, not %d" % (len(row.under) - 1))
        if row.kind == IF and len(row.under) != 3:
            raise BadText(row.line, "'if' has two rows under it, THEN and ELSE, not %d" % (len(row.under) - 1))
        for under in row.under:
            self.check_shape(under, depth + 1)

    def sections(self):
        """Reads, rows and strategy. A row is its four words, after the line of the text that it comes from."""
        reads, rows, strategy = [], [], []

        def walk(row):
            label, before = len(rows), len(reads)
            rows.append(None)
            if row.chosen:
                strategy.append(label)
            reads.extend(row.reads)
            for under in row.under:
                walk(under)
            arg = {STAR: len(row.reads), CANDIDATE: row.variable, AND: len(row.under), OR: len(row.under)}.get(row.kind, 0)
            rows[label] = (row.line, row.kind, arg, len(rows), before)

        walk(self.root)
        if len(reads) > MOST_READS or len(rows) > MOST_ROWS:
            raise BadText(self.root.line, "%d reads and %d rows: the most are %d and %d" % (len(reads), len(rows), MOST_READS, MOST_ROWS))
        return reads, rows, strategy

    def table(self):
        """The words of the table, low byte first."""
        reads, rows, strategy = self.sections()
        words = [len(self.numbers), *self.numbers, len(reads), *reads, len(rows)]
        for row in rows:
            words.extend(row[1:])
        words.extend([len(strategy), *strategy])
        return struct.pack("<%dH" % len(words), *words)

    def names_file(self):
        return "".join("%d %s\n" % pair for pair in zip(self.numbers, self.names)).encode()

    def print_labels(self, lines):
        """Each line after the lowest label of its rows, or after nothing."""
        label_of = {}
        for label, row in enumerate(self.sections()[1]):
            label_of.setdefault(row[0], label)
        for at, line in enumerate(lines, 1):
            print(("%5s  %s" % (label_of.get(at, ""), line)).rstrip())


def treat(path, option):
    """Does what the option asks with one text, and gives the faults found."""
    if path.suffix != ".txt":
        return ["%s: a text form is named NAME.txt" % path]
    try:
        written = path.read_text(encoding="utf-8")
        text = Text(written)
        faults = []
        if option == "--labels":
            text.print_labels(written.rstrip("\n").split("\n"))
            return faults
        for file, wanted in ((path.with_suffix(".table"), text.table()), (path.with_suffix(".names"), text.names_file())):
            if option is None:
                file.write_bytes(wanted)
            elif not file.is_file():
                faults.append("%s: is missing; %s makes it" % (file, os.path.basename(__file__)))
            elif file.read_bytes() != wanted:
                faults.append("%s: is not what %s says; %s makes it anew" % (file, path.name, os.path.basename(__file__)))
        return faults
    except BadText as bad:
        return ["%s:%d: %s" % (path, bad.line, bad)]
    except UnicodeDecodeError:
        return ["%s: is not a text in UTF-8" % path]
    except OSError as error:
        return ["%s: %s" % (path, error.strerror)]


def main(arguments):
    options = [a for a in arguments if a.startswith("-")]
    given = [pathlib.Path(a) for a in arguments if not a.startswith("-")]
    if options not in ([], ["--check"], ["--labels"]) or (options == ["--labels"] and not given):
        print(__doc__.strip(), file=sys.stderr)
        return 2
    option = options[0] if options else None
    here = pathlib.Path(os.path.relpath(os.path.dirname(os.path.abspath(__file__))))
    faults = []
    for path in given or sorted(here.glob("*.txt")):
        faults.extend(treat(path, option))
    if option == "--check" and not given:
        for file in sorted(here.iterdir()):
            if file.suffix in (".table", ".names", ".listing") and not file.with_suffix(".txt").is_file():
                faults.append("%s: there is no text of that name" % file)
    for fault in faults:
        print(fault, file=sys.stderr)
    return 1 if faults else 0


if __name__ == "__main__":
    sys.exit(main(sys.argv[1:]))
