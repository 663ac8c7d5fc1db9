#!/usr/bin/env python3
"""Holds what the browser shows to stored displays, and to what tables and listings say.

    displays.py BROWSER             compare; a line for the first display that differs, and exit status 1
    displays.py BROWSER --record    write the stored displays anew, from what the browser shows

Stored displays stand in host/browser/displays: a line `$ EXAMPLE [K]` or `$ words WORD... [: K]`, then what is shown, up to the next
such line. Beside them every example is shown, whole and by each transition, and so are tables at the limits; what each line must be
is worked out here from the words of the table and from its listing. Runs from the top of the repository.
"""
import pathlib
import struct
import subprocess
import sys

SCRATCH = pathlib.Path("target/host/displayed.table")
FALSE, STAR, CANDIDATE, AND, OR, EXISTS, IF = range(7)
WITH_TREE = (3, 7, 8, 9, 10, 11, 12, 13, 14)     # refusals of sound rows: the tree is shown
AT_ROW = (8, 10, 13)                             # their place is a label, which the tree marks


class Differs(Exception):
    """The first line that is not as it should be."""


def shown(browser, table, k=None):
    """What the browser shows, and its exit status."""
    done = subprocess.run([browser, str(table)] + ([] if k is None else [str(k)]), capture_output=True, text=True, check=False)
    return done.stdout + done.stderr, done.returncode


def write_words(words):
    SCRATCH.write_bytes(struct.pack("<%dH" % len(words), *words))
    return SCRATCH


def hold(title, said, wanted):
    """Line by line, so that the first difference can be shown."""
    said, wanted = said.split("\n"), wanted.split("\n")
    for at in range(max(len(said), len(wanted))):
        one, two = (lines[at] if at < len(lines) else None for lines in (said, wanted))
        if one != two:
            raise Differs("%s, line %d: shown %r, wanted %r" % (title, at + 1, one, two))


class Table:
    """A table with sound rows, taken apart, and its names by number."""

    def __init__(self, words, names):
        words = list(words)

        def section(width):
            count = words.pop(0)
            entries, words[:] = words[:count * width], words[count * width:]
            return entries

        self.numbers, self.names, self.reads = section(1), names, section(1)
        rows = section(4)
        self.rows = [rows[at:at + 4] for at in range(0, len(rows), 4)]
        self.chosen = set(section(1))

    def variable(self, position):
        number = self.numbers[position]
        return "%s(%d)" % (self.names[number], number) if number in self.names else str(number)

    def reading(self, star):
        _, count, _, start = self.rows[star]
        return "".join("%s%s'" % (" " if i else ", reads ", self.variable(self.reads[start + i])) for i in range(count))

    def is_own_star(self, label):
        return self.rows[label][0] == STAR and label > 0 and self.rows[label - 1][0] in (CANDIDATE, EXISTS, IF)

    def text(self, label):
        kind, arg = self.rows[label][:2]
        if kind == STAR:
            return ("star" if self.is_own_star(label) else "test") + self.reading(label)
        if kind == CANDIDATE:
            return self.variable(arg) + "' in star"
        return {FALSE: "FALSE", AND: "conjunction of %d" % arg, OR: "disjunction of %d" % arg, EXISTS: "exists in star",
                IF: "IF star THEN ELSE"}[kind]

    def tree(self, keep=None, fault=None):
        """A line for each row: `>` at fault, `+` chosen, and in a transition `*` kept, `-` a test or candidate that is not."""
        lines, ends = [], []
        for label, (kind, _, end, _) in enumerate(self.rows):
            while ends and ends[-1] <= label:
                ends.pop()
            cut = keep is not None and (kind == CANDIDATE or kind == STAR and not self.is_own_star(label))
            mark = "*" if keep is not None and label in keep else "-" if cut else " "
            lines.append("%s %4d %s%s  %s%s" % (">" if label == fault else " ", label, "+" if label in self.chosen else " ", mark,
                                                "  " * len(ends), self.text(label)))
            ends.append(end)
        return lines

    def whole(self, counts, order):
        """An accepted table without K, twenty labels of the order to a line."""
        counted = ["%d %s%s" % (count, noun, "" if count == 1 or noun == "chosen" else "s")
                   for count, noun in zip(counts, ("variable", "row", "chosen", "transition"))]
        twenties = [" ".join(map(str, order[at:at + 20])) for at in range(0, len(order), 20)]
        return "\n".join(["accepted: " + ", ".join(counted), *self.tree(), "order: " + "\n  ".join(twenties),
                          "transitions: %d, numbered from 0" % counts[3], "+ chosen by the strategy", ""])

    def transition(self, k, count, assign, keep):
        assigned = ["  %4d      %s%s" % (label, self.text(label), self.reading(label + 1)) for label in assign]
        return "\n".join(["transition %d of %d, numbered from 0" % (k, count), *self.tree(set(keep)), "assignments, in order:", *assigned,
                          "+ chosen by the strategy   * kept   - not kept, and so FALSE in this transition", ""])


def check_display(browser, file, k, wanted):
    """A display of an accepted table, and status 0."""
    said, status = shown(browser, file, k)
    hold("%s %s" % (file, k), said, wanted)
    if status != 0:
        raise Differs("%s %s: status %d" % (file, k, status))


def check_refused(browser, file, table, number, place):
    """The refusal's line, the tree where the rows are sound, and status 1; a number K changes nothing."""
    rows = table.tree(fault=place if number in AT_ROW else None) if number in WITH_TREE else []
    head = "refused %d at %d: " % (number, place)
    for k in (None, 0):
        said, status = shown(browser, file, k)
        lines = said.split("\n")
        hold("%s, the tree" % file, "\n".join(lines[-1 - len(rows):]), "\n".join(rows + [""]))
        if status != 1 or not lines[0].startswith(head):
            raise Differs("%s: status %d, shown %r, wanted %r" % (file, status, lines[0], head))


def check(browser, file, table, listing, asked=None):
    """All displays of one table, or those of the transitions asked for; gives their number."""
    verdict, *numbers = listing[0].split()
    numbers = [int(number) for number in numbers]
    if verdict == "refused":
        check_refused(browser, file, table, *numbers)
        return 2
    order = [int(label) for label in listing[1].split()[1:]]
    check_display(browser, file, None, table.whole(numbers, order))
    for k in range(numbers[3]) if asked is None else asked:
        head, _, rest = listing[2 + k].partition(" assign ")
        assign, keep = ([int(label) for label in part.split()] for part in rest.split(" keep "))
        check_display(browser, file, k, table.transition(int(head), numbers[3], assign, keep))
    return 1 + (numbers[3] if asked is None else len(asked))


def examples(browser):
    displays = 0
    for file in sorted(pathlib.Path("examples").glob("*.table")):
        data = file.read_bytes()
        names = dict(line.split() for line in file.with_suffix(".names").read_text().splitlines())
        table = Table(struct.unpack("<%dH" % (len(data) // 2), data), {int(number): name for number, name in names.items()})
        displays += check(browser, file, table, file.with_suffix(".listing").read_text().splitlines())
    return displays


def largest():
    """1,024 variables, 4,096 rows, 2,047 chosen and 8,184 reads in 55,286 bytes: the last rows are shown only if all is read."""
    rows, reads = [(AND, 1024, 4096, 0)], []
    for label in [*range(1, 2047, 2), *range(2048, 4096, 2)]:
        if label == 2048:
            rows.append((OR, 1024, 4096, 0))
        taken = 1023 if label >= 4080 else 0
        rows += [(CANDIDATE, min((label - 1) // 2, 1023), label + 2, len(reads)), (STAR, taken, label + 2, len(reads))]
        reads += range(taken)
    common, arms = [*range(1, 2047, 2)], [*range(2048, 4096, 2)]
    lists = [" ".join(map(str, common + [arm])) for arm in arms]
    listing = ["accepted 1024 4096 2047 1024", "order " + " ".join(map(str, common + arms))]
    listing += ["%d assign %s keep %s" % (k, labels, labels) for k, labels in enumerate(lists)]
    return words_of(1024, reads, rows, common + arms), listing


def longest():
    """29,700 words, the most that a table has: every label is chosen, the root too, which is no candidate."""
    rows = [(AND, 4095, 4096, 0)]
    for label in range(1, 4096):
        rows.append((STAR, 1024 if label <= 8 else 0, label + 1, 1024 * min(label - 1, 8)))
    return words_of(1024, [*range(1024)] * 8, rows, range(4096)), ["refused 10 0"]


def too_deep():
    """63 one-child conjunctions round a candidate: 8 at 64."""
    rows = [(AND, 1, 65, 0)] * 63 + [(CANDIDATE, 0, 65, 0), (STAR, 0, 65, 0)]
    return words_of(1, [], rows, [63]), ["refused 8 64"]


def too_many():
    """Sixteen disjunctions of two candidates: 14."""
    rows, chosen = [(AND, 16, 81, 0)], []
    for variable in range(16):
        first = len(rows) + 1
        rows.append((OR, 2, first + 4, 0))
        for label in (first, first + 2):
            rows += [(CANDIDATE, variable, label + 2, 0), (STAR, 0, label + 2, 0)]
            chosen.append(label)
    return words_of(16, [], rows, chosen), ["refused 14 0"]


def words_of(variables, reads, rows, chosen):
    flat = [word for row in rows for word in row]
    return [variables, *range(variables), len(reads), *reads, len(rows), *flat, len(chosen), *chosen]


def asked_of(line):
    """The table and the number K of a line `$ ...`."""
    parts = line[2:].split()
    if parts[0] != "words":
        return pathlib.Path("examples", parts[0] + ".table"), parts[1] if len(parts) > 1 else None
    words, _, k = line[len("$ words "):].partition(":")
    return write_words([int(word) for word in words.split()]), k.strip() or None


def stored(browser, record):
    displays = 0
    for file in sorted(pathlib.Path("host/browser/displays").glob("*.txt")):
        text = ""
        for line in file.read_text().splitlines():
            if not line.startswith("$ "):
                continue
            said, status = shown(browser, *asked_of(line))
            text += "%s\n%s" % (line, said)
            displays += 1
            if status != said.startswith("refused"):
                raise Differs("%s, %s: status %d" % (file, line, status))
        if record:
            file.write_text(text)
        hold(str(file), text, file.read_text())
    return displays


def main(arguments):
    if len(arguments) not in (1, 2) or arguments[1:] not in ([], ["--record"]):
        print(__doc__.strip(), file=sys.stderr)
        return 2
    browser = arguments[0]
    try:
        compared, worked_out = stored(browser, arguments[1:] != []), examples(browser)
        for (words, listing), asked in ((largest(), (0, 1023)), (longest(), ()), (too_deep(), ()), (too_many(), ())):
            worked_out += check(browser, write_words(words), Table(words, {}), listing, asked)
    except Differs as differs:
        print("displays: %s" % differs)
        return 1
    print("displays: %d as stored, %d as their tables and listings say" % (compared, worked_out))
    return 0 if compared and worked_out else 1


if __name__ == "__main__":
    sys.exit(main(sys.argv[1:]))
