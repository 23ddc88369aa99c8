#!/usr/bin/env python3
"""Takes the printed tables out of a text of Federal Standard 1016.

    extract.py DOCUMENT             counts, scan repairs, differences between the copies
    extract.py DOCUMENT --show      the tables as well, copy by copy
    extract.py DOCUMENT --write     makes places, codes, cg, pg, lsp, guarded (.txt) again

The document holds the standard twice; each copy is read by itself. A printed
entry is read strictly. One that can't be read so needs a line in REPAIRS, which
says where it stands, what is printed, what it is read as, and why; an entry that
is neither readable nor listed stops the program. Nothing else is changed.

Four rules of reading hold everywhere and are no repairs: `**` around words and
`\\` before `$` are marks of the text form; a comma between digits parts thousands;
`.33` and `.67` of a delay are 4 and 8 twelfths (document 01); `-.993` is -0.993.
"""

import re
import sys
from collections import namedtuple
from pathlib import Path

HERE = Path(__file__).resolve().parent

# A scan repair: the copies it stands in, table, place in the table, text printed, text read.
Repair = namedtuple("Repair", "copies table where printed read reason")

ZERO_LETTER = "the letter stands for the figure 0: no element is a letter"
ZERO_CODE = "letters O in the printed codes are zeros (document 01)"

REPAIRS = (
    Repair((1, 2), "elements", "block 1 row 1 entry 1", "o", "0", ZERO_LETTER),
    Repair((1, 2), "elements", "block 1 row 9 entry 1", "o", "0", ZERO_LETTER),
    Repair((1, 2), "elements", "block 2 row 6 entry 1", "o", "0", ZERO_LETTER),
    Repair((1, 2), "codes", "delay 55.67", "OE", "0E", ZERO_CODE),
    Repair((1, 2), "codes", "delay 56.00", "OF", "0F", ZERO_CODE),
    Repair((1, 2), "codes", "delay 57.33", "OD", "0D", ZERO_CODE),
    Repair((1, 2), "codes", "delay 111.0", "Oc", "0C",
           ZERO_CODE + "; the small c is the figure C, all other codes are in capitals"),
    Repair((1, 2), "places", "place 104", "SP-0", "SP",
           "the expansion bit is one bit, named SP in the list of abbreviations of 3.8.2 and in 3.9"),
    Repair((1, 2), "parity", "HP-1 entry 7", "Sp", "SP",
           "no abbreviation has a small letter; the three other rows end in SP"),
)

# A misprint that document 01 names. It is applied only when the tables are written.
MISPRINTS = {("cg", 10): (98, -98)}

NAME = re.compile(r"(?:(?:PD|PG|CI|CG)\([1-4]\)-[0-9]|LSP (?:[1-9]|10)-[0-9]|HP-[0-3]|SP|SY)\Z")
TWELFTHS = {"00": 0, "0": 0, "25": 3, "33": 4, "50": 6, "67": 8, "75": 9}
LSP_ENTRIES = (8, 16, 16, 16, 16, 8, 8, 8, 8, 8)

# The rows of the printed elements: number of the first element and full count, block by block.
ROWS = (
    tuple((20 * r, 20) for r in range(10)),
    ((882, 18),) + tuple((900 + 20 * r, 20) for r in range(9)) + ((1080, 2),),
)

Row = namedtuple("Row", "block row first full entries")


class Unreadable(Exception):
    """An entry that is neither readable nor on the list of repairs."""


class Copy:
    """One of the two copies: its lines, its sections, and the repairs it needed."""

    def __init__(self, number, lines):
        self.number = number
        self.lines = lines
        self.repaired = []

    def section(self, start, end):
        """The lines from the heading `start` up to the heading `end`."""
        a = [i for i, line in enumerate(self.lines) if line.startswith(start + " ")]
        b = [i for i, line in enumerate(self.lines) if line.startswith(end + " ")]
        if len(a) != 1 or len(b) != 1 or a[0] >= b[0]:
            raise Unreadable(f"copy {self.number}: section {start} to {end} not found once")
        return [line.replace("**", "") for line in self.lines[a[0]:b[0]]]

    def fenced(self):
        """The four set-off parts of 3.3.1: program, function, first and last elements."""
        parts, inside = [], False
        for line in self.section("3.3.1", "3.3.2"):
            if line.startswith("```"):
                inside = not inside
                if inside:
                    parts.append([])
            elif inside and line.strip():
                parts[-1].append(line)
        if len(parts) != 4:
            raise Unreadable(f"copy {self.number}: 3.3.1 has {len(parts)} set-off parts, not 4")
        return parts

    def read(self, table, where, printed, grammar):
        """The entry as printed if it fits the grammar, else as its repair reads it."""
        if re.fullmatch(grammar, printed):
            return printed
        for repair in REPAIRS:
            if (repair.table, repair.where, repair.printed) == (table, where, printed) \
                    and self.number in repair.copies and re.fullmatch(grammar, repair.read):
                self.repaired.append(repair)
                return repair.read
        raise Unreadable(f"copy {self.number}, {table}, {where}: {printed!r} can't be read")

    def name(self, table, where, printed):
        return self.read(table, where, printed, NAME)


def number(text):
    """A whole number, thousands parted by a comma."""
    if not re.fullmatch(r"-?(\d{1,3}(,\d{3})+|\d+)", text):
        raise Unreadable(f"{text!r} is no whole number")
    return int(text.replace(",", ""))


def thousandths(text):
    """A gain printed with three decimals, in thousandths."""
    m = re.fullmatch(r"(-?)(\d?)\.(\d{3})", text)
    if not m:
        raise Unreadable(f"{text!r} is no gain with three decimals")
    return int(m[1] + (m[2] or "0") + m[3])


def twelfths(text):
    """A printed delay, in twelfths of a sample."""
    whole, _, part = text.partition(".")
    if part not in TWELFTHS:
        raise Unreadable(f"{text!r} is no delay")
    return 12 * int(whole) + TWELFTHS[part]


def by_index(lines, read, count, first=0):
    """A table printed as pairs of index and value, several to a line."""
    found = {}
    for line in lines:
        cells = [cell.strip() for cell in line.split("\t")]
        if not re.fullmatch(r"\d+", cells[0]):
            continue
        for index, value in zip(cells[::2], cells[1::2]):
            if int(index) in found:
                raise Unreadable(f"index {index} is printed twice")
            found[int(index)] = read(int(index), value)
    if sorted(found) != list(range(first, first + count)):
        raise Unreadable(f"{len(found)} entries, not {count}")
    return [found[i] for i in sorted(found)]


def places(copy):
    """3.8.2: the names of the 144 places, in order."""
    return by_index(copy.section("3.8.2", "3.8.3"),
                    lambda i, name: copy.name("places", f"place {i}", name), 144, first=1)


def cg(copy):
    """3.4: the stochastic gains, as printed."""
    return by_index(copy.section("3.4", "3.5"), lambda i, gain: number(gain), 32)


def pg(copy):
    """3.6: the adaptive gains, in thousandths."""
    return by_index(copy.section("3.6", "3.7"), lambda i, gain: thousandths(gain), 32)


def codes(copy):
    """3.5.4: twelfths and byte of each rank. The print runs down its five columns."""
    columns = [[] for _ in range(5)]
    for line in copy.section("3.5.4", "3.5.5"):
        line = line.replace("\\", "")
        if not re.match(r"\d+\.\d+\s+\$", line):
            continue
        pairs = re.findall(r"(\d+\.\d+)\s+\$(\S+)", line)
        if line.split() != [word for delay, code in pairs for word in (delay, "$" + code)]:
            raise Unreadable(f"copy {copy.number}: a row of 3.5.4 is not in pairs")
        for column, (delay, code) in zip(columns, pairs):
            byte = copy.read("codes", f"delay {delay}", code, r"[0-9A-F]{2}")
            column.append((twelfths(delay), int(byte, 16)))
    ranks = [pair for column in columns for pair in column]
    if len(ranks) != 256:
        raise Unreadable(f"copy {copy.number}: {len(ranks)} delays, not 256")
    return ranks


def lsp(copy):
    """3.7.2: ten rows of Hz, one for each LSP."""
    rows = [[] for _ in range(10)]
    for line in copy.section("3.7.2", "3.7.3"):
        cells = [cell.strip() for cell in line.split("\t")]
        if not re.fullmatch(r"\d+", cells[0]):
            continue
        if len(cells) != 11:
            raise Unreadable(f"copy {copy.number}: a row of 3.7.2 has {len(cells)} cells")
        for row, entries, cell in zip(rows, LSP_ENTRIES, cells[1:]):
            if (cell != "") != (int(cells[0]) < entries) or len(row) != min(int(cells[0]), entries):
                raise Unreadable(f"copy {copy.number}: 3.7.2, index {cells[0]} out of turn")
            if cell:
                row.append(number(cell))
    if tuple(len(row) for row in rows) != LSP_ENTRIES:
        raise Unreadable(f"copy {copy.number}: rows of 3.7.2 have other lengths")
    return rows


def names_in(copy, where, text):
    """The names of a printed list: commas, and an `and` before the last."""
    listed = re.sub(r",\s+and\s+", ", ", text.strip()).split(", ")
    return [copy.name("parity", f"{where} entry {i}", name) for i, name in enumerate(listed, 1)]


def parity(copy):
    """3.9.1: the protected bits, and for each parity bit those it is made from."""
    lines = copy.section("3.9.1", "3.9.2")
    listed = re.search(r"single bit error are:\s*(.*?)\. \(See", " ".join(lines))
    if not listed:
        raise Unreadable(f"copy {copy.number}: the protected bits of 3.9.1 not found")
    rows = {}
    for line in lines:
        m = re.match(r"\s*HP-([0-3]) --(.*)\Z", line)
        if m:
            rows[int(m[1])] = names_in(copy, f"HP-{m[1]}", m[2])
    if sorted(rows) != [0, 1, 2, 3]:
        raise Unreadable(f"copy {copy.number}: the four parity rows of 3.9.1 not found")
    return names_in(copy, "list", listed[1]), rows


def correction(copy):
    """3.9.2: the data bit that each number inverts."""
    table = {}
    for line in copy.section("3.9.2", "3.10"):
        cells = line.split()
        if not cells or not re.fullmatch(r"\d+", cells[0]):
            continue
        for n, name in zip(cells[::2], cells[1::2]):
            if int(n) in table:
                raise Unreadable(f"copy {copy.number}: number {n} is printed twice in 3.9.2")
            table[int(n)] = copy.name("correction", f"number {n}", name)
    if len(table) != 11:
        raise Unreadable(f"copy {copy.number}: {len(table)} numbers in 3.9.2, not 11")
    return table


def elements(copy):
    """3.3.1: the printed rows of elements, each with its full count and what stands in it."""
    rows = []
    for block, (lines, layout) in enumerate(zip(copy.fenced()[2:], ROWS), 1):
        if len(lines) != len(layout):
            raise Unreadable(f"copy {copy.number}: block {block} has {len(lines)} rows")
        for row, (line, (first, full)) in enumerate(zip(lines, layout), 1):
            entries = [int(copy.read("elements", f"block {block} row {row} entry {i}",
                                     entry.strip(), r"0|-?1"))
                       for i, entry in enumerate(line.strip().rstrip(",").split(","), 1)]
            rows.append(Row(block, row, first, full, entries))
    return rows


def spans(copy):
    """3.3.2: the first and the last element of each code that is printed: index -> pair."""
    found = {}
    for line in copy.section("3.3.2", "3.4"):
        index, _, listed = line.partition("\t")
        if re.fullmatch(r"\d+", index):
            listed = listed.strip().split(", ")
            found[int(index)] = (number(listed[0]), number(listed[-1]))
    if len(found) != 4:
        raise Unreadable(f"copy {copy.number}: {len(found)} codes in 3.3.2, not 4")
    return found


class Print:
    """All that one copy prints."""

    def __init__(self, copy):
        self.number = copy.number
        self.places = places(copy)
        self.codes = codes(copy)
        self.cg = cg(copy)
        self.pg = pg(copy)
        self.lsp = lsp(copy)
        self.protected, self.parity = parity(copy)
        self.correction = correction(copy)
        self.rows = elements(copy)
        self.spans = spans(copy)
        self.repaired = copy.repaired

    def evidence(self):
        """The elements of the rows that have their full count: position -> element."""
        return {row.first + i: entry for row in self.rows if len(row.entries) == row.full
                for i, entry in enumerate(row.entries)}

    def guarded(self):
        """The fifteen guarded places: number -> name. HP-i has the number 2^i."""
        return dict(sorted({**self.correction, **{2 ** i: f"HP-{i}" for i in range(4)}}.items()))


def copies(document):
    """The two copies in the document; each begins with the same lone title line."""
    lines = Path(document).read_text(encoding="utf-8").splitlines()
    starts = [i for i, line in enumerate(lines) if line.strip() == "FEDERAL STANDARD"]
    if len(starts) != 2:
        raise Unreadable(f"the document begins {len(starts)} times, not twice")
    return [Copy(1, lines[starts[0]:starts[1]]), Copy(2, lines[starts[1]:])]


def prints(document):
    """What both copies print."""
    return [Print(copy) for copy in copies(document)]


def as_lines(p, corrected=False):
    """The tables in the form of the .txt files: table -> lines."""
    gains = list(p.cg)
    if corrected:
        for (table, index), (printed, meant) in MISPRINTS.items():
            if table == "cg" and gains[index] == printed:
                gains[index] = meant
    return {
        "places": p.places,
        "codes": [f"{rank} {t} {byte}" for rank, (t, byte) in enumerate(p.codes)],
        "cg": [str(gain) for gain in gains],
        "pg": [str(gain) for gain in p.pg],
        "lsp": [" ".join(map(str, row)) for row in p.lsp],
        "guarded": [f"{n} {p.places.index(name) + 1} {name}" for n, name in p.guarded().items()],
    }


def main(arguments):
    options = [a for a in arguments if a.startswith("--")]
    files = [a for a in arguments if not a.startswith("--")]
    if len(files) != 1 or set(options) - {"--show", "--write"}:
        sys.exit(__doc__.strip())
    both = prints(files[0])
    for p in both:
        full = p.evidence()
        print(f"copy {p.number}: places {len(p.places)}, codes {len(p.codes)}, cg {len(p.cg)}, "
              f"pg {len(p.pg)}, lsp {len(p.lsp)} rows with {sum(map(len, p.lsp))} entries, "
              f"protected {len(p.protected)}, parity rows {len(p.parity)}, "
              f"corrections {len(p.correction)}, "
              f"elements {len(full)} of 400 in {sum(len(r.entries) == r.full for r in p.rows)} "
              f"full rows of {len(p.rows)}")
        for r in p.rows:
            if len(r.entries) != r.full:
                print(f"  no evidence: elements {r.first} to {r.first + r.full - 1} "
                      f"(block {r.block} row {r.row}) have {len(r.entries)} entries, not {r.full}")
        for repair in p.repaired:
            print(f"  repaired: {repair.table}, {repair.where}: {repair.printed} read as "
                  f"{repair.read}: {repair.reason}")
        for repair in REPAIRS:
            if p.number in repair.copies and repair not in p.repaired:
                print(f"  repair not needed: {repair.table}, {repair.where}: {repair.printed}")
    one, two = both
    for table in ("places", "codes", "cg", "pg", "lsp", "protected", "parity", "correction",
                  "spans"):
        print(f"copies agree on {table}: {'yes' if getattr(one, table) == getattr(two, table) else 'NO'}")
    differ = [r.first for r, s in zip(one.rows, two.rows) if r.entries != s.entries]
    print(f"rows of elements in which the copies differ: {len(differ)}"
          + "".join(f", the one from {first}" for first in differ))
    if "--show" in options:
        for p in both:
            print(f"\ncopy {p.number}, as printed")
            for table, lines in as_lines(p).items():
                print(table, len(lines), *lines, sep="\n")
            print("rows of elements", len(p.rows))
            for r in p.rows:
                print(r.first, len(r.entries), "of", r.full, "entries:", *r.entries)
    if "--write" in options:
        if as_lines(one) != as_lines(two):
            sys.exit("the copies differ: nothing written")
        for table, lines in as_lines(one, corrected=True).items():
            (HERE / f"{table}.txt").write_text("\n".join(lines) + "\n", encoding="utf-8")
            print(f"written: {table}.txt, {len(lines)} lines")


if __name__ == "__main__":
    try:
        main(sys.argv[1:])
    except Unreadable as stop:
        sys.exit(f"unreadable: {stop}")
