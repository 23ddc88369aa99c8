#!/usr/bin/env python3
"""Compares the tables of this folder with everything that should agree with them.

    compare.py                          the tables against their rules, and against
                                        the code and the specs of the repository
    compare.py --outside PROGRAM        as well against what `PROGRAM tables` prints
    compare.py --document DOCUMENT      as well against both printed copies of Federal
                                        Standard 1016 and the run of its program
    compare.py --selftest               tests this program on small strings

A line is printed for each comparison, with its counts, and below it a line for
each disagreement. The exit is 1 if any disagreement is not on the list EXPLAINED.
"""

import copy as copying
import re
import shlex
import subprocess
import sys
import tempfile
from pathlib import Path

sys.dont_write_bytecode = True
import extract  # noqa: E402

HERE = Path(__file__).resolve().parent
REPOSITORY = HERE.parent.parent

# What the repository holds: (file from the top of the repository, name, view of a table).
# The views are those of `views` below: cg, pg, lsp, lsp.1 .. lsp.10, elements,
# lsp.by-index (ten values for each index 0 to 15, 0 where a parameter has no such index),
# codes.twelfths, codes.bytes, codes.ranks (the rank of each byte), guarded.numbers,
# guarded.places, places.fields and places.bits (a parity bit HP-i is field 0, bit i),
# places.entries and guarded.entries (16 times the field plus the bit), widths.
RATTLE = [
    ("crates/record/src/lib.rt", "WIDTHS", "widths"),
    ("crates/gains/src/lib.rt", "CG", "cg"),
    ("crates/gains/src/lib.rt", "PG", "pg"),
    ("crates/coder/src/lib.rt", "BYTES", "codes.bytes"),
    ("crates/meanings/src/tables.rt", "RANKS", "codes.ranks"),
    ("crates/hertz/src/lib.rt", "HZ", "lsp.by-index"),
    ("crates/codebook/src/lib.rt", "BOOK", "elements"),
    ("crates/frame/src/lib.rt", "TABLE", "places.entries"),
    ("crates/parity/src/lib.rt", "GUARDED", "guarded.entries"),
]
ANTT = [
    ("crates/record/specs/Fields.antt", "widths", "widths"),
    ("crates/gains/specs/Tables.antt", "cg_table", "cg"),
    ("crates/gains/specs/Tables.antt", "pg_table", "pg"),
    ("crates/delays/specs/Table.antt", "delays", "codes.twelfths"),
    ("crates/delays/specs/Table.antt", "bytes", "codes.bytes"),
    ("crates/lsp/specs/Table.antt", "hz_table", "lsp"),
    ("crates/codebook/specs/Book.antt", "book", "elements"),
    ("crates/frame/specs/Places.antt", "places", "places.entries"),
    ("crates/frame/specs/Parity.antt", "guarded", "guarded.entries"),
]

# Disagreements that are explained: (comparison, place) -> (held here, seen there, why).
CG_10 = "misprint named by document 01: each entry is the negative of entry 31-i, so the sign is lost"
ROW_980 = ("the printed row left out a 0 among elements 986 to 993 and has one too many at its end; "
           "the standard defines the book by the program, and the run is far from 1.2 here")
EXPLAINED = {
    (f"cg, print copy {copy}", "index 10"): (-98, 98, CG_10) for copy in (1, 2)
}
EXPLAINED.update({
    ("elements, print, either copy", f"element {e}"): (held, seen, ROW_980)
    for e, held, seen in ((993, 0, -1), (994, -1, 1), (995, 1, 0))
})
# No rounding explains an element whose number is further than this from the threshold.
FAR = 0.1

# Document 01: the fields in order, their widths, the fifteen guarded places, worked numbers.
FIELDS = [(f"LSP {j}", w) for j, w in enumerate((3, 4, 4, 4, 4, 3, 3, 3, 3, 3), 1)]
for n in (1, 2, 3, 4):
    FIELDS += [(f"PD({n})", 8 if n % 2 else 6), (f"PG({n})", 5), (f"CI({n})", 9), (f"CG({n})", 5)]
FIELDS += [("SP", 1), ("SY", 1)]
GUARDED = {1: 21, 2: 51, 3: 11, 4: 94, 5: 61, 6: 114, 7: 41, 8: 134, 9: 124, 10: 143, 11: 83,
           12: 31, 13: 72, 14: 1, 15: 104}
STRETCHES = ([240 + 4 * k for k in range(18)] + [312 + 3 * k for k in range(32)]
             + [408 + 4 * k for k in range(138)] + [960 + 12 * k for k in range(68)])
WORKED_CODES = {0x42: 240, 0xAF: 1764, 224: 748, 0: 656}
WORKED_DRAWS = [8472, -31377, -26172, 25681]

LINES = {"places": 144, "codes": 256, "cg": 32, "pg": 32, "lsp": 10, "guarded": 15, "elements": 1082}
OUTSIDE = ("places", "codes", "cg", "pg", "lsp", "elements")


# ---- the tables of this folder

def parsed(lines):
    """The tables from their lines: table -> entries."""
    return {name: list(entries) if name == "places"
            else [(int(n), int(place), bit) for n, place, bit in (e.split(" ") for e in entries)]
            if name == "guarded"
            else [int(e) for e in entries] if name in ("cg", "pg", "elements")
            else [tuple(map(int, e.split(" "))) for e in entries]
            for name, entries in lines.items()}


def held():
    """The tables as this folder holds them."""
    return parsed({name: (HERE / f"{name}.txt").read_text(encoding="utf-8").splitlines()
                   for name in LINES})


def bits():
    """The name of every bit that has a place -> its field's number and its bit; HP-i is (0, i)."""
    names = {f"HP-{i}": (0, i) for i in range(4)}
    for number, (field, width) in enumerate(FIELDS, 1):
        for i in range(width):
            names[field if field in ("SP", "SY") else f"{field}-{i}"] = (number, i)
    return names


def views(tables):
    """The lists of numbers that code and specs may hold: view -> numbers."""
    ranks = {byte: rank for rank, _, byte in tables["codes"]}
    names = bits()
    made = {
        "cg": tables["cg"], "pg": tables["pg"], "elements": tables["elements"],
        "lsp": [hz for row in tables["lsp"] for hz in row],
        "codes.twelfths": [t for _, t, _ in tables["codes"]],
        "codes.bytes": [byte for _, _, byte in tables["codes"]],
        "codes.ranks": [ranks.get(byte, -1) for byte in range(256)],
        "guarded.numbers": [n for n, _, _ in tables["guarded"]],
        "guarded.places": [place for _, place, _ in tables["guarded"]],
        "places.fields": [names.get(name, (-1, -1))[0] for name in tables["places"]],
        "places.bits": [names.get(name, (-1, -1))[1] for name in tables["places"]],
        "places.entries": [16 * names.get(name, (-1, -1))[0] + names.get(name, (-1, -1))[1]
                           for name in tables["places"]],
        "guarded.entries": [16 * names.get(name, (-1, -1))[0] + names.get(name, (-1, -1))[1]
                            for _, _, name in tables["guarded"]],
        "lsp.by-index": [row[i] if i < len(row) else 0 for i in range(16) for row in tables["lsp"]],
        "widths": [width for _, width in FIELDS],
    }
    made.update({f"lsp.{j}": list(row) for j, row in enumerate(tables["lsp"], 1)})
    return made


# ---- what code and specs hold

def signed(words, what):
    """Numbers from words, each decimal or 0x, a minus before it allowed."""
    numbers = []
    for word in words:
        if not re.fullmatch(r"-?(0x[0-9A-Fa-f_]+|[0-9][0-9_]*)", word):
            raise ValueError(f"{what}: {word!r} is no number")
        numbers.append(int(word.replace("_", ""), 0 if "0x" in word else 10))
    if not numbers:
        raise ValueError(f"{what}: no numbers")
    return numbers


def rattle_numbers(text, name):
    """The numbers of `const NAME: [T; N] = [ .. ];` in the text, inner lists laid end to end."""
    text = re.sub(r"//[^\n]*", "", text)
    found = list(re.finditer(rf"\bconst\s+{re.escape(name)}\s*:\s*(\[[^=]*\])\s*=\s*", text))
    if len(found) != 1:
        raise ValueError(f"const {name} is met {len(found)} times")
    end = text.find("]", found[0].end())
    while 0 <= end and text[found[0].end():end + 1].count("[") > text[found[0].end():end + 1].count("]"):
        end = text.find("]", end + 1)
    body = text[found[0].end():end + 1]
    if end < 0 or not body.startswith("[") or not re.match(r"\s*;", text[end + 1:]):
        raise ValueError(f"const {name} is no list in brackets")
    words = [re.sub(r"(?<=\d)_?[iu](8|16|32|64|size)\Z", "", re.sub(r"-\s+", "-", word.strip()))
             for word in body.replace("[", " ").replace("]", " ").split(",")]
    numbers = signed([word for word in words if word], f"const {name}")
    length = re.fullmatch(r"\[\s*\w+\s*;\s*(\d+)\s*\]", found[0][1])
    if length and int(length[1]) != len(numbers):
        raise ValueError(f"const {name} says {length[1]} and has {len(numbers)} numbers")
    return numbers


def antt_numbers(text, name):
    """The numbers of `NAME = a ∷ b ∷ .. ∷ []` in the text, inner lists laid end to end.

    Lines that follow further in belong to the definition. A number may be written
    `5`, `0x5`, `-5`, `+5`, `pos 5`, `plus 5`, `negsuc 4` or `minus 5`, the last two standing
    for -5. The name of a bit of a frame, as `PD 1 5`, `LSP 10 0`, `HP 2` or `SY`, is 16 times
    its field plus its bit.
    """
    names = bits()
    text = re.sub(r"--[^\n]*", "", text)
    found = re.findall(rf"^{re.escape(name)}[ \t]*=((?:[^\n]*)(?:\n[ \t]+[^\n]*|\n[ \t]*(?=\n))*)", text, re.M)
    if len(found) != 1:
        raise ValueError(f"{name} is defined {len(found)} times")
    if not re.search(r"\[\][\s)]*\Z", found[0]):
        raise ValueError(f"{name} is no list that ends in []")
    words = []
    for item in re.split(r"∷|\[\]", found[0]):
        item = re.sub(r"-\s+", "-", item.replace("(", " ").replace(")", " ").strip())
        form = re.fullmatch(r"(pos|plus|minus|negsuc)\s+(\d+)", item)
        if form:
            item = str({"pos": int, "plus": int, "minus": lambda n: -int(n),
                        "negsuc": lambda n: -1 - int(n)}[form[1]](form[2]))
        item = re.sub(r"\A\+(?=\d)", "", item)
        spelt = re.sub(r"\A(PD|PG|CI|CG) (\d) (\d)\Z", r"\1(\2)-\3", item)
        spelt = re.sub(r"\A(LSP \d+|HP) (\d)\Z", r"\1-\2", spelt)
        if spelt in names:
            item = str(16 * names[spelt][0] + names[spelt][1])
        if item:
            words.append(item)
    return signed(words, name)


def rattle_constant(path, name):
    """The numbers of a constant in a Rattle source."""
    return rattle_numbers(Path(path).read_text(encoding="utf-8"), name)


def antt_list(path, name):
    """The numbers of a list in an antt spec."""
    return antt_numbers(Path(path).read_text(encoding="utf-8"), name)


# ---- comparing

class Report:
    """The comparisons made so far, each printed as it is made."""

    def __init__(self, quiet=False):
        self.quiet = quiet
        self.compared = self.unexplained = 0
        self.explained = []

    def say(self, text):
        if not self.quiet:
            print(text)

    def equal(self, title, here, there):
        """Compares two tables, place -> entry, at every place of either."""
        lines, known, wrong = [], 0, 0
        absent = "nothing"
        for place in [*here, *(p for p in there if p not in here)]:
            ours, theirs = here.get(place, absent), there.get(place, absent)
            if ours == theirs:
                continue
            why = EXPLAINED.get((title, place))
            if why and why[:2] == (ours, theirs):
                known += 1
                self.explained.append((title, place))
                lines.append(f"       {place}: held {ours}, seen {theirs}; explained: {why[2]}")
            else:
                wrong += 1
                lines.append(f"       {place}: held {ours}, seen {theirs}; NOT EXPLAINED")
        total = len(set(here) | set(there))
        self.line(title, f"{total - known - wrong} of {total} equal"
                  + (f", {known} explained" if known else ""), wrong, lines)

    def rule(self, title, count, broken):
        """Tells of a rule tried at `count` places, and where it is broken."""
        self.line(title, f"{count - len(broken)} of {count} hold", len(broken),
                  [f"       {place}: NOT EXPLAINED" for place in broken])

    def line(self, title, counts, wrong, lines=()):
        self.compared += 1
        self.unexplained += wrong
        self.say(f"{'WRONG' if wrong else 'ok   '}  {title}: {counts}"
                 + (f", {wrong} not explained" if wrong else ""))
        for text in lines:
            self.say(text)

    def fail(self, title, reason):
        self.line(title, str(reason), 1)


def indexed(entries, word="index", first=0):
    return {f"{word} {i}": entry for i, entry in enumerate(entries, first)}


def check_rules(report, t):
    """The tables against the rules of document 01 and against each other."""
    report.equal("tables, number of lines", LINES, {name: len(t[name]) for name in LINES})
    names = bits()
    report.rule("places, each bit of each field and each parity bit once", len(names),
                [name for name in names if t["places"].count(name) != 1]
                + [f"{name} is no bit" for name in t["places"] if name not in names])
    report.equal("codes, ranks in order", indexed(range(256), "line"),
                 indexed([rank for rank, _, _ in t["codes"]], "line"))
    report.equal("codes, twelfths by the four stretches", indexed(STRETCHES, "rank"),
                 indexed([twelfths for _, twelfths, _ in t["codes"]], "rank"))
    codes = [byte for _, _, byte in t["codes"]]
    report.rule("codes, each byte once", 256,
                [f"byte {byte}" for byte in range(256) if codes.count(byte) != 1])
    report.equal("codes, worked numbers of document 01",
                 {f"byte {byte}": WORKED_CODES[byte] for byte in WORKED_CODES},
                 {f"byte {byte}": twelfths for _, twelfths, byte in t["codes"] if byte in WORKED_CODES})
    for name in ("cg", "pg"):
        report.rule(f"{name}, rising", len(t[name]) - 1,
                    [f"index {i}" for i in range(1, len(t[name])) if t[name][i - 1] >= t[name][i]])
    report.equal("cg, entry i is the negative of entry 31-i",
                 indexed(t["cg"]), indexed([-gain for gain in reversed(t["cg"])]))
    report.equal("pg, its ends", {"first": -993, "last": 1991},
                 {"first": t["pg"][0], "last": t["pg"][-1]})
    report.equal("lsp, entries in each row by the field's width",
                 {f"LSP {j}": 2 ** FIELDS[j - 1][1] for j in range(1, 11)},
                 {f"LSP {j}": len(row) for j, row in enumerate(t["lsp"], 1)})
    report.rule("lsp, each row rising", sum(len(row) - 1 for row in t["lsp"]),
                [f"LSP {j} index {i}" for j, row in enumerate(t["lsp"], 1)
                 for i in range(1, len(row)) if row[i - 1] >= row[i]])
    report.equal("guarded, numbers and places of document 01",
                 {f"number {n}": place for n, place in GUARDED.items()},
                 {f"number {n}": place for n, place, _ in t["guarded"]})
    report.equal("guarded, names by places", {f"number {n}": name for n, _, name in t["guarded"]},
                 {f"number {n}": t["places"][place - 1] for n, place, _ in t["guarded"]})
    report.rule("elements, each -1, 0 or 1", len(t["elements"]),
                [f"element {i}" for i, e in enumerate(t["elements"]) if e not in (-1, 0, 1)])


def check_repository(report, t):
    """The constants and lists named at the top against the tables."""
    made = views(t)
    for kind, reader, listed in (("code", rattle_constant, RATTLE), ("spec", antt_list, ANTT)):
        for file, name, view in listed:
            title = f"{kind} {file}, {name}, against {view}"
            try:
                report.equal(title, indexed(made[view], "entry"),
                             indexed(reader(REPOSITORY / file, name), "entry"))
            except (OSError, ValueError, KeyError) as trouble:
                report.fail(title, trouble)
        if not listed:
            report.say(f"       {kind}: no name is listed yet")


def outside_tables(text):
    """The tables in the output of `PROGRAM tables`."""
    lines, found = text.splitlines(), {}
    while lines:
        name, _, count = lines.pop(0).partition(" ")
        if name not in OUTSIDE or name in found or not count.isdigit() or int(count) > len(lines):
            raise ValueError(f"{name} {count}: no header of a table that is due")
        found[name], lines = lines[:int(count)], lines[int(count):]
    return found


def check_outside(report, program):
    """The outside program's tables, line by line, against the files here."""
    try:
        answer = subprocess.run([*shlex.split(program), "tables"], capture_output=True, text=True,
                                check=True, timeout=120).stdout
        found = outside_tables(answer)
    except (OSError, subprocess.SubprocessError, ValueError) as trouble:
        report.fail("outside program", trouble)
        return
    for name in OUTSIDE:
        ours = (HERE / f"{name}.txt").read_text(encoding="utf-8").splitlines()
        report.equal(f"{name}, outside program", indexed(ours, "line", 1),
                     indexed(found.get(name, []), "line", 1))


def one_left_out(row, entries):
    """Where the row has a 0 whose loss gives the entries; equal zeros side by side all count."""
    return [i for i in range(len(row)) if row[i] == 0 and row[:i] + row[i + 1:] == entries]


def check_print(report, t, both):
    """Both printed copies against the tables."""
    for p in both:
        title = f"print copy {p.number}"
        report.equal(f"places, {title}", indexed(t["places"], "place", 1), indexed(p.places, "place", 1))
        report.equal(f"codes, {title}", indexed([(x, byte) for _, x, byte in t["codes"]], "rank"),
                     indexed(p.codes, "rank"))
        report.equal(f"cg, {title}", indexed(t["cg"]), indexed(p.cg))
        report.equal(f"pg, {title}", indexed(t["pg"]), indexed(p.pg))
        report.equal(f"lsp, {title}",
                     {f"LSP {j} index {i}": hz for j, row in enumerate(t["lsp"], 1) for i, hz in enumerate(row)},
                     {f"LSP {j} index {i}": hz for j, row in enumerate(p.lsp, 1) for i, hz in enumerate(row)})
        data = {n: name for n, _, name in t["guarded"] if not name.startswith("HP")}
        report.equal(f"guarded, protected bits, {title}", {name: True for name in data.values()},
                     {name: p.protected.count(name) == 1 for name in p.protected})
        report.equal(f"guarded, corrections, {title}", data, p.correction)
        for i in range(4):
            report.equal(f"guarded, bits under HP-{i}, {title}",
                         indexed([name for n, name in sorted(data.items()) if n >> i & 1], "entry"),
                         indexed(p.parity[i], "entry"))
        report.equal(f"codes of elements, first and last, {title}",
                     {f"code {n}": (2 * (511 - n), 2 * (511 - n) + 59) for n in p.spans},
                     {f"code {n}": span for n, span in p.spans.items()})
        evidence = p.evidence()
        same = sum(t["elements"][e] == entry for e, entry in evidence.items())
        report.say(f"       elements, {title}: {len(evidence)} of 400 in full rows, {same} of them equal")
        for row in p.rows:
            ours = t["elements"][row.first:row.first + row.full]
            name = f"elements {row.first} to {row.first + row.full - 1}"
            if len(row.entries) != row.full:
                lost = one_left_out(ours, row.entries)
                report.say(f"       {name}: {len(row.entries)} entries, no evidence; they are "
                           + (f"the row with one 0 left out of {row.first + lost[0]} to "
                              f"{row.first + lost[-1]}" if lost else "NOT the row with one 0 left out"))
            elif ours != row.entries:
                lost = one_left_out(ours, row.entries[:-1]) if row.entries[-1] == 0 else []
                report.say(f"       {name}: {row.full} entries; they are "
                           + (f"the row with one 0 left out of {row.first + lost[0]} to "
                              f"{row.first + lost[-1]} and a 0 added at the end"
                              if lost else "NOT the row with a 0 moved to the end"))
    first, second = (p.evidence() for p in both)
    shared = set(first) & set(second)
    report.equal("elements, copy 1 with copy 2, in rows full in both",
                 {f"element {e}": first[e] for e in sorted(shared)},
                 {f"element {e}": second[e] for e in sorted(shared)})
    either = {**first, **second}
    report.equal("elements, print, either copy",
                 {f"element {e}": t["elements"][e] for e in sorted(either)},
                 {f"element {e}": either[e] for e in sorted(either)})
    printed = [e for block in extract.ROWS for start, full in block for e in range(start, start + full)]
    report.say(f"       of the {len(printed)} printed elements, {len(either)} stand in a row that is full "
               f"in a copy; {len(printed) - len(either)} are no evidence")
    return either


def check_run(report, t, made, either):
    """The runs of the printed program against the table, and their distance from 1.2."""
    import book
    report.rule("runs, right counts and one answer", len(made), book.troubles(made))
    for r in made:
        title = f"run of copy {r.copy}, {r.precision} precision"
        report.equal(f"elements, {title}", indexed(t["elements"], "element"), indexed(r.elements, "element"))
        report.equal(f"draws, {title}", indexed(WORKED_DRAWS, "draw", 1), indexed(r.draws, "draw", 1))
        near = min(range(book.ELEMENTS), key=lambda e: book.margin(r, e))
        report.say(f"       nearest to 1.2 is element {near}, {book.margin(r, near):.7f} from it")
    known = [int(place.split()[1]) for title, place in report.explained if title.startswith("elements")]
    report.rule(f"explained elements, number further than {FAR} from 1.2 in each run", len(known),
                [f"element {e}" for e in known if any(book.margin(r, e) < FAR for r in made)])
    for e in known:
        report.say(f"       element {e}: " + ", ".join(
            f"{r.numbers[e + 1]:.5f} in {r.precision} precision" for r in made if r.copy == 1))
    for shift in (-1, 1):
        numbers = [book.element(x) for x in made[0].numbers]
        apart = sum(numbers[e + 1 + shift] != entry for e, entry in either.items())
        report.say(f"       were element e the number x(e+{1 + shift}) instead of x(e+1), "
                   f"{apart} of the {len(either)} printed ones would disagree")


def check_document(report, t, document):
    """All that the document gives against the tables."""
    import book
    try:
        both = extract.prints(document)
        for p in both:
            report.say(f"       print copy {p.number}: {len(p.repaired)} scan repairs met "
                       f"of {sum(p.number in r.copies for r in extract.REPAIRS)} listed")
        either = check_print(report, t, both)
        check_run(report, t, book.runs(document), either)
    except (OSError, ValueError, extract.Unreadable, subprocess.SubprocessError) as trouble:
        report.fail("document", trouble)
    for title, place in sorted(set(EXPLAINED) - set(report.explained)):
        report.say(f"       explained, but not met in this document: {title}, {place}")


# ---- testing this program

def selftest():
    """Tests the readers on small strings and each rule on a table made wrong."""
    tried = []

    def gives(answer, reader, *arguments):
        try:
            got = reader(*arguments)
        except (ValueError, OSError) as trouble:
            got = type(trouble).__name__ if not isinstance(trouble, OSError) else "OSError"
        tried.append(got == answer)
        if got != answer:
            print(f"WRONG  selftest: {reader.__name__}{arguments}: {got}, not {answer}")

    rattle = ("// const GAINS: [i16; 1] = [9];\npub const GAINS: [i16; 4] = [\n    -1_330, // first\n"
              "    0x1F,\n    - 3, 4i16,\n];\nconst GAINS_BACK: [u8; 2] = [1, 2];\n"
              "impl Lsp { pub const ROWS: [[u16; 2]; 2] = [[1, 2], [3, 4]]; }\n"
              "const SHORT: [u8; 3] = [1, 2];\nconst NONE: [u8; 0] = [];\nconst SAME: [u8; 2] = [7; 2];\n"
              "const WORDS: [u8; 2] = [A, B];\nconst LONE: u8 = 5;\nconst FED: [u8; Lsp::N] = [5, 6];\n")
    for name, answer in (("GAINS", [-1330, 31, -3, 4]), ("GAINS_BACK", [1, 2]), ("ROWS", [1, 2, 3, 4]),
                         ("FED", [5, 6]), ("SHORT", "ValueError"), ("NONE", "ValueError"),
                         ("SAME", "ValueError"), ("WORDS", "ValueError"), ("LONE", "ValueError"),
                         ("GAIN", "ValueError")):
        gives(answer, rattle_numbers, rattle, name)
    gives("ValueError", rattle_numbers, rattle + rattle, "ROWS")

    antt = ("-- gains = 9 ∷ []\nunfoldable pub gains : List ℤ\ngains = negsuc 1329 ∷ pos 31 -- two\n"
            "  ∷ -3\n\n  ∷ (negsuc 0) ∷ []\n\nabbrev pub gains-back : List ℕ\ngains-back = 0x10 ∷ 2 ∷ []\n"
            "rows : List (List ℕ)\nunfolding gains\nrows =\n  (1 ∷ 2 ∷ []) ∷\n  (3 ∷ 4 ∷ []) ∷ []\n"
            "printed = plus 5 ∷ minus 98 ∷ +1 ∷ -1 ∷ []\nbits = PD 1 5 ∷ LSP 10 0 ∷ HP 2 ∷ SP ∷ SY ∷ []\n"
            "none = []\nwords = a ∷ b ∷ []\nopened = 1 ∷ rest\njoined = 1 ∷ [] ++ rows ∷ []\nlast n = 1 ∷ []\n")
    for name, answer in (("gains", [-1330, 31, -3, -1]), ("gains-back", [16, 2]), ("rows", [1, 2, 3, 4]),
                         ("printed", [5, -98, 1, -1]), ("bits", [181, 160, 2, 432, 448]),
                         ("none", "ValueError"), ("words", "ValueError"), ("opened", "ValueError"),
                         ("joined", "ValueError"), ("last", "ValueError"), ("back", "ValueError")):
        gives(answer, antt_numbers, antt, name)
    gives("ValueError", antt_numbers, antt + antt, "rows")

    with tempfile.TemporaryDirectory() as folder:
        path = Path(folder) / "file"
        gives("OSError", rattle_constant, path, "GAINS")
        gives("OSError", antt_list, path, "gains")
        path.write_text(rattle + antt, encoding="utf-8")
        gives([1, 2], rattle_constant, path, "GAINS_BACK")
        gives([16, 2], antt_list, path, "gains-back")

    gives({"cg": ["1", "2"], "pg": ["3"]}, outside_tables, "cg 2\n1\n2\npg 1\n3\n")
    for text in ("cg 2\n1\n", "cg\n", "gc 1\n1\n", "cg 1\n1\ncg 1\n1\n", "cg 1\n1\n2\n"):
        gives("ValueError", outside_tables, text)

    def unexplained(spoil):
        tables = copying.deepcopy(held())
        spoil(tables)
        report = Report(quiet=True)
        check_rules(report, tables)
        return report.unexplained > 0

    def swapped(name, i, j):
        def spoil(t):
            t[name][i], t[name][j] = t[name][j], t[name][i]
        return spoil

    def put(name, i, entry):
        def spoil(t):
            t[name][i] = entry
        return spoil

    gives(False, unexplained, lambda t: None)
    for spoil in (put("places", 5, "CI(1)-7"), put("places", 5, "CI(1)-9"), lambda t: t["places"].pop(),
                  swapped("places", 0, 1), put("codes", 7, (7, 268, 0x42)), put("codes", 7, (7, 269, 0xAE)),
                  swapped("codes", 3, 4), put("cg", 10, 98), put("cg", 21, 99), put("pg", 0, 993),
                  swapped("pg", 5, 6), put("lsp", 0, (100, 170)), put("elements", 3, 2),
                  put("guarded", 2, (3, 12, "PD(1)-5")), put("guarded", 2, (3, 11, "PD(1)-6")),
                  lambda t: t["elements"].append(0)):
        gives(True, unexplained, spoil)

    def counts(title, here, there):
        report = Report(quiet=True)
        report.equal(title, here, there)
        return report.unexplained, len(report.explained)

    gives((0, 1), counts, "cg, print copy 1", {"index 10": -98}, {"index 10": 98})
    gives((1, 0), counts, "cg, print copy 1", {"index 10": -98}, {"index 10": 97})
    gives((1, 0), counts, "cg, print copy 1", {"index 11": -98}, {"index 11": 98})
    gives((1, 0), counts, "cg, outside program", {"index 10": -98}, {"index 10": 98})
    gives((2, 0), counts, "x", {"a": 1, "b": 2}, {"b": 3})
    print(f"selftest: {sum(tried)} of {len(tried)} passed")
    return all(tried)


def main(arguments):
    options = dict(zip(arguments[::2], arguments[1::2]))
    if arguments == ["--selftest"]:
        sys.exit(0 if selftest() else 1)
    if len(arguments) % 2 or set(options) - {"--document", "--outside"}:
        sys.exit(__doc__.strip())
    report = Report()
    try:
        t = held()
        check_rules(report, t)
        check_repository(report, t)
        if "--outside" in options:
            check_outside(report, options["--outside"])
        if "--document" in options:
            check_document(report, t, options["--document"])
    except (OSError, ValueError, IndexError) as trouble:
        report.fail("tables of this folder", trouble)
    print(f"{report.compared} comparisons, {len(report.explained)} disagreements explained, "
          f"{report.unexplained} not explained")
    sys.exit(1 if report.unexplained else 0)


if __name__ == "__main__":
    main(sys.argv[1:])
