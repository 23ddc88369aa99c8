#!/usr/bin/env python3
"""Measures the tally book beside a plain scan in C (scan.c) and a hash map in C++ (map.cpp), on the same calls.

    outside/book/bench.py [SHEET]

SHEET is the program that makes calls on a tally book, crates/sheet/out/sheet if not said. On x86-64 a figure is nanoseconds a
call, the best of several. On any other machine it is instructions a call: the emulator (`run`) executes one at a
time and logs it, and the lines of the log are counted. That depends on nothing else that runs, and says nothing of
caches and branches. CC and CXX may be set.

A figure is the difference between many calls and few (`m`), so that neither the start nor the laying of the book nor
the printing is in it; taking a call's numbers from its bytes is. A key is new only once: it is entered twice, set
against entering a held one twice in the same book, and what is entered again is taken off as measured by itself. For a
count once is enough. For a time it is done over and over, word 0 being reset by `w` between on both sides; the map then
takes the entry out again, and that is in its time.

A floor's book has up to 40 units, whose recordings come in rounds: in each, every unit reports its next number, from 1
on, and each round begins seven units further on. A book of 16 entries has 4 units, one of 256 has 16. All are laid by
`w`.

Each line that a program prints has to be what the call answers. Nothing is asserted about time: the status is 1 if a
line differs or a program fails.
"""

import math
import shlex
import shutil
import struct
import subprocess
import sys
import tempfile
from pathlib import Path

sys.path.insert(0, str(Path(__file__).resolve().parents[1]))
from measure import NATIVE, ROOT, UNIT, compilers, measured

SIZES = (16, 256, 4096)
PLAIN = "number first"
# the layouts of scan.c, each with its macro
LAYOUTS = {PLAIN: None, "unit first": "UNIT_FIRST", "rows": "ROWS", "by value": "BY_VALUE"}
# few calls and many, how often a key is new in a run, how often a run is made; for a time, many take at least LONG
FEW, MANY, FRESH, TURNS, LONG = (1, 1000, 7000, 7, 30_000_000) if NATIVE else (4, 12, 1, 1, 0)
NEW, AGAIN = "enter a new key", "enter the last again"


def call(kind, *numbers):
    return kind.encode() + struct.pack(f"<{len(numbers)}I", *numbers)


def times(n, one):
    """The calls that make one call n times."""
    return call("m", n - 1) + one


def told(entries):
    """The call that lays word 0."""
    return call("w", 0, 1, entries, 0)


def laid(word, column):
    """The calls that lay numbers from a word on: one for each stretch that goes on by the same step."""
    calls, at = b"", 0
    while at < len(column):
        end, step = at + 1, column[at + 1] - column[at] if at + 1 < len(column) else 0
        while end < len(column) and column[end] - column[end - 1] == step:
            end += 1
        calls += call("w", word + at, word + end, column[at], step % 2 ** 32)
        at = end
    return calls


def floor(size):
    """The entries of a floor's book, and the one that comes next: unit, number and count of each."""
    units = min(40, math.isqrt(size))
    rounds = ((row, *divmod(row, units)) for row in range(size + 1))
    return [((turn + 7 * ended) % units + 1, ended + 1, 100 + row) for row, ended, turn in rounds]


class Programs:
    """The programs, by name, and how many lines of theirs were compared."""

    def __init__(self, sheet, folder):
        self.folder, self.compared, self.differ = folder, 0, 0
        cc, cxx, cxx_flags = compilers()
        self.compilers = f"{shlex.join(cc)} and {shlex.join(cxx)}, -O2"
        self.paths = {name: folder / name.replace(" ", "-") for name in ("sheet", "map", *LAYOUTS)}
        # the same program to the end, also where it is built again meanwhile
        shutil.copy(sheet, self.paths["sheet"])
        self.build("map", [*cxx, "-std=c++17", *cxx_flags], "map.cpp")
        for name, macro in LAYOUTS.items():
            self.build(name, [*cc, "-std=c11", *([f"-D{macro}"] if macro else [])], "scan.c")

    def build(self, name, compiler, source):
        source = Path(__file__).parent / source
        command = [*compiler, "-O2", "-Wall", "-Wextra", "-pedantic", "-o", self.paths[name], source]
        if subprocess.run(command, check=False).returncode:
            sys.exit(f"{source.name} is not built")

    def spent(self, name, calls, lines):
        """What a run takes, with the start of the program. It has to print the lines."""
        (self.folder / "calls").write_bytes(calls)
        with (self.folder / "calls").open("rb") as given, (self.folder / "lines").open("wb") as taken:
            status, took, said = measured(self.paths[name], given, taken)
        if status or said:
            sys.exit(f"{name}: status {status}, standard error {said[:200]!r}")
        printed = (self.folder / "lines").read_text().splitlines()
        wrong = abs(len(printed) - len(lines)) + sum(a != b for a, b in zip(printed, lines))
        if wrong:
            print(f"{name}: {wrong} lines differ; {printed[:2]}, not {lines[:2]}")
        self.compared += len(lines)
        self.differ += wrong
        return took

    def least(self, runs):
        """What each run takes at least, of several turns in which all are made."""
        best = {}
        for _ in range(TURNS):
            for key, run in runs.items():
                best[key] = min(best.get(key, math.inf), self.spent(*run))
        return best

    def enough(self, name, book, one, line):
        """So many calls that their time can be told from that of few."""
        def took(n):
            return min(self.spent(name, book + times(n, one), [line]) for _ in range(3))

        few, many = took(FEW), MANY
        while many < 1 << 28 and took(many) - few < LONG:
            many *= 3
        return many

    def each(self, book, one, line):
        """What a call takes, by program."""
        runs, many = {}, {}
        for name in self.paths:
            many[name] = self.enough(name, book, one, line) if NATIVE else MANY
            runs[name, "few"] = name, book + times(FEW, one), [line]
            runs[name, "many"] = name, book + times(many[name], one), [line]
        best = self.least(runs)
        return {name: (best[name, "many"] - best[name, "few"]) / (many[name] - FEW) for name in self.paths}

    def new(self, book, size, before, last, again):
        """What entering the last entry takes where its key is new, by program. `before` is the entry before it, which
        is held, and `again` what entering the last one again takes."""
        book, reset, held = book + told(size - 1), told(size - 1), "already held"
        once = self.each(book, call("e", *before), held)
        runs = {}
        for name in self.paths:
            for key, entry in (("before", before), ("last", last)):
                runs[name, key] = name, book + reset.join([times(2, call("e", *entry))] * FRESH), [held] * FRESH
        best = self.least(runs)
        more = {name: (best[name, "last"] - best[name, "before"]) / FRESH for name in self.paths}
        return {name: more[name] + 2 * once[name] - again[name] for name in self.paths}


def measure(programs, size):
    """What each call takes in a book of a size, by call and program."""
    entries = floor(size)
    unit, number, count = last = entries[size - 1]
    middle, coming = entries[size // 2 - 1], entries[size]
    total = sum(entry[2] for entry in entries[:size] if entry[0] == unit)
    units, numbers, counts = zip(*entries[:size])
    book = laid(1, numbers) + laid(4097, units) + laid(8193, counts)
    found = {NEW: None}
    for name, one, line in (
        (AGAIN, call("e", *last), "already held"),
        ("enter it with another count", call("e", unit, number, count + 1), "refused 13"),
        ("ask for the last", call("h", unit, number), f"held {count}"),
        ("ask for the middle one", call("h", *middle[:2]), f"held {middle[2]}"),
        ("ask for one not held", call("h", *coming[:2]), "not held"),
        ("total of a unit", call("t", unit), f"total {total}"),
    ):
        found[name] = programs.each(book + told(size), one, line)
    found[NEW] = programs.new(book, size, entries[size - 2], last, found[AGAIN])
    return found


def table(found, columns, ratios):
    """A line for each size and call. A column is a program by its heading, a ratio is two headings by its own."""
    print(f"{'entries':>7}  {'call':<28}" + "".join(f"{heading:>14}" for heading in (*columns, *ratios)))
    for size in SIZES:
        for name, by in found[size].items():
            cost = {heading: by[program] for heading, program in columns.items()}
            print(f"{size:>7,}  {name:<28}" + "".join(f"{took:>14,.{int(NATIVE)}f}" for took in cost.values())
                  + "".join(f"{cost[a] / cost[b]:>14.2f}" for a, b in ratios.values()))


def growth(found, columns):
    """The line through the least and the largest book for each call, and whether the calls grow by it."""
    low, between, high = SIZES
    kinds = {heading: {} for heading in columns}

    def line(name, program):
        least, most = (found[size][name][program] for size in (low, high))
        return least - low * (most - least) / (high - low), (most - least) / (high - low)

    print(f"{'':<9}{'n entries: fixed + slope n':<28}" + "".join(f"{heading:>24}" for heading in columns))
    for name in found[low]:
        cells = []
        for heading, program in columns.items():
            fixed, slope = line(name, program)
            cells.append(f"{fixed:,.0f} {'+-'[slope < 0]} {abs(slope):.3f} n")
            off = abs(found[between][name][program] / (fixed + between * slope) - 1)
            flat = abs(slope) < line(name, PLAIN)[1] / 100
            kind = "flat" if flat else "linear" if off < 0.1 else "neither flat nor linear"
            kinds[heading].setdefault(kind, []).append((name, off))
        print(f"{'':<9}{name:<28}" + "".join(f"{cell:>24}" for cell in cells))
    for heading, by in kinds.items():
        for kind, calls in by.items():
            which = "every call" if len(calls) == len(found[low]) else ", ".join(name for name, _ in calls)
            most = max(off for _, off in calls)
            print(f"{heading}: {kind} in the entries (at {between} off the line by at most {most:.1%}): {which}")


def main(sheet=ROOT / "crates/sheet/out/sheet"):
    if not Path(sheet).is_file():
        sys.exit(f"{sheet} is not there")
    with tempfile.TemporaryDirectory() as folder:
        programs = Programs(sheet, Path(folder))
        found = {size: measure(programs, size) for size in SIZES}
    sides = {"sheet": "sheet", "scan": PLAIN, "map": "map"}
    layouts = {name: name for name in LAYOUTS}
    print(f"{UNIT} a call: the program, the plain scan in C, the hash map in C++ ({programs.compilers})")
    table(found, sides, {"sheet/scan": ("sheet", "scan"), "sheet/map": ("sheet", "map")})
    print()
    growth(found, sides)
    print(f"\n{UNIT} a call: the scan in C by its layout; the plain one has the number first, columns, and a lent book")
    ratios = {"unit/plain": "unit first", "rows/plain": "rows", "value/plain": "by value"}
    table(found, layouts, {heading: (name, PLAIN) for heading, name in ratios.items()})
    print()
    growth(found, layouts)
    print(f"\ncompared {programs.compared} cases, {programs.differ} differ")
    return 1 if programs.differ or not programs.compared else 0


if __name__ == "__main__":
    if len(sys.argv) > 2:
        sys.exit(__doc__)
    sys.exit(main(*sys.argv[1:]))
