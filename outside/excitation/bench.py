#!/usr/bin/env python3
"""Measures one subframe's excitation beside a plain loop in C (plain.c), on the same cases.

    outside/excitation/bench.py [SUBFRAMES]

SUBFRAMES is the program that makes the excitation of single subframes, crates/subframes/out/subframes if not said. On x86-64 a
figure is nanoseconds a subframe, the best of several. On any other machine it is instructions a subframe: the
emulator (`run`) executes one at a time and logs it, and the lines of the log are counted. That depends on nothing else
that runs, and says nothing of caches and branches. CC may be set. The independent program has to be built
(outside/target/release/outside): the tables of the loop in C and the lines that are right come from it.

A figure is the difference between many times and few, so that neither the start nor the taking apart of the case nor
the printing is in it. The register goes on from time to time. Whole delays shorter than a subframe, as long and longer
are measured, and two that are refused.

First both programs answer all cases of `subframe-cases all`. Each line that a program prints, there and while it is
measured, has to be that of the independent one. Nothing is asserted about time: the status is 1 if a line differs or a
program fails.
"""

import math
import shlex
import shutil
import struct
import subprocess
import sys
import tempfile
from pathlib import Path

sys.path.insert(0, str(Path(__file__).resolve().parents[1]))
from measure import NATIVE, OUTSIDE, ROOT, UNIT, compilers, constants, measured, tables

# few times and many, how often a run is made; for a time, many take at least LONG
FEW, MANY, TURNS, LONG = (1, 1000, 7, 30_000_000) if NATIVE else (4, 12, 1, 0)
# what is measured, by its delay in twelfths
MEASURED = {
    "delay 20": 240,
    "delay 59": 708,
    "delay 60": 720,
    "delay 147": 1764,
    "not whole, refused 15": 644,
    "not listed, refused 4": 645,
}
# indices PG, CI and CG, and the length of the buffer
INDICES = (20, 410, 24, 60)


def case(times, delay):
    """The bytes of a case that is made so many times, from a register of numbers of both signs."""
    register = ((7919 * i) % 2001 - 1000 for i in range(147))
    return struct.pack("<I147iI4H", times - 1, *register, delay, *INDICES)


def header():
    """The header that plain.c includes."""
    found = tables()
    return constants({
        "int8_t elements": found["elements"],
        "int32_t cg": found["cg"],
        "int32_t pg": found["pg"],
        "uint16_t delays": [line.split()[1] for line in found["codes"]],
    })


def plainly(path, given, taken):
    """A run that is not measured."""
    command = [path] if NATIVE else [ROOT / "run", path]
    ended = subprocess.run(command, stdin=given, stdout=taken, stderr=subprocess.PIPE, check=False)
    return ended.returncode, 0, ended.stderr


class Programs:
    """The programs, by name, and how many lines of theirs were compared."""

    def __init__(self, subframes, folder):
        self.folder, self.compared, self.differ, self.right = folder, 0, 0, {}
        cc = compilers()[0]
        self.compiler = f"{shlex.join(cc)}, -O2"
        self.paths = {name: folder / name for name in ("subframes", "plain")}
        # the same program to the end, also where it is built again meanwhile
        shutil.copy(subframes, self.paths["subframes"])
        (folder / "tables.h").write_text(header())
        flags = ["-std=c99", "-O2", "-Wall", "-Wextra", "-pedantic", f"-I{folder}"]
        source = Path(__file__).parent / "plain.c"
        if subprocess.run([*cc, *flags, "-o", self.paths["plain"], source], check=False).returncode:
            sys.exit(f"{source.name} is not built")

    def lines(self, cases):
        """What the independent program prints of cases."""
        if cases not in self.right:
            printed = subprocess.run([OUTSIDE, "subframes"], input=cases, stdout=subprocess.PIPE, check=True).stdout
            self.right[cases] = printed.decode().splitlines()
        return self.right[cases]

    def spent(self, name, cases, run=measured):
        """What a run takes, with the start of the program. It has to print the right lines."""
        (self.folder / "cases").write_bytes(cases)
        with (self.folder / "cases").open("rb") as given, (self.folder / "lines").open("wb") as taken:
            status, took, said = run(self.paths[name], given, taken)
        if status or said:
            sys.exit(f"{name}: status {status}, standard error {said[:200]!r}")
        printed, right = (self.folder / "lines").read_text().splitlines(), self.lines(cases)
        wrong = [n for n, (a, b) in enumerate(zip(printed, right)) if a != b]
        count = len(wrong) + abs(len(printed) - len(right))
        if count:
            first = wrong[0] if wrong else min(len(printed), len(right))
            print(f"{name}: {count} lines differ, the first for case {first}: "
                  f"{printed[first:first + 1]}, not {right[first:first + 1]}")
        self.compared += len(right)
        self.differ += count
        return took

    def enough(self, name, delay):
        """So many times that what they take can be told from what few do."""
        def took(times):
            return min(self.spent(name, case(times, delay)) for _ in range(3))

        few, many = took(FEW), MANY
        while many < 1 << 26 and took(many) - few < LONG:
            many *= 3
        return many

    def each(self, delay):
        """What a subframe takes, by program: the least of several turns in which all are made."""
        many = {name: self.enough(name, delay) if NATIVE else MANY for name in self.paths}
        best = {}
        for _ in range(TURNS):
            for name in self.paths:
                for times in (FEW, many[name]):
                    took = self.spent(name, case(times, delay))
                    best[name, times] = min(best.get((name, times), math.inf), took)
        return {name: (best[name, many[name]] - best[name, FEW]) / (many[name] - FEW) for name in self.paths}


def main(subframes=ROOT / "crates/subframes/out/subframes"):
    for needed in (subframes, OUTSIDE):
        if not Path(needed).is_file():
            sys.exit(f"{needed} is not there")
    with tempfile.TemporaryDirectory() as folder:
        programs = Programs(subframes, Path(folder))
        cases = subprocess.check_output([OUTSIDE, "subframe-cases", "all"])
        for name in programs.paths:
            programs.spent(name, cases, plainly)
        print(f"{UNIT} a subframe: the program, and the plain loop in C ({programs.compiler})")
        print(f"{'':<26}{'subframes':>12}{'plain':>12}{'ratio':>8}")
        for name, delay in MEASURED.items():
            by = programs.each(delay)
            figures = "".join(f"{took:>12,.{int(NATIVE)}f}" for took in by.values())
            print(f"{name:<26}{figures}{by['subframes'] / by['plain']:>8.2f}", flush=True)
    print(f"compared {programs.compared} cases, {programs.differ} differ")
    return 1 if programs.differ or not programs.compared else 0


if __name__ == "__main__":
    if len(sys.argv) > 2:
        sys.exit(__doc__)
    sys.exit(main(*sys.argv[1:]))
