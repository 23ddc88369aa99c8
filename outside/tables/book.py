#!/usr/bin/env python3
"""Runs the printed program of 3.3.1 and gives the 1,082 elements.

    book.py DOCUMENT            the runs, what they agree on, how near 1.2 they come
    book.py DOCUMENT --write    makes elements.txt again

The program is taken out of each copy of the document at run time, repaired by
the list below, and compiled by gfortran in a temporary folder, once with single
and once with double precision. It makes 1,084 numbers, x(0) to x(1083), and
writes x(1) to x(1082); element e is x(e+1). The first and the last number are
not part of the book. A probe line, listed apart, writes each number before it
is held against the threshold, so that its distance from 1.2 can be seen.

The sums wrap at sixteen bits by what is printed: the program masks the sum and
takes 65,536 away, in whole numbers wide enough, so no compiler option is asked.
"""

import re
import subprocess
import sys
import tempfile
from collections import namedtuple
from pathlib import Path

sys.dont_write_bytecode = True
import extract  # noqa: E402

HERE = Path(__file__).resolve().parent
THRESHOLD = 1.2
ELEMENTS = 1082
PRECISIONS = {"single": [], "double": ["-fdefault-real-8"]}

# Scan repairs of the program: part, text printed, text read, reason. Each is met once in each copy.
Repair = namedtuple("Repair", "part printed read reason")
REPAIRS = (
    Repair("program", "THRESH=1 .2", "THRESH=1.2", "a blank inside a number"),
    Repair("program", "status=' new' ", "status='new'", "blanks inside and behind a quoted word"),
    Repair("program", "slog(s)", "log(s)", "slog is the natural logarithm (document 01)"),
    Repair("function", "(k l e. 0)", "(k .le. 0)", "a point lost and a blank inside `.le.`"),
    Repair("function", "(j l e. 0)", "(j .le. 0)", "a point lost and a blank inside `.le.`"),
)

# Not repairs: the probe behind the one call that makes numbers, and a program for the first draws.
PROBED = "call noise(x(k),x(k+1))"
PROBE = ["open (unit=11, file='numbers', position='append')",
         "write (11, '(es30.20e3)') x(k), x(k+1)",
         "close (11)"]
DRAWS = ["program draws", "integer random, i", "do i = 1, 4", "print *, random()", "end do", "end"]

Run = namedtuple("Run", "copy precision elements numbers draws")


def repaired(copy):
    """The program and the function of one copy, repaired, as two lists of lines."""
    parts = dict(zip(("program", "function"), copy.fenced()))
    for repair in REPAIRS:
        lines = parts[repair.part]
        met = [i for i, line in enumerate(lines) if repair.printed in line]
        if len(met) != 1:
            raise extract.Unreadable(f"copy {copy.number}: {repair.printed!r} met {len(met)} times")
        lines[met[0]] = lines[met[0]].replace(repair.printed, repair.read)
    return parts["program"], parts["function"]


def compiled(folder, name, lines, options):
    """Compiles lines in free form, runs the program in the folder, gives what it prints."""
    (folder / f"{name}.f90").write_text("\n".join(lines) + "\n")
    subprocess.run(["gfortran", "-std=legacy", "-w", *options, "-o", name, f"{name}.f90"],
                   cwd=folder, check=True, capture_output=True, text=True)
    return subprocess.run([folder / name], cwd=folder, check=True,
                          capture_output=True, text=True).stdout


def element(number):
    """What the threshold makes of a number."""
    return 0 if abs(number) < THRESHOLD else 1 if number > 0 else -1


def run(copy, precision):
    """One run of one copy's program."""
    program, function = repaired(copy)
    calls = [i for i, line in enumerate(program) if PROBED in line]
    if len(calls) != 1:
        raise extract.Unreadable(f"copy {copy.number}: the call to probe is met {len(calls)} times")
    program[calls[0] + 1:calls[0] + 1] = PROBE
    with tempfile.TemporaryDirectory() as name:
        folder = Path(name)
        compiled(folder, "codebook", program + function, PRECISIONS[precision])
        written = re.findall(r"-?\d+", (folder / "codebook.h").read_text())
        numbers = [float(word) for word in (folder / "numbers").read_text().split()]
        draws = compiled(folder, "draws", DRAWS + function, PRECISIONS[precision]).split()
    return Run(copy.number, precision, [int(word) for word in written], numbers,
               [int(word) for word in draws])


def runs(document):
    """The four runs: two copies, two precisions."""
    return [run(copy, precision) for copy in extract.copies(document) for precision in PRECISIONS]


def troubles(made):
    """What is wrong with the runs; empty if they have the right counts and agree."""
    found = []
    for r in made:
        name = f"copy {r.copy} {r.precision}"
        if len(r.elements) != ELEMENTS or len(r.numbers) != ELEMENTS + 2:
            found.append(f"{name}: {len(r.elements)} elements, {len(r.numbers)} numbers")
        elif [element(x) for x in r.numbers[1:-1]] != r.elements:
            found.append(f"{name}: the written elements are not the numbers 1 to 1082 at 1.2")
        if r.elements != made[0].elements:
            found.append(f"{name}: other elements than copy {made[0].copy} {made[0].precision}")
        if r.draws != made[0].draws:
            found.append(f"{name}: other draws")
    return found


def margin(r, position):
    """How far the number behind an element is from the threshold."""
    return abs(abs(r.numbers[position + 1]) - THRESHOLD)


def main(arguments):
    options = [a for a in arguments if a.startswith("--")]
    files = [a for a in arguments if not a.startswith("--")]
    if len(files) != 1 or set(options) - {"--write"}:
        sys.exit(__doc__.strip())
    for repair in REPAIRS:
        print(f"repaired in both copies, {repair.part}: {repair.printed!r} read as "
              f"{repair.read!r}: {repair.reason}")
    made = runs(files[0])
    for r in made:
        near = sorted(range(ELEMENTS), key=lambda e: margin(r, e))[:3]
        print(f"copy {r.copy}, {r.precision} precision: {len(r.numbers)} numbers, "
              f"{len(r.elements)} elements ({r.elements.count(-1)} of -1, {r.elements.count(0)} of 0, "
              f"{r.elements.count(1)} of 1), first draws {r.draws}; nearest to 1.2: "
              + ", ".join(f"{margin(r, e):.7f} at element {e}" for e in near))
    found = troubles(made)
    for trouble in found:
        print("WRONG:", trouble)
    if found:
        sys.exit(1)
    apart = max(abs(a - b) for a, b in zip(made[0].numbers, made[1].numbers))
    print(f"single and double precision are at most {apart:.7f} apart in any number; "
          f"all {len(made)} runs give the same {ELEMENTS} elements")
    print("left out of the book:", ", ".join(f"x({i}) = {made[1].numbers[i]:.6f}, which gives "
          f"{element(made[1].numbers[i])}" for i in (0, ELEMENTS + 1)))
    if "--write" in options:
        (HERE / "elements.txt").write_text("\n".join(map(str, made[0].elements)) + "\n")
        print(f"written: elements.txt, {ELEMENTS} lines")


if __name__ == "__main__":
    try:
        main(sys.argv[1:])
    except extract.Unreadable as stop:
        sys.exit(f"unreadable: {stop}")
