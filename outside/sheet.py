#!/usr/bin/env python3
"""Holds a program that makes calls on a tally book, by our functions or by those for C, to the independent one.

    sheet.py OUTSIDE WORD PROGRAM

OUTSIDE is the independent program, which makes the histories and says, called with WORD (`sheet` or `sheet-for-c`), what is to be printed of
each. PROGRAM is a command, one word of the shell's (as './run crates/sheet/out/sheet'). It has to print the same, say nothing on standard error and end with status 0: over the named histories
and generated ones, over the stored calls, and where the calls come in pieces. A case is a call that has a line. The last line says how many
were compared.
"""

import itertools
import shlex
import subprocess
import sys
import tempfile
from pathlib import Path

from listings import from_file, in_pieces

HISTORIES, SEED = 120, 1
# the word for the stored calls
CASES = {"sheet": "sheet-cases", "sheet-for-c": "sheet-cases-for-c"}


def run(program, data):
    ended = subprocess.run(program, input=data, capture_output=True, check=False)
    return ended.returncode, ended.stdout, ended.stderr


def differences(answer, expected):
    """The first line that is not as expected, by its number and with what is expected, and how many such lines there are."""
    lines = itertools.zip_longest(answer.splitlines(True), expected.splitlines(True))
    wrong = [(n, *two) for n, two in enumerate(lines, 1) if two[0] != two[1]]
    return wrong[0] if wrong else None, len(wrong)


def main(outside, word, program):
    independent, program = [outside, word], shlex.split(program)
    compared = differ = 0

    def hold(name, answer, expected):
        nonlocal compared, differ
        status, printed, said = answer
        compared += expected.count(b"\n")
        first, count = differences(printed, expected)
        if count:
            n, line, wanted = first
            print(f"{name}: {count} lines differ; line {n} is {line!r}, not {wanted!r}")
        if status or said:
            count = max(count, 1)
            print(f"{name}: status {status}, standard error {said[:120]!r}")
        differ += count

    with tempfile.TemporaryDirectory() as name:
        folder = Path(name)
        subprocess.run([outside, "histories", folder, str(HISTORIES), str(SEED)], check=True)
        for path in sorted(folder.glob("*.calls")):
            data, (status, expected, said) = path.read_bytes(), run(independent, path.read_bytes())
            if status or said or (word == "sheet" and expected != path.with_suffix(".said").read_bytes()):
                sys.exit(f"outside {word}, {path.name}: not as it is written")
            with path.open("rb") as calls:
                hold(path.name, from_file(program, calls), expected)
            # those near the limit and beyond it, so that the last call that is made ends a piece
            if len(data) >= 1 << 18:
                hold(f"{path.name} in pieces", in_pieces(program, data, 1 << 14), expected)
    stored = run([outside, CASES[word]], b"")[1]
    expected = run(independent, stored)[1]
    hold("the stored calls", run(program, stored), expected)
    for size in (1, 7):
        hold(f"the stored calls in pieces of {size}", in_pieces(program, stored, size), expected)
    print(f"compared {compared} cases, {differ} differ")
    return 1 if differ or not compared else 0


if __name__ == "__main__":
    if len(sys.argv) != 4:
        sys.exit(__doc__)
    sys.exit(main(*sys.argv[1:]))
