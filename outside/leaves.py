#!/usr/bin/env python3
"""Holds the test program `leaves` to the independent one on every window and on many cases of each kind, and times the two.

    leaves.py OUTSIDE LEAVES           compares; the last line says how many cases were compared
    leaves.py --time OUTSIDE LEAVES    times each kind of call too, in ns a call, on a machine that runs LEAVES itself

LEAVES is a command, one word of the shell's (as './run crates/leaves/out/leaves'). A time is the difference between many rounds over the same
cases and few, best of several, so that neither starting nor reading counts; each side takes its cases apart and sums up its answers.
"""

import shlex
import subprocess
import sys
import tempfile
import time
from pathlib import Path

KINDS = {"c": "cg", "p": "pg", "n": "nearest_cg", "q": "nearest_pg", "m": "meaning", "s": "codes", "l": "in_hertz, mark, averages", "e": "write_code", "g": "draw"}
FEW, MANY, TURNS = 20, 420, 7


def answer(command, cases):
    start = time.perf_counter()
    run = subprocess.run(command, input=cases, stdout=subprocess.PIPE, check=True)
    return run.stdout, time.perf_counter() - start


def count(cases):
    """How many cases there are."""
    at, n = 4, 0
    while at < len(cases):
        at, n = at + 2 + cases[at + 1], n + 1
    return n


def main(timing, outside, leaves):
    independent, program = [outside, "leaves"], shlex.split(leaves)
    compared = differ = 0
    inputs = {}
    with tempfile.TemporaryDirectory() as folder:
        subprocess.run([outside, "windows", folder], check=True)
        inputs = {f"windows {path.stem}": path.read_bytes() for path in sorted(Path(folder).glob("*.cases"))}
    for kind in KINDS:
        inputs[f"kind {kind}"] = subprocess.run([outside, "leaf-cases", kind, "0", "1"], stdout=subprocess.PIPE, check=True).stdout
    for name, cases in inputs.items():
        ours, theirs = answer(program, cases)[0].splitlines(), answer(independent, cases)[0].splitlines()
        compared += count(cases)
        wrong = abs(len(ours) - len(theirs)) + sum(a != b for a, b in zip(ours, theirs))
        if wrong or len(ours) != count(cases) + 1:
            differ += max(wrong, 1)
            print(f"{name}: {wrong} lines differ")
    if timing:
        print(f"{'call':<28}{'leaves':>10}{'independent':>14}{'ratio':>8}")
        for kind, call in KINDS.items():
            few, many = (subprocess.run([outside, "leaf-cases", kind, str(n), "1"], stdout=subprocess.PIPE, check=True).stdout for n in (FEW, MANY))
            calls, times = count(few) * (MANY - FEW), []
            for command in (program, independent):
                best = [min(answer(command, cases)[1] for _ in range(TURNS)) for cases in (few, many)]
                times.append((best[1] - best[0]) / calls * 1e9)
            print(f"{call:<28}{times[0]:>10.1f}{times[1]:>14.1f}{times[0] / times[1]:>8.2f}")
    print(f"compared {compared} cases, {differ} differ")
    return 1 if differ or not compared else 0


if __name__ == "__main__":
    words = sys.argv[1:]
    timing = words[:1] == ["--time"]
    if len(words) != 2 + timing:
        sys.exit(__doc__)
    sys.exit(main(timing, *words[timing:]))
