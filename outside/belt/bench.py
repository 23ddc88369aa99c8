#!/usr/bin/env python3
"""Measures what a belt unit links, and what a call for the delays of four codes takes there.

    outside/belt/bench.py [TREE]

TREE is a checkout, this one if not said, so that one commit can be held beside another. Its leaf functions are proved
and built into an archive for C, by a crate that is made for it alone (its exports.txt, or this one where it has none);
`size` tells the archive's bytes.
Then a program in C (calls.c) calls `meanings::meaning` of the archive, and what stands in for it in plain C (plain.c):
once with the twelfths of a rank in a table, once worked out. On x86-64 a figure is nanoseconds a call, the best of
several; on any other machine it is instructions a call, as the emulator counts them. What calling alone takes is
taken off: it is measured with a function that does nothing.

A figure is the difference between many rounds and few over the same cases: every byte once in subframe 1 and once in
subframe 3, or codes that are refused. The sums of all answers have to be the independent program's
(outside/target/release/outside, which has to be built: the tables come from it too). Nothing is asserted about size or
time: the status is 1 if a sum differs or something fails. CC may be set.
"""

import math
import shlex
import shutil
import struct
import subprocess
import sys
import tempfile
from pathlib import Path

HERE = Path(__file__).resolve().parent
sys.path.insert(0, str(HERE.parent))
from measure import NATIVE, OUTSIDE, ROOT, UNIT, compilers, constants, measured, tables

USES = "gains nearest delays meanings coder lsp hertz codebook"
# the archive is for x86-64, whatever CC is
SIZE = "size" if NATIVE else "x86_64-linux-gnu-size"
FEW, MANY, TURNS = (100, 10_100, 7) if NATIVE else (1, 5, 1)
MEASURED = {
    "four delays": [(k, 13 * k % 64, (101 * k + 7) % 256, 29 * k % 64) for k in range(256)],
    "refused in subframe 1": [(256 + k, 0, 0, 0) for k in range(256)],
    "refused in subframe 4": [(k, 63, 255 - k, 64 + k) for k in range(256)],
}
# how plain.c is compiled, by the name of what that makes
PLAIN = {"C, table": [], "C, stretches": ["-DSTRETCHES"], "nothing": ["-DNOTHING"]}


def cases(codes, rounds):
    """The input of `leaves`."""
    return struct.pack("<I", rounds - 1) + b"".join(struct.pack("<BB4H", ord("m"), 8, *four) for four in codes)


def header():
    """The header that plain.c includes."""
    rows = [line.split() for line in tables()["codes"]]
    rank = {int(byte): rank for rank, _, byte in rows}
    return constants({
        "uint8_t ranks": [rank[byte] for byte in range(256)],
        "uint16_t twelfths": [twelfths for _, twelfths, _ in rows],
    })


def archived(tree, folder):
    """The archive of a checkout's leaf functions."""
    for crate in (tree / "crates").iterdir():
        for part in ("src", "specs", "proofs"):
            if (crate / part).is_dir():
                shutil.copytree(crate / part, folder / "crates" / crate.name / part)
    (folder / "crates/belt/src").mkdir(parents=True)
    own = tree / "outside/belt/exports.txt"
    shutil.copy(own if own.is_file() else HERE / "exports.txt", folder / "crates/belt/src/lib.rt")
    (folder / "crates.txt").write_text(f"{(tree / 'crates.txt').read_text(encoding='utf-8')}\nbelt staticlib: {USES}\n", encoding="utf-8")
    done = subprocess.run(["rt", "lib"], cwd=folder / "crates/belt", capture_output=True, text=True, check=False)
    if done.returncode:
        sys.exit(f"the archive is not built:\n{done.stdout}{done.stderr}")
    return folder / "crates/belt/out/libbelt.a"


class Calls:
    """The programs, by the name of what they call, and how many sums of theirs were compared."""

    def __init__(self, cc, archive, folder):
        self.folder, self.compared, self.differ = folder, 0, 0
        (folder / "tables.h").write_text(header(), encoding="utf-8")
        flags = ["-std=c99", "-O2", "-Wall", "-Wextra", "-pedantic", f"-I{folder}", f"-I{HERE}"]
        called = {"ours": [archive], **{name: [HERE / "plain.c", *words] for name, words in PLAIN.items()}}
        self.paths = {name: folder / f"calls{n}" for n, name in enumerate(called)}
        for name, words in called.items():
            subprocess.run([*cc, *flags, "-o", self.paths[name], HERE / "calls.c", *words], check=True)

    def spent(self, name, given):
        """What a run takes, with the start of the program. It has to print the right sum, if it calls what answers."""
        (self.folder / "cases").write_bytes(given)
        with (self.folder / "cases").open("rb") as source, (self.folder / "sum").open("wb") as taken:
            status, took, said = measured(self.paths[name], source, taken)
        if status or said:
            sys.exit(f"{name}: status {status}, standard error {said[:200]!r}")
        if name != "nothing":
            right = subprocess.run([OUTSIDE, "leaves"], input=given, stdout=subprocess.PIPE, check=True).stdout.split()[-1]
            self.compared += 1
            if (self.folder / "sum").read_bytes().split() != [right]:
                self.differ += 1
                print(f"{name}: the sum differs")
        return took

    def each(self, codes):
        """What a call takes, by what is called."""
        best = {}
        for _ in range(TURNS):
            for name in self.paths:
                for rounds in (FEW, MANY):
                    best[name, rounds] = min(best.get((name, rounds), math.inf), self.spent(name, cases(codes, rounds)))
        took = {name: (best[name, MANY] - best[name, FEW]) / (MANY - FEW) / len(codes) for name in self.paths}
        return {name: took[name] - took["nothing"] for name in self.paths if name != "nothing"}


def main(tree=ROOT):
    if not OUTSIDE.is_file():
        sys.exit(f"{OUTSIDE} is not there")
    cc = compilers()[0]
    with tempfile.TemporaryDirectory() as folder:
        archive = archived(Path(tree).resolve(), Path(folder))
        print(subprocess.check_output([SIZE, archive.name], cwd=archive.parent, text=True), end="")
        calls = Calls(cc, archive, Path(folder))
        print(f"{UNIT} a call: the archive's, and plain C ({shlex.join(cc)}, -O2)")
        print(f"{'':<24}{'ours':>8}{'C, table':>12}{'C, stretches':>14}")
        for name, codes in MEASURED.items():
            by = calls.each(codes)
            print(f"{name:<24}{by['ours']:>8.1f}{by['C, table']:>12.1f}{by['C, stretches']:>14.1f}", flush=True)
    print(f"compared {calls.compared} sums, {calls.differ} differ")
    return 1 if calls.differ or not calls.compared else 0


if __name__ == "__main__":
    if len(sys.argv) > 2:
        sys.exit(__doc__)
    sys.exit(main(*sys.argv[1:]))
