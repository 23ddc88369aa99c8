#!/usr/bin/env python3
"""Holds a listing program to the independent one, and a hearing, a salvaging and an exciting program beside it, over many recordings, sound
and damaged.

    listings.py OUTSIDE COUNT SEED LIST [HEAR [SALVAGE [EXCITE]]]

OUTSIDE is the independent program, which writes the recordings with what is to be printed of each. LIST, HEAR, SALVAGE and EXCITE are
commands, each one word of the shell's (as './run crates/list/out/list'). Each recording is read from a file, and some small ones come through a pipe in
pieces. A program has to print what is expected, say on standard error the changes, if it is SALVAGE, or nothing, and end with status 0.
SALVAGE is held over cuts and uploads too. Then each is run with an argument, and on an input that cannot be read: it prints nothing and
says one line. The last line says how many cases were compared.
"""

import os
import shlex
import subprocess
import sys
import tempfile
from pathlib import Path

# each program with the suffix of what is printed, that of what is said on standard error if there is any, and its usage after its name
PROGRAMS = [("list", ".list", None, "<recording"), ("hear", ".hear", None, "<recording"),
            ("salvage", ".salvaged", ".changes", "<recording >salvaged"), ("excite", ".excite", None, "<recording")]
UPLOADS = 150


def in_pieces(program, data, size):
    """What the program prints when its input comes in pieces."""
    process = subprocess.Popen(program, stdin=subprocess.PIPE, stdout=subprocess.PIPE, stderr=subprocess.PIPE)
    try:
        for at in range(0, len(data), size):
            process.stdin.write(data[at:at + size])
            process.stdin.flush()
    except BrokenPipeError:
        pass
    printed, said = process.communicate()
    return process.returncode, printed, said


def from_file(program, file):
    run = subprocess.run(program, stdin=file, capture_output=True, check=False)
    return run.returncode, run.stdout, run.stderr


class Compared:
    def __init__(self):
        self.cases, self.differ = 0, 0

    def hold(self, name, answer, expected):
        """Holds a status, what was printed and what was said to what is expected."""
        self.cases += 1
        if answer != expected:
            self.differ += 1
            print(f"{name}: status {answer[0]}, {answer[1][:120]!r}, not {expected[1][:120]!r}; "
                  f"standard error {answer[2][:120]!r}, not {expected[2][:120]!r}")


def compare(compared, folder, program, printed, said):
    """Runs a program over the recordings that have a file with the suffix of what is printed."""
    for n, path in enumerate(sorted(folder.glob("*.rec"))):
        wanted = path.with_suffix(printed)
        if not wanted.exists():
            continue
        expected = (0, wanted.read_bytes(), path.with_suffix(said).read_bytes() if said else b"")
        name = f"{folder.name}/{path.name} {printed}"
        with path.open("rb") as recording:
            compared.hold(f"{name} from a file", from_file(program, recording), expected)
        if n % 10 == 0 and path.stat().st_size < 3000:
            compared.hold(f"{name} in pieces", in_pieces(program, path.read_bytes(), 1 + n % 7), expected)


def strange(compared, folder, program, name, usage):
    """An argument, and an input that cannot be read."""
    with (folder / "00000.rec").open("rb") as recording:
        usage = f"usage: oatlantern-{name} {usage}\n".encode()
        compared.hold(f"{name} with an argument", from_file([*program, "FILE"], recording), (0, b"", usage))
    directory = os.open(folder, os.O_RDONLY)
    unread = f"oatlantern-{name}: standard input cannot be read\n".encode()
    compared.hold(f"{name} on a directory", from_file(program, directory), (0, b"", unread))
    os.close(directory)


def main(outside, count, seed, *programs):
    compared = Compared()
    with tempfile.TemporaryDirectory() as name:
        folder, cuts, uploads = (Path(name) / part for part in ("recordings", "cuts", "uploads"))
        subprocess.run([outside, "recordings", folder, count, seed], check=True)
        for (word, printed, said, usage), program in zip(PROGRAMS, programs):
            program = shlex.split(program)
            compare(compared, folder, program, printed, said)
            if word == "salvage":
                subprocess.run([outside, "cuts", cuts], check=True)
                subprocess.run([outside, "uploads", uploads, str(UPLOADS), seed], check=True)
                compare(compared, cuts, program, printed, said)
                compare(compared, uploads, program, printed, said)
            strange(compared, folder, program, word, usage)
        refused = sum(path.read_bytes().startswith(b"refused") for path in folder.glob("*.list"))
    print(f"{refused} of the recordings are refused")
    print(f"compared {compared.cases} cases, {compared.differ} differ")
    return 1 if compared.differ or compared.cases < int(count) else 0


if __name__ == "__main__":
    if not 5 <= len(sys.argv) <= 8:
        sys.exit(__doc__)
    sys.exit(main(*sys.argv[1:]))
