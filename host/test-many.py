#!/usr/bin/env python3
"""Holds the command oatlantern to the independent program over many recordings, sound and damaged.

    test-many.py OUTSIDE COMMAND [N [SEED]]

OUTSIDE is the independent program, which writes N recordings (10,000) and says what is to be printed of them. COMMAND is one
word of the shell's, as './run target/host/oatlantern'. All of them are listed in one process, and the first ones heard and
excited; some are listed and salvaged one by one. What is printed, what is said on standard error behind the command's name, and
the exit status have to be the same. Each recording is a case, each time it is gone through. The last line is `compared N cases,
M differ`; the exit is 1 where one does, or where none was compared.
"""

import shlex
import subprocess
import sys
import tempfile
from pathlib import Path

HEARD = 700  # how many of the first recordings are heard and excited
ALONE = 40  # how many are listed one by one
SALVAGED = 60  # how many are salvaged
SHOWN = 10  # how many differences are printed
PREFIX = b"oatlantern: "


class Compared:
    def __init__(self):
        self.cases, self.differ = 0, 0

    def hold(self, name, answer, expected):
        self.cases += 1
        if answer != expected:
            self.differ += 1
            if self.differ <= SHOWN:
                print(f"{name}: {str(answer)[:200]}, not {str(expected)[:200]}")


def run(words, stdin=subprocess.DEVNULL):
    """The status of a command, what it printed and what it said."""
    done = subprocess.run(words, stdin=stdin, capture_output=True, check=False)
    return done.returncode, done.stdout, done.stderr


def without_prefix(said):
    """What was said without the command's name; a line that does not begin with it stays as it is, with a mark."""
    lines = said.splitlines(keepends=True)
    return b"".join(line[len(PREFIX):] if line.startswith(PREFIX) else b"no prefix: " + line for line in lines)


def parts(printed, names):
    """What was printed of each file, by its name: the lines after the one that has it. Under None what comes before the first."""
    found, name = {None: []}, None
    marks = {f"{name}:".encode(): name for name in names}
    for line in printed.splitlines():
        if line in marks:
            name = marks[line]
            found[name] = []
        else:
            found[name].append(line)
    return found


def together(compared, outside, command, word, names):
    """A subcommand on all these files in one process."""
    expected = run([outside, "many", word, *names])
    status, printed, said = run([*command, word, *names])
    said = without_prefix(said)
    got, wanted = parts(printed, names), parts(expected[1], names)
    for name in names:
        compared.hold(f"{word} {name}", got.get(name), wanted.get(name))
    compared.hold(f"{word}: what is said", said.splitlines(), expected[2].splitlines())
    same = printed == expected[1] and said == expected[2]
    compared.hold(f"{word}: the status, and all bytes", (status, same), (expected[0], True))
    return wanted


def alone(compared, outside, command, names):
    """One by one: from a file and from standard input, where nothing is printed but the listing."""
    for name in names:
        with open(name, "rb") as recording:
            _, listing, _ = run([outside, "list"], recording)
        status = 1 if listing.startswith(b"refused ") else 0
        line = f"{name}: ".encode() + listing.strip().replace(b"1 at 65536", b"1") + b": " if status else b""
        got = run([*command, "list", name])
        compared.hold(f"list {name}, alone", got[:2], (status, listing))
        compared.hold(f"list {name}, alone: what is said", without_prefix(got[2])[:len(line) or None], line)
        with open(name, "rb") as recording:
            compared.hold(f"list <{name}", run([*command, "list"], recording)[:2], (status, listing))


def salvaged(compared, outside, command, names):
    for name in names:
        with open(name, "rb") as recording:
            _, kept, changes = run([outside, "salvage"], recording)
        status, printed, said = run([*command, "salvage", name])
        if changes.startswith(b"refused "):
            line = f"{name}: ".encode() + changes.strip() + b": "
            said = without_prefix(said)
            compared.hold(f"salvage {name}", (status, printed, said[:len(line)], said.count(b"\n")), (1, b"", line, 1))
        else:
            compared.hold(f"salvage {name}", (status, printed, said), (0, kept, changes))


def spread(items, count):
    """So many of them, from the first to the last."""
    return items if len(items) <= count else [items[n * len(items) // count] for n in range(count)]


def main():
    if not 3 <= len(sys.argv) <= 5:
        sys.exit(__doc__)
    outside, command = sys.argv[1], shlex.split(sys.argv[2])
    count = int(sys.argv[3]) if len(sys.argv) > 3 else 10000
    seed = sys.argv[4] if len(sys.argv) > 4 else "5"
    compared = Compared()
    with tempfile.TemporaryDirectory() as folder:
        subprocess.run([outside, "recordings", folder, str(count), seed], check=True, stdout=subprocess.DEVNULL)
        names = [str(path) for path in sorted(Path(folder).glob("*.rec"))]
        if len(names) != count:
            sys.exit(f"{outside} made {len(names)} recordings, not {count}")
        listings = together(compared, outside, command, "list", names)
        together(compared, outside, command, "hear", names[:HEARD])
        together(compared, outside, command, "excite", names[:HEARD])
        together(compared, outside, command, "list", [f"{folder}/none", names[0], folder, names[-1]])
        refused = [name for name in names if listings[name][0].startswith(b"refused ")]
        sound = [name for name in names if not listings[name][0].startswith(b"refused ")]
        alone(compared, outside, command, spread(refused, ALONE // 2) + spread(sound, ALONE // 2))
        salvaged(compared, outside, command, spread(refused, SALVAGED * 3 // 4) + spread(sound, SALVAGED // 4))
    print(f"{len(sound)} sound recordings and {len(refused)} refused ones")
    print(f"compared {compared.cases} cases, {compared.differ} differ")
    return 1 if compared.differ or not compared.cases or not sound or not refused else 0


if __name__ == "__main__":
    sys.exit(main())
