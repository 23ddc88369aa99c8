#!/usr/bin/env python3
"""Holds a program that salvages into a lent buffer, or salvages and lists into two for C, to the independent one.

    lent.py OUTSIDE WORD PROGRAM

OUTSIDE is the independent program, which makes the recordings and says, called with WORD (`lent` or `lent-for-c`), what is to be printed of each
case. PROGRAM is a command, one word of the shell's (as './run crates/lent/out/lent'). It has to print the same, say nothing on standard error and
end with status 0. Buffers of the right lengths are lent with some of the edges, each cause of a refusal among them, with those made for salvaging, the longest sound recordings, samples,
recordings that are too long, none at all and inputs of less than two bytes; and buffers of other lengths with some of these. The last line says
how many cases were compared.
"""

import shlex
import subprocess
import sys
import tempfile
from pathlib import Path

from listings import in_pieces

SAMPLES = Path(__file__).resolve().parent.parent / "samples"
RIGHT = 65536

# of the first edges every seventh, among them each cause of a refusal
FIRST = range(0, 326, 7)
# the edges made for salvaging: every fourth of those in small recordings, every third of those at the limit
SMALL, AT_THE_LIMIT = range(326, 423, 4), range(423, 498, 3)
# the sound recordings with the most frames and with the most voice blocks
LONGEST = [234, 245]
SOUND = ["sound", "two-blocks", "count", "refused-frame"]
DAMAGED = ["cut", "dropped", "dropped-later", "wild-length", "wrong-size", "no-end", "wrong-count", "after-the-end"]

# with buffers of other lengths: sound, mended to 48 bytes and to more, nothing to keep; mended to 65,532 bytes and to fewer, too long
OTHER_LENGTHS = [1, 2, 10, 48, 65520, 65535]
OTHER_SAMPLES = ["sound", "count", "dropped", "dropped-later", "wrong-size"]
OTHER_EDGES = [326, 339, 423, 434, 497]


def case(length, recording):
    """A buffer's length, where 0 stands for the right one, and the recording."""
    return (length % RIGHT).to_bytes(2, "little") + recording


def made(outside):
    """The cases, each with its name."""
    samples = {name: (SAMPLES / f"{name}.rec").read_bytes() for name in SOUND + DAMAGED}
    with tempfile.TemporaryDirectory() as folder:
        subprocess.run([outside, "recordings", folder, str(AT_THE_LIMIT.stop), "1"], check=True)
        edges = {n: (Path(folder) / f"{n:05}.rec").read_bytes() for n in {*FIRST, *SMALL, *AT_THE_LIMIT, *LONGEST, *OTHER_EDGES}}
    for n in [*FIRST, *SMALL, *AT_THE_LIMIT, *LONGEST]:
        yield f"edge {n}", case(RIGHT, edges[n])
    for name, recording in samples.items():
        yield name, case(RIGHT, recording)
    others = {name: samples[name] for name in OTHER_SAMPLES} | {f"edge {n}": edges[n] for n in OTHER_EDGES}
    for name, recording in others.items():
        for length in OTHER_LENGTHS:
            yield f"{name}, a buffer of {length}", case(length, recording)
    # sound but for the bytes after it: one byte too many, and more than is read
    for size in (65537, 100000):
        for length in (RIGHT, 65535):
            yield f"{size} bytes, a buffer of {length}", case(length, samples["sound"].ljust(size, b"\0"))
    for length in (RIGHT, 48):
        yield f"no recording, a buffer of {length}", case(length, b"")
    yield "no input", b""
    for byte in (0, 200):
        yield f"one byte, {byte}", bytes([byte])


def run(program, data):
    ended = subprocess.run(program, input=data, capture_output=True, check=False)
    return ended.returncode, ended.stdout, ended.stderr


def difference(answer, expected):
    """In what a status, what was printed and what was said differ from what is expected; nothing if they are the same."""
    (status, printed, said), (_, wanted, _) = answer, expected
    if answer == expected:
        return None
    if status or said:
        return f"status {status}, standard error {said[:120]!r}"
    at = next((at for at, (a, b) in enumerate(zip(printed, wanted)) if a != b), min(len(printed), len(wanted)))
    return f"{len(printed)} bytes, not {len(wanted)}; from {at} on {printed[at:at + 60]!r}, not {wanted[at:at + 60]!r}"


def main(outside, word, program):
    independent, program = [outside, word], shlex.split(program)
    compared = differ = 0

    def hold(name, answer, expected):
        nonlocal compared, differ
        compared += 1
        wrong = difference(answer, expected)
        if wrong:
            differ += 1
            print(f"{name}: {wrong}")

    for name, data in made(outside):
        expected = run(independent, data)
        if expected[0] or expected[2]:
            sys.exit(f"outside {word}, {name}: status {expected[0]}, standard error {expected[2]!r}")
        hold(name, run(program, data), expected)
    # the stored case, the same with the whole recording, and both in pieces, so that the two bytes of the length come one after the other
    for name, more in (("the stored case", []), ("the sound case", ["sound"])):
        stored = run([outside, "lent-case", *more], b"")[1]
        expected = run(independent, stored)
        hold(name, run(program, stored), expected)
        for size in (1, 7):
            hold(f"{name} in pieces of {size}", in_pieces(program, stored, size), expected)
    print(f"compared {compared} cases, {differ} differ")
    return 1 if differ or not compared else 0


if __name__ == "__main__":
    if len(sys.argv) != 4:
        sys.exit(__doc__)
    sys.exit(main(*sys.argv[1:]))
