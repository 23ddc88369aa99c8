#!/usr/bin/env python3
"""Shows that a test program whose output refuses a piece passes it over and goes on with the next one.

    pieces.py OUTSIDE COMMAND

OUTSIDE is the independent program, which says what is to be printed. COMMAND is one word of the shell's, with {0} for a program's name (as
'./run crates/{0}/out/{0}'). The programs are those that print by `output`. What each writes at a time is read from a socket that keeps the
pieces apart: together they have to be what is to be printed, each has to be one that the program prints, and no number comes in two. Then its output is a pipe with
little room, which is read when the program has ended: it has to hold just the pieces that found room when their turn came, and the program
to say nothing and end with status 0. Of each program some run has to pass a piece over and take a later one. The last line says how many runs
were compared.
"""

import fcntl
import itertools
import os
import re
import shlex
import socket
import subprocess
import sys
import tempfile
import threading
from pathlib import Path

ROOT = Path(__file__).resolve().parent.parent
# the pieces that each program prints: numbers, words, what stands between them, lines, and all of a lent buffer
PIECES = {
    "leaves": rb"\d+|\n",
    # a result has twelve places
    "exchange": rb"(?=.{12}\Z)-?\d+ +|\d+| |\n",
    "sheet": rb"(entered|already held|not held|cleared|refused \d+( at \d+( \d+)?)?)\n|(held|total|entries|book|refused) |\d+|\n",
    "sheet_for_c": rb"entered|already held|refused | told |(not held|cleared)\n|(held|total|entries|book) |\d+| |\n",
    "subframes": rb"[-0-9 ]+\n",
    "subframes_for_c": rb"[-0-9 ]+\n",
    "lent": rb"([a-z0-9 ]+\n)+|\xaa{2}",
    "lent_for_c": rb"salvage|list| -?\d+|\d+| |\n|\xaa{2}|\xaa{4}",
}
PIPE = 4096
ROOMS = [4096, 4095, 4000, 3001, 2000, 1499, 1001, 700, 499, 100, 50, 21, 13, *range(9, 0, -1)]


def apart(program, data):
    """The pieces that a program writes."""
    ours, its = socket.socketpair(socket.AF_UNIX, socket.SOCK_SEQPACKET)
    with ours, its, tempfile.TemporaryFile() as given:
        given.write(data)
        given.seek(0)
        with subprocess.Popen(program, stdin=given, stdout=its, stderr=subprocess.DEVNULL) as process:
            its.close()
            limit = threading.Timer(60, process.kill)
            limit.start()
            pieces = list(itertools.islice(iter(lambda: ours.recv(1 << 20), b""), 1 << 16))
            process.wait()
            limit.cancel()
        return process.returncode, pieces


def narrow(program, data, room):
    """What comes out of a pipe that has room for so many bytes and refuses what finds none; the status, and what is said."""
    reading, writing = os.pipe()
    with open(reading, "rb") as out, open(writing, "wb", buffering=0) as full, tempfile.TemporaryFile() as given:
        given.write(data)
        given.seek(0)
        before = bytes(fcntl.fcntl(writing, fcntl.F_SETPIPE_SZ, PIPE) - room)
        os.set_blocking(writing, False)
        full.write(before)
        ended = subprocess.run(program, stdin=given, stdout=writing, stderr=subprocess.PIPE, timeout=60, check=False)
        full.close()
        return ended.returncode, out.read()[len(before):], ended.stderr


def taken(pieces, room):
    """The pieces that find room, one after the other, and whether one is taken behind one that is not."""
    found, passed, behind = [], False, False
    for piece in pieces:
        if len(piece) <= room:
            room -= len(piece)
            found.append(piece)
            behind = behind or passed
        else:
            passed = True
    return b"".join(found), behind


def main(outside, command):
    compared = differ = 0
    listed = re.findall(r"^(\w+)[^:#\n]*:.* output\b", (ROOT / "crates.txt").read_text(encoding="utf-8"), re.M)
    if set(listed) != set(PIECES):
        sys.exit(f"by `output` print {', '.join(listed)}, not {', '.join(PIECES)}")
    for name, form in PIECES.items():
        program, data = shlex.split(command.format(name)), (ROOT / "crates" / name / "stdin").read_bytes()
        # two bytes are lent to be salvaged into, which no salvaging takes, and for C four to be listed into
        data = b"\2\0" + data[2:] if name.startswith("lent") else data
        wanted = subprocess.run([outside, name.replace("_", "-")], input=data, capture_output=True, check=True).stdout
        status, pieces = apart(program, data)
        if status or b"".join(pieces) != wanted or PIPE <= max(map(len, pieces)):
            sys.exit(f"{name}: status {status}, {len(pieces)} pieces, which are not what is to be printed or too large for the pipe")
        other = [piece for before, piece in zip([b"", *pieces], pieces) if not re.fullmatch(form, piece) or (before[-1:] + piece[:1]).isdigit() and before]
        compared += 1
        if other:
            differ += 1
            print(f"{name}: {len(other)} of {len(pieces)} pieces are none that it prints, the first {other[0]!r}")
        passing = 0
        for room in ROOMS:
            expected, behind = taken(pieces, room)
            passing += behind
            compared += 1
            status, printed, said = narrow(program, data, room)
            if (status, printed, said) != (0, expected, b""):
                differ += 1
                print(f"{name}, room for {room}: status {status}, {len(printed)} bytes, not {len(expected)}, standard error {said[:120]!r}")
        if not passing:
            differ += 1
            print(f"{name}: no run passes a piece over and takes a later one")
    print(f"compared {compared} cases, {differ} differ")
    return 1 if differ or not compared else 0


if __name__ == "__main__":
    if len(sys.argv) != 3:
        sys.exit(__doc__)
    sys.exit(main(*sys.argv[1:]))
