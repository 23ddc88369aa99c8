#!/usr/bin/env python3
"""Times the listing program beside the independent one, on the same recordings, in the same run.

    listing_bench.py LIST OUTSIDE [ROUNDS]

A full recording (65,532 bytes, 3,639 frames) and one of half its frames. Each round runs both programs on both, from a file and into a
file; the best time of each counts. A time is that of the whole process, its start included; the start is measured as well, on an empty
recording, and taken off. Both listings are compared. Nothing is asserted about time.
"""

import struct
import subprocess
import sys
import tempfile
import time
from pathlib import Path


def recording(frames):
    """A sound recording of so many frames, from a fixed sequence."""
    y, payload = 1, bytearray()
    for _ in range(18 * frames):
        y = (1664525 * y + 1013904223) % 2 ** 32
        payload.append(y >> 24)

    def block(kind, body):
        return struct.pack("<IH", len(body), kind) + bytes(body)

    return block(1, struct.pack("<II", 7, 1)) + block(2, payload) + block(3, struct.pack("<I", frames))


def timed(command, source, target):
    with source.open("rb") as given, target.open("wb") as taken:
        start = time.perf_counter()
        subprocess.run(command, stdin=given, stdout=taken, check=True)
        return time.perf_counter() - start


def main(program, outside, rounds=200):
    sides = {"list": [program], "independent": [outside, "list"]}
    with tempfile.TemporaryDirectory() as folder:
        sources = {}
        for name, data in (("empty", b""), ("half", recording(1819)), ("full", recording(3639))):
            sources[name] = Path(folder) / name
            sources[name].write_bytes(data)
        best, texts = {}, {}
        for turn in range(int(rounds)):
            for side, command in list(sides.items())[::1 if turn % 2 else -1]:
                for name, source in sources.items():
                    target = Path(folder) / f"{side}.{name}"
                    took = timed(command, source, target)
                    best[side, name] = min(best.get((side, name), took), took)
                    texts[side, name] = target.read_bytes()
        differ = [name for name in sources if texts["list", name] != texts["independent", name]]
    spent = {key: best[key] - best[key[0], "empty"] for key in best if key[1] != "empty"}
    for side in sides:
        print(f"{side:<12} start {best[side, 'empty'] * 1e6:7.0f} us   half {spent[side, 'half'] * 1e6:7.0f} us   "
              f"full {spent[side, 'full'] * 1e6:7.0f} us   {spent[side, 'full'] * 1e9 / 3639:5.0f} ns a frame   "
              f"twice the frames: {spent[side, 'full'] / spent[side, 'half']:.2f} times")
    print(f"full recording: ratio {spent['list', 'full'] / spent['independent', 'full']:.2f} "
          f"(with the start of the process {best['list', 'full'] / best['independent', 'full']:.2f})")
    print(f"compared {len(sources)} cases, {len(differ)} differ")
    return 1 if differ else 0


if __name__ == "__main__":
    if len(sys.argv) not in (3, 4):
        sys.exit(__doc__)
    sys.exit(main(*sys.argv[1:]))
