#!/usr/bin/env python3
"""Makes the recordings of this folder and the calls on a tally book, and what is to be said of each.

    make.py PROGRAM            writes NAME.rec, NAME.list, NAME.hear and NAME.changes, NAME.salvaged where something is mended, and of
                               some NAME.excite; and of calls NAME.calls and NAME.said
    make.py --check PROGRAM    compares them with what is stored

PROGRAM is the independent program (outside/target/release/outside), called with the word `list`, `hear`, `salvage`, `excite` or `sheet`. The bytes
are laid out here, block by block and place by place, by the tables of outside/tables; README.md says what is wrong with each recording, and
outside/CASES.md how a call is laid out.
"""

import subprocess
import sys
from pathlib import Path

HERE = Path(__file__).resolve().parent
TABLES = HERE.parent / "outside/tables"
PLACES = (TABLES / "places.txt").read_text(encoding="utf-8").split("\n")[:144]
GUARDED = [line.split(" ", 2) for line in (TABLES / "guarded.txt").read_text(encoding="utf-8").splitlines()]
RANKS = [line.split() for line in (TABLES / "codes.txt").read_text(encoding="utf-8").splitlines()]


# A block: the payload's length, the kind, the payload. Every number has its lowest byte first.
def number(n, size=4):
    return n.to_bytes(size, "little")


def block(kind, payload, length=None):
    return number(len(payload) if length is None else length) + number(kind, 2) + payload


def head(unit, recording):
    return block(1, number(unit) + number(recording))


def voice(*frames, length=None):
    return block(2, b"".join(frames), length)


def end(frames):
    return block(3, number(frames))


# A frame: place 1 is the top bit of byte 0, place 144 the lowest bit of byte 17.
def only(*places):
    bits = sum(1 << (144 - place) for place in places)
    return bits.to_bytes(18, "big")


def flipped(frame, *places):
    return bytes(a ^ b for a, b in zip(frame, only(*places)))


def frame(lsps, ranks, gains, codes, sy):
    """The frame of ten LSP indices, four ranks of delays, four pairs PG and CG, four codes, and SY; SP is 0."""
    fields = {f"LSP {j}": index for j, index in enumerate(lsps, 1)} | {"SP": 0, "SY": sy}
    for n, (rank, (pg, cg), code) in enumerate(zip(ranks, gains, codes), 1):
        base = min(max(ranks[n - 2] - 31, 0), 192)
        delay = int(RANKS[rank][2]) if n % 2 == 1 else rank - base
        fields |= {f"PD({n})": delay, f"PG({n})": pg, f"CI({n})": code, f"CG({n})": cg}
    parity = 0
    for n, place, name in GUARDED:
        field, _, bit = name.partition("-")
        if field != "HP" and fields[field] >> int(bit or 0) & 1:
            parity ^= int(n)
    def bit_of(name):
        field, _, bit = name.partition("-")
        return (parity if field == "HP" else fields[field]) >> int(bit or 0) & 1
    return only(*(place for place, name in enumerate(PLACES, 1) if bit_of(name)))


# Two frames: nothing set; and only places 104 and 144 set.
ZERO, HIT = bytes(18), only(104, 144)
HEAD, VOICE, END = head(7, 1), voice(ZERO, HIT), end(2)

# Six frames as a radio holds them, each with its own delays; SY goes 0, 1, 0, 1, 0, 1.
LEVEL = (3,) * 10
SPOKEN = [frame(LEVEL, (110 + 2 * k, 111 + 2 * k, 112 + 2 * k, 111 + 2 * k),
                ((20, 18), (21, 18), (20, 17), (19, 17)), (40 + k, 130 + k, 255 - k, 7 * k), k % 2) for k in range(6)]


# Four frames for the listening box. The ranks of 54, 55, 55, 54 samples; of 54, 54 and a third, 54, 53; a frame that is refused with 6; and of
# 20, 21, 22, 23 samples, as loud as the gains go.
LISTENING = [frame(LEVEL, (110, 113, 113, 110), ((24, 22), (25, 9), (24, 23), (26, 8)), (300, 41, 222, 7), 0),
             frame(LEVEL, (110, 111, 110, 107), ((26, 24), (27, 7), (28, 24), (27, 6)), (301, 42, 223, 8), 1),
             flipped(frame(LEVEL, (110, 113, 113, 110), ((26, 24), (27, 7), (28, 24), (27, 6)), (302, 43, 224, 9), 0), 104, 21),
             frame(LEVEL, (0, 3, 6, 9), ((31, 31), (31, 0), (31, 31), (31, 0)), (303, 44, 225, 10), 1)]


def told(*frames):
    return head(12, 345) + voice(*frames) + end(len(frames))


def hit(**places):
    """The six frames with places of some flipped: f3=(104, 21) flips two of the third."""
    return told(*(flipped(spoken, *places.get(f"f{k}", ())) for k, spoken in enumerate(SPOKEN, 1)))


RECORDINGS = {
    # sound
    "sound": HEAD + VOICE + END,
    "two-blocks": HEAD + voice(ZERO) + voice(HIT) + END,
    "expansion": HEAD + voice(only(21, 51, 94, 134, 104), HIT) + END,
    "count": hit(),
    "lost-frame": told(*SPOKEN[:2], *SPOKEN[3:]),
    "first-lost": told(*SPOKEN[1:]),
    "last-lost": told(*SPOKEN[:-1]),
    "two-lost": told(*SPOKEN[:2], *SPOKEN[4:]),
    "lost-between": head(12, 345) + voice(*SPOKEN[:3]) + voice(*SPOKEN[4:]) + end(5),
    "came-twice": told(*SPOKEN[:3], *SPOKEN[2:]),
    "sync-hit": hit(f3=(144,)),
    "mark": hit(f3=(PLACES.index("LSP 4-3") + 1,)),
    "two-hits": hit(f3=(31, 72)),
    "parity-hit": hit(f3=(94,)),
    "letters": hit(f2=(21,), f4=(61,), f5=(104, 1), f6=(104, 21)),
    "refused-frame": hit(f3=(104, 21)),
    "lost-after-refused": told(*SPOKEN[:2], flipped(SPOKEN[2], 104, 21), *SPOKEN[4:]),
    "sent": hit(f2=(61,), f5=(PLACES.index("PD(1)-3") + 1,)),
    "sent-again": hit(f4=(11, 61)),
    "listening": head(12, 346) + voice(*LISTENING[:2]) + voice(*LISTENING[2:]) + end(4),
    # refused
    "empty": b"",
    "cut": (HEAD + VOICE + END)[:59],
    "dropped": (HEAD + VOICE + END)[:44],
    "dropped-later": (head(12, 345) + voice(*SPOKEN[:3]) + voice(*SPOKEN[3:]) + end(6))[:107],
    "bad-length": HEAD + voice(ZERO, HIT, length=100) + END,
    "wild-length": HEAD + voice(ZERO, length=2000) + voice(HIT) + END,
    "wrong-size": HEAD + voice((ZERO + HIT)[:35]) + END,
    "empty-voice": HEAD + voice() + END,
    "long-head": block(1, number(7) + number(1) + b"\0") + VOICE + END,
    "unknown-kind": HEAD + block(4, ZERO + HIT) + END,
    "out-of-turn": HEAD + HEAD + VOICE + END,
    "no-end": HEAD + VOICE,
    "wrong-count": HEAD + VOICE + end(3),
    "after-the-end": HEAD + VOICE + END + b"\0",
}


# A call on a tally book: a byte for its kind, and its numbers; a recording goes along whole.
def call(kind, *numbers):
    return kind.encode() + b"".join(number(n) for n in numbers)


def enter(unit, recording, count):
    return call("e", unit, recording, count)


def enter_recording(recording, count):
    return call("r", count, len(recording)) + recording


def asks(*keys):
    """What is asked of some keys and of their units, and how many entries there are."""
    return b"".join(call("h", *key) for key in keys) + b"".join(call("t", unit) for unit in sorted({unit for unit, _ in keys})) + call("n")


def histories(salvaged):
    """The calls, by name; `salvaged` is what is salvaged of dropped-later.rec."""
    again, sound = RECORDINGS["sent-again"], RECORDINGS["sound"]
    asked = asks((12, 345), (12, 346), (7, 1), (7, 2))
    # 4,095 entries of unit 50, each with a count of 3, laid as words
    nearly_full = call("w", 1, 4097, 1, 1) + call("w", 4097, 8193, 50, 0) + call("w", 8193, 12289, 3, 0) + call("w", 0, 1, 4095, 0)
    return {
        "reconnected": enter_recording(RECORDINGS["dropped-later"], 40) + enter_recording(salvaged, 40) + enter_recording(again, 40)
        + enter_recording(again, 42) + enter(12, 346, 25) + enter_recording(sound, 15) + enter(7, 1, 15) + asked,
        "other-order": enter(7, 1, 15) + enter_recording(again, 40) + enter_recording(sound, 15) + enter(12, 346, 25)
        + enter_recording(salvaged, 40) + asked,
        "full-book": nearly_full + call("n") + enter(60, 1, 8) + enter(61, 1, 9) + enter(60, 1, 8) + enter(50, 4095, 3)
        + enter(50, 4095, 4) + asks((60, 1), (61, 1), (50, 4095)),
    }


# those whose excitation is kept: every kind of line, no delay whole, and a refused recording
EXCITED = ["listening", "sound", "cut"]


def said_of(program, name, recording):
    """What the program says of a recording: the content of each file beside it, by suffix."""
    def run(word, **more):
        return subprocess.run([program, word], input=recording, stdout=subprocess.PIPE, check=True, **more)
    salvaged = run("salvage", stderr=subprocess.PIPE)
    made = {".list": run("list").stdout, ".hear": run("hear").stdout, ".changes": salvaged.stderr}
    mended = salvaged.stderr and not salvaged.stderr.startswith(b"refused ")
    excited = {".excite": run("excite").stdout} if name in EXCITED else {}
    return made | excited | ({".salvaged": salvaged.stdout} if mended else {})


def main():
    check, program = sys.argv[1:-1] == ["--check"], sys.argv[-1]
    if len(sys.argv) != 2 + check or program.startswith("--"):
        sys.exit(__doc__)
    made = {name + suffix: content for name, recording in RECORDINGS.items()
            for suffix, content in ({".rec": recording} | said_of(program, name, recording)).items()}
    for name, calls in histories(made["dropped-later.salvaged"]).items():
        said = subprocess.run([program, "sheet"], input=calls, stdout=subprocess.PIPE, check=True).stdout
        made |= {name + ".calls": calls, name + ".said": said}
    suffixes = {Path(name).suffix for name in made}
    stored = {file.name for file in HERE.iterdir() if file.suffix in suffixes}
    faults = [f"samples/{name}: nothing here makes it" for name in sorted(stored - set(made))]
    for name, content in made.items():
        file = HERE / name
        if not check:
            file.write_bytes(content)
        elif not file.exists() or file.read_bytes() != content:
            faults.append(f"samples/{name}: not what is made")
    for fault in faults:
        print(fault)
    print(f"{len(faults)} faults, {len(made)} cases")
    sys.exit(1 if faults else 0)


if __name__ == "__main__":
    main()
