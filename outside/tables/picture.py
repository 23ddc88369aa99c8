#!/usr/bin/env python3
"""Draws the 144 places of a frame, how a flip travels to an index, and the bytes of a recording, as SVG.

    picture.py places      the frame, 18 bytes of 8 places, coloured by what each place belongs to
    picture.py flip        flipped places on their way through the table and the repair to bits of indices
    picture.py recording   the bytes of a recording, block by block, and the place that each refusal tells
    picture.py --check     compares each with docs/places.svg, docs/flip.svg and docs/recording.svg

The first two are made from places.txt and guarded.txt of this folder alone, the third from recordings and listings of samples/.
"""

import re
import sys
from pathlib import Path

HERE = Path(__file__).resolve().parent
DOCS = HERE.parent.parent / "docs"
SAMPLES = HERE.parent.parent / "samples"
PLACES = (HERE / "places.txt").read_text(encoding="utf-8").split("\n")[:144]
GUARDED = {int(place): int(number) for number, place, _ in
           (line.split(" ", 2) for line in (HERE / "guarded.txt").read_text(encoding="utf-8").splitlines())}
COLOURS = {"LSP": "#cfe3f7", "PD": "#d9ecc8", "PG": "#fbe3b4", "CI": "#e6d8f2", "CG": "#f9d5cf",
           "HP": "#d6d6d6", "SP": "#f5f0a9", "SY": "#f5f0a9"}
WORDS = {"LSP": "LSP: line spectral parameters", "PD": "PD: delay", "PG": "PG: gain of the delayed part",
         "CI": "CI: code", "CG": "CG: gain of the code", "HP": "HP: parity",
         "SP": "SP: expansion bit, SY: synchronization bit"}


def kind(name):
    return re.match(r"[A-Z]+", name)[0]


def text(x, y, words, size=11, anchor="middle", weight="normal"):
    words = words.replace("&", "&amp;").replace("<", "&lt;")
    return f'<text x="{x}" y="{y}" font-size="{size}" text-anchor="{anchor}" font-weight="{weight}">{words}</text>'


def box(x, y, w, h, colour, thick=False):
    return (f'<rect x="{x}" y="{y}" width="{w}" height="{h}" fill="{colour}" stroke="#333" '
            f'stroke-width="{3 if thick else 0.7}"/>')


def drawn(width, height, parts):
    return (f'<svg xmlns="http://www.w3.org/2000/svg" width="{width}" height="{height}" '
            f'viewBox="0 0 {width} {height}" font-family="sans-serif">\n'
            + f'<rect width="{width}" height="{height}" fill="#ffffff"/>\n' + "\n".join(parts) + "\n</svg>\n")


def places():
    """A row for each byte, the top bit left; a thick edge is a guarded place, with its correction number."""
    wide, high, left, top = 84, 34, 70, 46
    parts = [text(left + 4 * wide, 22, "The 144 places of a frame", 16, weight="bold")]
    for q in range(8):
        parts.append(text(left + q * wide + wide / 2, top - 6, "top bit" if q == 0 else "lowest bit" if q == 7 else "", 9))
    for p, name in enumerate(PLACES, 1):
        x, y = left + (p - 1) % 8 * wide, top + (p - 1) // 8 * high
        parts.append(box(x + 1, y + 1, wide - 2, high - 2, COLOURS[kind(name)], p in GUARDED))
        parts.append(text(x + 5, y + 12, str(p), 8, "start"))
        parts.append(text(x + wide / 2, y + 23, name, 12))
        if p in GUARDED:
            parts.append(text(x + wide - 6, y + 12, str(GUARDED[p]), 9, "end", "bold"))
    for k in range(18):
        parts.append(text(left - 8, top + k * high + 21, f"byte {k}", 10, "end"))
    y = top + 18 * high + 20
    for i, (name, words) in enumerate(WORDS.items()):
        x = left + i % 2 * 350
        parts.append(box(x, y + i // 2 * 20 - 11, 14, 14, COLOURS[name]))
        parts.append(text(x + 20, y + i // 2 * 20, words, 11, "start"))
    parts.append(box(left + 350, y + 3 * 20 - 11, 14, 14, "#ffffff", True))
    parts.append(text(left + 370, y + 3 * 20, "thick edge: guarded, with its correction number", 11, "start"))
    return drawn(left + 8 * wide + 20, y + 80, parts)


def travels(flips):
    """Flipped places on their way: the number, the place that the repair inverts (none for 0), and the bits read wrong."""
    number = 0
    for place in flips:
        number ^= GUARDED.get(place, 0)
    repaired = [place for place, n in GUARDED.items() if n == number]
    wrong = sorted(PLACES[place - 1] for place in set(flips) ^ set(repaired) if kind(PLACES[place - 1]) != "HP")
    return number, repaired, wrong


def flip():
    """Six ways of a flip: a row for each, from the places flipped on the air to the bits of the indices that are read wrong."""
    rows = [("one guarded place: mended", (11,)), ("a parity place: the repair changes no index, and none is wrong", (21,)),
            ("two guarded places: reported, and the repair inverts a third", (11, 61)),
            ("two that show a parity number: the repair changes no index, and two bits of the voice are wrong", (31, 72)),
            ("three that cancel out: not reported", (21, 51, 11)), ("a place that is not guarded: not reported", (43,))]
    heads = ["flipped on the air", "number and letter", "the repair inverts", "then read wrong"]
    wides, gap, left, top, high = (230, 110, 150, 250), 26, 20, 64, 66
    parts = [text(420, 26, "How a flip travels to an index, and what a repair does with it", 16, weight="bold")]
    for i, (words, flips) in enumerate(rows):
        number, repaired, wrong = travels(flips)
        named = PLACES[repaired[0] - 1] if repaired else None
        letter, inverts = ("c", "nothing") if named is None else ("p", "nothing in the voice") if kind(named) == "HP" else ("d", named)
        cells = [", ".join(f"{place} ({PLACES[place - 1]})" for place in flips), f"{number} {letter}", inverts,
                 ", ".join(wrong) if wrong else "nothing"]
        x, y = left, top + i * high
        parts.append(text(left, y + 12, words, 12, "start", "bold"))
        for k, cell in enumerate(cells):
            if i == 0:
                parts.append(text(x + wides[k] / 2, top - 8, heads[k], 11))
            parts.append(box(x, y + 18, wides[k], 30, "#f9d5cf" if k == 0 or (k == 3 and wrong) else "#d9ecc8"))
            parts.append(text(x + wides[k] / 2, y + 38, cell, 12))
            if k < 3:
                parts.append(f'<path d="M{x + wides[k] + 2} {y + 33} h{gap - 6} m-6 -4 l6 4 l-6 4" fill="none" stroke="#333"/>')
            x += wides[k] + gap
    y = top + len(rows) * high + 16
    parts.append(text(left, y, "Number, letter and the bits read wrong depend on the flipped places alone, never on what was said.", 12, "start"))
    return drawn(left * 2 + sum(wides) + 3 * gap, y + 20, parts)


def passed(recording, place):
    """The first and last byte of each block before a place."""
    at = 0
    while at < place:
        length = 6 + int.from_bytes(recording[at:at + 4], "little")
        yield at, at + length - 1
        at += length


def recording():
    """The bytes of samples/sound.rec with what each is for; then the refused samples, with the place that the listing tells."""
    sound = (SAMPLES / "sound.rec").read_bytes()
    kinds = {1: ("head", ("unit", "recording")), 2: ("voice", ()), 3: ("end", ("frames",))}
    cell, left, y = 40, 96, 46
    parts = [text(432, 24, "The bytes of a recording, block by block (samples/sound.rec)", 16, weight="bold")]

    def bytes_at(x, at, size, colour, words):
        """Some bytes, each in a box with its place above it, and one line for all of them below."""
        for i in range(size):
            parts.append(text(x + i * cell + cell / 2, y + 12, str(at + i), 9))
            parts.append(box(x + i * cell, y + 16, cell, 26, colour))
            parts.append(text(x + i * cell + cell / 2, y + 33, f"{sound[at + i]:02X}", 12))
        parts.append(text(x + size * cell / 2, y + 56, words, 10))

    for first, last in passed(sound, len(sound)):
        length, kind = int.from_bytes(sound[first:first + 4], "little"), int.from_bytes(sound[first + 4:first + 6], "little")
        name, told = kinds[kind]
        parts.append(text(left - 12, y + 34, name, 13, "end", "bold"))
        bytes_at(left, first, 4, "#cfe3f7", f"length of the payload: {length}")
        bytes_at(left + 4 * cell, first + 4, 2, "#fbe3b4", f"kind {kind}")
        for i, word in enumerate(told):
            at = first + 6 + 4 * i
            bytes_at(left + (6 + 4 * i) * cell, at, 4, "#d9ecc8", f"{word} {int.from_bytes(sound[at:at + 4], 'little')}")
        for k in range(length // 18 if kind == 2 else 0):
            x, at = left + 6 * cell + k * 180, first + 6 + 18 * k
            parts.append(text(x + 90, y + 12, f"{at} to {at + 17}", 9))
            parts.append(box(x, y + 16, 180, 26, "#d9ecc8"))
            parts.append(text(x + 90, y + 33, f"frame {k + 1}: eighteen bytes", 12))
        y += 74
    parts.append(text(left, y + 2, "Places count from 0. Of each number the lowest byte comes first: 24 00 00 00 is 36 "
                      "(bytes are written here in sixteens: 2 times 16 and 4).", 10, "start"))
    y += 40
    parts.append(text(432, y, "The place that a refusal tells", 16, weight="bold"))
    y += 14
    rows = [("cut", "the upload stopped inside the end block's header"), ("dropped", "the upload stopped inside the voice block"),
            ("bad-length", "the voice block says that it is 100 bytes long"), ("wrong-size", "the voice block is 35 bytes long: no whole frames"),
            ("empty-voice", "the voice block has no frame: 0 bytes"), ("long-head", "the head is 9 bytes long: one too many"),
            ("unknown-kind", "there is no kind 4"), ("out-of-turn", "a second head"), ("wrong-count", "the end says 3 frames; there are 2"),
            ("no-end", "the end is missing: P is the file's length"), ("after-the-end", "a byte too many: P is its place"),
            ("empty", "no bytes at all: the end is missing")]
    scale = 4.4
    for name, words in rows:
        damaged = (SAMPLES / f"{name}.rec").read_bytes()
        line = (SAMPLES / f"{name}.list").read_text(encoding="utf-8").strip()
        place = int(line.split(" ")[3])
        parts.append(text(left - 12, y + 26, name, 11, "end"))
        for first, last in passed(damaged, place):
            parts.append(box(left + first * scale, y + 12, (last + 1 - first) * scale, 20, "#d9ecc8"))
        if place < len(damaged):
            parts.append(box(left + place * scale, y + 12, (len(damaged) - place) * scale, 20, "#f9d5cf"))
        x = left + place * scale
        parts.append(f'<path d="M{x:g} {y + 42} v-9 m-4 5 l4 -5 l4 5" fill="none" stroke="#333" stroke-width="1.5"/>')
        parts.append(text(x, y + 52, str(place), 9, weight="bold"))
        parts.append(text(left + 84 * scale, y + 22, line, 12, "start", "bold"))
        parts.append(text(left + 84 * scale, y + 36, f"{words} ({len(damaged)} bytes)", 10, "start"))
        y += 52
    parts.append(box(left, y + 12, 14, 14, "#d9ecc8"))
    parts.append(text(left + 20, y + 23, "blocks in order", 11, "start"))
    parts.append(box(left + 130, y + 12, 14, 14, "#f9d5cf"))
    parts.append(text(left + 150, y + 23, "from the refused block or the first extra byte on: not looked at further", 11, "start"))
    return drawn(864, y + 44, parts)


PICTURES = {"places": places, "flip": flip, "recording": recording}

if __name__ == "__main__":
    if sys.argv[1:] == ["--check"]:
        differ = [name for name, draw in PICTURES.items() if (DOCS / f"{name}.svg").read_text(encoding="utf-8") != draw()]
        for name in differ:
            print(f"docs/{name}.svg is not what picture.py draws")
        print(f"compared {len(PICTURES)} cases, {len(differ)} differ")
        sys.exit(1 if differ else 0)
    if len(sys.argv) != 2 or sys.argv[1] not in PICTURES:
        sys.exit(__doc__)
    sys.stdout.write(PICTURES[sys.argv[1]]())
