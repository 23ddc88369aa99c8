#!/usr/bin/env python3
"""Spells this repository's own definitions, lemmas and fields of records in snake case, as the library spells its own.

usage: tools/respell.py          at the top, once, after the kit's own respelling

A name that a file of specs/ or proofs/ declares turns, as bitIn and bit-in-field to bit_in and bit_in_field; types, constructors and
modules keep their capitals. It turns in code, clauses, must-fail edits, the comments of these, and in the pages' spans of code.
Functions of src/ and what the kit makes of them keep their names. OTHERWISE has the names that would fall together with another.
"""
import collections
import glob
import os
import re
import sys

NAME = r"[^\s(){}.;,@\"«»\[\]`|]+"
HEAD = re.compile(r"(?m)^(?:(?:pub|abbrev|unfoldable|private) )*(" + NAME + r")(?: \{[^{}\n]*\}| \([^()\n]*\))* :")
FIELD = re.compile(r"(?m)^  +(?:(?:pub|abbrev|unfoldable|private) )*(" + NAME + r")(?: \{[^{}\n]*\}| \([^()\n]*\))* : ")
OTHERWISE = {
    "tooLarge": "too_large_field",
    "pastHead": "past_head_of",
    "pastVoice": "past_voice_of",
    "bit_in": "bit_in_lem",
    "packed_byte": "packed_byte_lem",
} | {
    name: name.replace("-", "_") + "_lem"
    for name in (
        "bit-xor code-left dropped-text first-frames gain-at guarded-bits guarded-place last-lines mended-fields pair-bytes past-frame read-bit recording-told "
        "said-of word-bytes"
    ).split()
}

SEEN = set()  # the names that are declared, as they stand


def spelled(name):
    """The name in snake case."""
    if name in OTHERWISE:
        return OTHERWISE[name]
    if not name[0].islower():
        return name
    name = re.sub(r"(?<=[a-z0-9])([A-Z])(?![0-9-])", lambda m: "_" + m[1].lower(), name)
    return re.sub(r"(?<=[^\W_])-(?=[^\W_])", "_", name)


def texts():
    for pattern in ("crates/*/specs/**/*.antt", "crates/*/proofs/**/*.antt"):
        yield from sorted(glob.glob(pattern, recursive=True))


def code(text):
    """The text without its comments and quoted parts."""
    return re.sub(r"(?m)--.*$|\"(?:[^\"\\\n]|\\.)*\"", "", text)


def declared():
    """The names that the files declare, but for those of one proof of a function, which its own names make."""
    found = set()
    for path in texts():
        if os.path.basename(path) == "Proof.antt":
            continue
        with open(path, encoding="utf-8") as it:
            text = code(it.read())
        for line in (HEAD, FIELD):
            found.update(m[1] for m in line.finditer(text))
    return found


def table():
    SEEN.update(declared())
    return {name: spelled(name) for name in declared() if spelled(name) != name}


def together(names):
    """Says which names would meet another one in a file that has both."""
    for path in texts():
        if os.path.basename(path) == "Proof.antt":
            continue
        with open(path, encoding="utf-8") as it:
            words = set(re.findall(NAME, code(it.read())))
        back = collections.defaultdict(set)
        for word in words:
            back[names.get(word, word)].add(word)
        for new, old in sorted(back.items()):
            if len(old) > 1:
                yield f"{path}: {', '.join(sorted(old))} would be {new}"


def words(text, names):
    return re.sub(NAME, lambda m: names.get(m[0], m[0]), text)


def spans(text, names):
    """The text with the words of its spans of code turned, also those that had turned in code before."""
    new = set(names.values()) | SEEN

    def one(m):
        word = m[0]
        return names.get(word) or (spelled(word) if spelled(word) in new else word)

    return re.sub(r"`[^`\n]+`", lambda m: re.sub(NAME, one, m[0]), text)


def antt(text, names):
    out, at = [], 0
    for m in re.finditer(r"(?m)--.*$|\"(?:[^\"\\\n]|\\.)*\"", text):
        out += [words(text[at : m.start()], names), spans(m[0], names) if m[0].startswith("--") else m[0]]
        at = m.end()
    return "".join(out) + words(text[at:], names)


CLAUSE = re.compile(r"(?:requires|ensures)\*?\s*(?:\w+\s*)?\{|ghost\s+use\b[^;]*;|ghost\s+\w+\s*[:=]\s*\{")


def source(text, names):
    """A source: its ghost use items and clauses, and the spans of code in its comments."""
    out, at = [], 0
    for m in CLAUSE.finditer(text):
        if m.start() < at:
            continue
        end = m.end()
        if text[end - 1] == "{":
            depth = 1
            while depth:
                depth += {"{": 1, "}": -1}.get(text[end], 0)
                end += 1
        out += [re.sub(r"//.*", lambda c: spans(c[0], names), text[at : m.start()]), words(text[m.start() : end], names)]
        at = end
    return "".join(out) + re.sub(r"//.*", lambda c: spans(c[0], names), text[at:])


def edit(text, names):
    """An edit: the clauses and definitions that it names, which stand whole in its lines."""
    of = ""
    lines = []
    for line in text.splitlines(keepends=True):
        if line.startswith("file: "):
            of = line[6:].strip()
        if line.startswith(("old: ", "new: ")):
            line = words(line, names) if of.endswith(".antt") or re.search(r"\b(?:requires|ensures)\b", line) else line
        else:
            line = spans(line, names)
        lines.append(line)
    return "".join(lines)


def rewritten(path, how, names):
    with open(path, encoding="utf-8", newline="") as it:
        text = it.read()
    new = how(text, names)
    if new != text:
        with open(path, "w", encoding="utf-8", newline="") as it:
            it.write(new)
    return new != text


def main():
    os.chdir(os.path.join(os.path.dirname(os.path.abspath(__file__)), ".."))
    names = table()
    said = list(together(names))
    print("\n".join(said))
    if "--table" in sys.argv:
        print("\n".join(f"{a}\t{b}" for a, b in sorted(names.items())))
        return 0
    if said:
        return 1
    turned = sum(rewritten(path, antt, names) for path in texts())
    turned += sum(rewritten(path, source, names) for path in sorted(glob.glob("crates/*/src/**/*.rt", recursive=True)))
    turned += sum(rewritten(path, edit, names) for path in sorted(glob.glob("crates/*/must-fail/*.edit")))
    turned += sum(rewritten(path, spans, names) for path in sorted(glob.glob("docs/**/*.md", recursive=True)) + ["README.md"])
    print(f"{len(names)} names in {turned} files")
    return 0


if __name__ == "__main__":
    sys.exit(main())
