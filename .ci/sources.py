"""The sources as the checks beside this file read them: the crates, their functions and constants, what each of those uses, and the
must-fail edits.

What is used is read from the text: `f(..)`, `module::f(..)`, `crate::f(..)`, `Type::f(..)`, `x.f(..)` and the names of constants, with
the `use` lines of the file. A method is known by its name alone: where two types have one of that name, the call counts for neither.
"""

import re
from collections import defaultdict
from dataclasses import dataclass, field
from pathlib import Path

ROOT = Path(__file__).resolve().parent.parent
CRATES = ROOT / "crates"
MASKED = re.compile(r'//[^\n]*|b?"(?:\\.|[^"\\])*"|b?\'(?:\\(?:x[0-9a-fA-F]{2}|.)|[^\'\\\n])\'', re.S)
HEADS = re.compile(r"(?P<public>\bpub\s+)?(?:extern\s+\"\s*\"\s+)?\b(?P<kind>fn|const|impl|mod|struct|enum|use|extern)\b")
CLAUSE = re.compile(r"\b(?:requires|ensures)(?:\s+\w+)?\s*$")
C_LIBRARIES = ("io",)
READER = re.compile(r"\bRead\b")
CALL = re.compile(r"(?<![\w.])(?P<path>(?:\w+\s*::\s*)*)(?P<name>\w+)\s*\(")
METHOD = re.compile(r"\.\s*(?P<name>[a-z_]\w*)\s*\(")
CONSTANT = re.compile(r"(?<![\w.])(?P<path>(?:\w+\s*::\s*)*)(?P<name>[A-Z][A-Z0-9_]*)\b(?!\s*(?:::|\())")


def lines():
    """The lines of crates.txt: a crate, the words after its name, and what it uses."""
    for line in (ROOT / "crates.txt").read_text(encoding="utf-8").splitlines():
        words, colon, uses = line.split("#")[0].partition(":")
        if colon:
            name, *more = words.split()
            yield name, more, uses.split()


def depends():
    """The crates as crates.txt lists them, each with what it uses."""
    return {name: uses for name, _, uses in lines()}


def archived():
    """The static libraries: the parts of the archive for C."""
    return [name for name, more, _ in lines() if "staticlib" in more]


def below(crate, listed):
    """A crate and all that it uses."""
    found, left = set(), [crate]
    while left:
        if (name := left.pop()) not in found and name in listed:
            found.add(name)
            left += listed[name]
    return found


def masked(text):
    """The text with comments, strings and characters blanked, every place kept."""
    def blank(found):
        told = found[0]
        keep = 2 if told.startswith('b"') else 1 if told.startswith('"') else 0
        end = 1 if keep else 0
        return told[:keep] + re.sub(r"[^\n]", " ", told[keep:len(told) - end]) + told[len(told) - end:]
    return MASKED.sub(blank, text)


def closing(text, at, pair="{}"):
    """The place after the bracket that closes the one at a place."""
    depth = 0
    for place in range(at, len(text)):
        depth += (text[place] == pair[0]) - (text[place] == pair[1])
        if depth == 0:
            return place + 1
    raise ValueError(f"no {pair[1]} closes the {pair[0]} at {at}")


@dataclass(eq=False)
class Item:
    """A function or a constant: where it stands, its text from its first word to its end, and whether its answer is the outside's to give:
    it calls the kit's C libraries or is lent a reader."""
    crate: str
    module: tuple
    owner: str
    name: str
    kind: str
    public: bool
    file: str
    start: int
    end: int
    head: str
    body: str
    uses: set = field(default_factory=set)
    unclear: set = field(default_factory=set)
    asks_outside: bool = False

    def __str__(self):
        return "::".join(part for part in (self.crate, *self.module, self.owner, self.name) if part)


class File:
    """A source file: its items, its modules and what its `use` lines bring."""

    def __init__(self, crate, module, file, text):
        self.crate, self.module, self.file = crate, module, file
        self.items, self.modules, self.types, self.brought = [], {}, set(), {}
        self.read(masked(text), 0, None, "")

    def read(self, text, at, end, owner):
        end = len(text) if end is None else end
        while found := HEADS.search(text, at, end):
            kind, public, start = found["kind"], bool(found["public"]), found.start()
            before = text[text.rfind("\n", 0, start) + 1:start].strip()
            at = found.end()
            if kind == "use":
                stop = text.index(";", at)
                if before != "ghost":
                    if public:
                        raise ValueError(f"{self.file}: `pub use` is not read by this check")
                    self.bring(text[at:stop])
                at = stop + 1
            elif kind == "mod":
                name = re.compile(r"\s*(\w+)\s*;").match(text, at)
                if not name:
                    raise ValueError(f"{self.file}: a module inside a file is not read by this check")
                self.modules[name[1]] = public
                at = name.end()
            elif kind in ("struct", "enum"):
                self.types.add(re.compile(r"\s*(\w+)").match(text, at)[1])
                brace, semicolon = text.find("{", at), text.find(";", at)
                at = semicolon + 1 if brace < 0 or 0 <= semicolon < brace else closing(text, brace)
            elif kind == "impl":
                name = re.compile(r"\s*(?:<[^>]*>\s*)?(\w+)").match(text, at)[1]
                brace = text.index("{", at)
                stop = closing(text, brace)
                self.read(text, brace + 1, stop - 1, name)
                at = stop
            elif kind == "extern":
                brace = text.find("{", at)
                if brace < 0 or text[at:brace].strip(' "'):
                    raise ValueError(f"{self.file}: an `extern` that is not read by this check")
                at = closing(text, brace)
            elif kind == "const":
                name = re.compile(r"\s*(\w+)").match(text, at)[1]
                stop = self.semicolon(text, at) + 1
                self.items.append(Item(self.crate, self.module, owner, name, kind, public, self.file, start, stop, "", text[at:stop]))
                at = stop
            else:
                at = self.function(text, at, start, public, owner)

    @staticmethod
    def semicolon(text, at):
        """The semicolon that ends a constant, past those inside brackets."""
        depth = 0
        for place in range(at, len(text)):
            depth += (text[place] in "[({") - (text[place] in "])}")
            if text[place] == ";" and depth == 0:
                return place
        raise ValueError("a constant has no end")

    def function(self, text, at, start, public, owner):
        name = re.compile(r"\s*(\w+)").match(text, at)[1]
        place = closing(text, text.index("(", at), "()")
        brace = text.index("{", place)
        head = text[start:brace]
        while CLAUSE.search(text[place:brace]):
            place = closing(text, brace)
            brace = text.index("{", place)
        stop = closing(text, brace)
        self.items.append(Item(self.crate, self.module, owner, name, "fn", public, self.file, start, stop, head, text[brace:stop]))
        return stop

    def bring(self, told):
        told = re.sub(r"\s+", "", told.replace(" as ", "@"))
        group = re.fullmatch(r"(.*)::\{(.*)\}", told)
        for path in [f"{group[1]}::{name}" for name in group[2].split(",") if name] if group else [told]:
            path, _, alias = path.partition("@")
            segments = path.split("::")
            self.brought[alias or segments[-1]] = segments


class Sources:
    """All crates that crates.txt lists: what they have, and what each of that uses."""

    def __init__(self):
        self.listed = depends()
        self.files, self.items, self.faults = {}, [], []
        for crate in self.listed:
            for root in ("lib", "main"):
                if (CRATES / crate / "src" / f"{root}.rt").exists():
                    self.take(crate, (), f"src/{root}.rt", True)
        self.items_by_name = defaultdict(list)
        for item in self.items:
            self.items_by_name[item.crate, item.module, item.owner, item.name].append(item)
        self.methods = defaultdict(set)
        for item in self.items:
            if item.kind == "fn" and item.owner and re.search(r"\(\s*&?\s*(?:mut\s+)?self\b", item.head):
                self.methods[item.name].add(item)
        for item in self.items:
            self.connect(item)

    def take(self, crate, module, file, public):
        read = File(crate, module, file, (CRATES / crate / file).read_text(encoding="utf-8"))
        self.files[crate, module] = read
        for item in read.items:
            item.public = item.public and public
        self.items += read.items
        for name, shown in read.modules.items():
            here = "/".join(("src", *module, name))
            file = next(f for f in (f"{here}.rt", f"{here}/mod.rt") if (CRATES / crate / f).exists())
            self.take(crate, (*module, name), file, public and shown)

    def place(self, crate, module, owner, segments):
        """Where the path before a name leads from a file: the crate, the module and perhaps the type; None for what is not of this repository."""
        first, rest = segments[0], segments[1:]
        file = self.files[crate, module]
        if first == "Self":
            return (crate, module, owner) if not rest else None
        if first in ("crate", "self", "super"):
            module = {"crate": (), "self": module, "super": module[:-1]}[first]
        elif first in file.brought:
            return self.place(crate, (), "", [*file.brought[first], *rest])
        elif first not in file.types and first not in file.modules:
            if first not in self.listed:
                return None
            crate, module = first, ()
        else:
            rest = segments
        for n, segment in enumerate(rest):
            file = self.files[crate, module]
            if segment in file.modules:
                module = (*module, segment)
            elif segment in file.types and n == len(rest) - 1:
                return (crate, module, segment)
            else:
                return None
        return (crate, module, "")

    def find(self, item, segments, name, kind):
        """The function or constant that a name means in an item, after a path."""
        file = self.files[item.crate, item.module]
        if not segments and name in file.brought and not self.items_by_name[item.crate, item.module, "", name]:
            *segments, name = file.brought[name]
            place = self.place(item.crate, (), "", segments) if segments else None
        else:
            place = self.place(item.crate, item.module, item.owner, segments) if segments else (item.crate, item.module, "")
        return next((found for found in self.items_by_name[(*place, name)] if found.kind == kind), None) if place else None

    def connect(self, item):
        item.asks_outside = bool(READER.search(item.head))
        for call in CALL.finditer(item.body):
            segments = [part.strip() for part in call["path"].split("::") if part.strip()]
            brought = self.files[item.crate, item.module].brought.get(segments[0] if segments else call["name"], segments)
            item.asks_outside = item.asks_outside or brought[:1] in [[name] for name in C_LIBRARIES]
            if found := self.find(item, segments, call["name"], "fn"):
                item.uses.add(found)
            elif segments and call["name"][0].islower() and self.ours(item, segments):
                self.faults.append(f"{item} calls {'::'.join([*segments, call['name']])}, which is not found")
        for call in METHOD.finditer(item.body):
            near = below(item.crate, self.listed)
            meant = {method for method in self.methods[call["name"]] if method.crate in near}
            if len(meant) == 1:
                item.uses |= meant
            elif meant:
                item.unclear |= meant
        for constant in CONSTANT.finditer(item.body):
            segments = [part.strip() for part in constant["path"].split("::") if part.strip()]
            if (found := self.find(item, segments, constant["name"], "const")) and found is not item:
                item.uses.add(found)

    def ours(self, item, segments):
        """Whether a path leads to something of this repository."""
        file = self.files[item.crate, item.module]
        first = file.brought.get(segments[0], segments)[0]
        return first in self.listed or first in file.modules or first in file.types or first in ("crate", "self", "super", "Self")

    def reached(self, start, through=lambda item: True):
        """What is used from the items given, by way of items that `through` lets pass."""
        found, left = set(), list(start)
        while left:
            for used in left.pop().uses:
                if used not in found:
                    found.add(used)
                    if through(used):
                        left.append(used)
        return found

    def programs(self):
        return [item for item in self.items if item.name == "main" and not item.module and item.file == "src/main.rt"]

    def public(self, crate):
        """The functions that a library shows."""
        return [item for item in self.items if item.crate == crate and item.kind == "fn" and item.public and self.files[crate, ()].file == "src/lib.rt"]

    def owners(self, item):
        """Who uses an item: the public functions of its crate, by way of what is private there, and those of other crates that name it."""
        private = [other for other in self.items if other.crate == item.crate and not (other.public and other.kind == "fn")]
        users, left = set(), {item}
        while left:
            wanted = left.pop()
            for other in self.items:
                if wanted in other.uses and other not in users:
                    users.add(other)
                    if other in private:
                        left.add(other)
        return {user for user in users if user not in private}


@dataclass
class Edit:
    """A must-fail edit: what it says, its replacements, and the run that its `seen:` line names."""
    crate: str
    label: str
    path: Path
    says: str
    pairs: list
    seen: str

    def __str__(self):
        return f"{self.crate}/{self.label}"

    @property
    def of_code(self):
        return all(file.startswith("src/") for file, _, _ in self.pairs)

    def applied(self):
        """The texts with the edit made, by file, and the place of each replacement before it was made: rt's own rules."""
        texts, places = {}, []
        for file, old, new in self.pairs:
            text = texts.get(file)
            if text is None:
                text = (CRATES / self.crate / file).read_text(encoding="utf-8")
            if not old or text.count(old) != 1:
                raise ValueError(f"{self}: the old text {old!r} stands {text.count(old)} times in {file}")
            at = text.index(old)
            places.append((file, text, at, at + len(old)))
            texts[file] = text[:at] + new + text[at + len(old):]
        return texts, places


def read_edit(path):
    file, old, pairs, seen, says = "", "", [], "", ""
    for line in path.read_text(encoding="utf-8").splitlines():
        if line.startswith("file: "):
            file = line[6:]
        elif line.startswith("old: "):
            old = line[5:]
        elif line.startswith("new:"):
            pairs.append((file, old, line[4:].removeprefix(" ")))
        elif line.startswith("seen: "):
            seen = line[6:].strip()
        elif not says:
            says = line.strip()
    return Edit(path.parent.parent.name, path.stem, path, says, pairs, seen)


def edits():
    return [read_edit(path) for path in sorted(CRATES.glob("*/must-fail/*.edit"))]


def changed(edit):
    """What an edit of code changes: file, type, name and kind of each function or constant; None for a place in neither."""
    found = []
    for file, text, start, end in edit.applied()[1]:
        hit = [item for item in File(edit.crate, (), file, text).items if item.start < end and start < item.end]
        found += [(item.file, item.owner, item.name, item.kind) for item in hit] or [None]
    return found
