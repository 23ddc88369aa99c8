#!/usr/bin/env python3
"""Holds docs/PROMISES.md and docs/HANDBOOK.md to the crates.

    promises.py
    promises.py --lists    prints the lists of edits that stand in no row, as the page has to have them

Every public function of a library has a row in PROMISES with its determination proof and at least two must-fail edits of code that
count for it: edits that change that function, or a private step or a constant that it alone uses. Every edit of code stands in a row or
under "Other edits of code", every edit of specs/ under "Edits of definitions"; every statement stands under a demand and on the page; and
no page names a statement, an edit or a proof that is not there. A determination proof takes two results that the function's own contract
allows for the same arguments and concludes that they are equal, and with them each buffer that was lent to be written. Only a function
that calls C or is lent a reader has the word `exception` for it, and is named under "Exceptions" with why. A part of the archive (a static
library) has no rows: each of its functions has the parameters and the contract of the library's function of its name, word for word, and
only calls it; and each function that a library has for C is in one part. The last line is `N cases, M faults`; the exit is 1 where there is
a fault.
"""

import re
import sys

from sources import CRATES, ROOT, Sources, archived, changed, edits

PAGE = (ROOT / "docs/PROMISES.md").read_text(encoding="utf-8")
HANDBOOK = (ROOT / "docs/HANDBOOK.md").read_text(encoding="utf-8")
cases, faults = 0, []


def hold(fact, fault):
    global cases
    cases += 1
    if not fact:
        faults.append(fault)
    return fact


def section(title, end):
    """The lines of the page under a heading or after a bold word, up to the next that ends it."""
    found = re.search(rf"^{re.escape(title)}.*?(?={end}|\Z)", PAGE, re.M | re.S)
    hold(found, f"PROMISES has no part {title!r}")
    return found[0] if found else ""


SOURCES = Sources()
for fault in SOURCES.faults:
    hold(False, fault)
LIBRARIES = [crate for crate in SOURCES.listed if SOURCES.files[crate, ()].file == "src/lib.rt" and crate not in archived()]
EDITS = {}
for edit in edits():
    EDITS.setdefault(edit.crate, {})[edit.label] = edit


# ---- determination proofs

KIT = {
    "Lfts": ["contract.Lifetimes"],
    "AtExit": ["denote.Triple.Clauses"],
    "Dens": ["borrow.Fn.Kinds"],
    "res_t": ["borrow.Fn.Kinds"],
    "ended_of": ["borrow.Fn.Kinds"],
    "◌≡◌": ["mathlib.Core.Path", "Rattle.std.proofs.Common", "Rattle.std.specs.Prelude"],
}
THEOREM = re.compile(
    r"\(κs : Lfts (?P<n>\d+)\) \(a : Dens κs (?P<k>\S+)\.ps\) \((?P<r>[a-z]+)₁ (?P=r)₂ : \(res_t (?P=k)\.r κs\)\.Denot\)"
    r" \((?P<x>[a-z]+)₁ (?P=x)₂ : AtExit \(ended_of (?P=n) (?P=k)\.ps (?P=k)\.r\) κs\)"
    r" → (?P<reads>\S+)\.Post κs a (?P=r)₁ (?P=x)₁ → (?P=reads)\.Post κs a (?P=r)₂ (?P=x)₂ → (?P<so>.*)"
)


def conjuncts(told):
    """The parts of a statement `(A) × (B) × ..`, or the statement alone."""
    parts, depth, at = [], 0, 0
    for n, letter in enumerate(told):
        depth += (letter == "(") - (letter == ")")
        if letter == "×" and depth == 0:
            parts.append(told[at:n])
            at = n + 1
    parts = [part.strip() for part in [*parts, told[at:]]]
    return [part[1:-1].strip() if len(parts) > 1 and part.startswith("(") and part.endswith(")") else part for part in parts]


class Determined:
    """The determination proofs of a crate: what each says, and which modules its names stand for."""

    def __init__(self, crate):
        self.crate, self.says, self.names, self.odd = crate, {}, {}, []
        file = CRATES / crate / "proofs" / "Determined.antt"
        text = file.read_text(encoding="utf-8") if file.exists() else ""
        text = re.sub(r"\{-.*?-\}", " ", text, flags=re.S)
        text = re.sub(r"--[^\n]*", "", text)
        brought = {}
        for line in re.findall(r"^use (.*)$", text, re.M):
            if alias := re.fullmatch(r"(\S+) as (\S+)", line.strip()):
                self.names[alias[2]] = alias[1]
            elif group := re.fullmatch(r"(\S+)\.\{(.*)\}", line.strip()):
                for name in group[2].split(","):
                    brought[name.strip().split(" as ")[-1]] = group[1] if " as " not in name else None
            else:
                self.odd.append(f"use {line}")
        text = re.sub(r"^use .*$", "", text, flags=re.M)
        for name, module in brought.items():
            if name in KIT and module not in KIT[name]:
                self.odd.append(f"{name} from {module}")
        # what stands at the start of a line: `pub NAME_determined : TYPE`, indented lines of it, and its equation
        for part in re.split(r"\n(?=\S)", text.strip()):
            part = " ".join(part.split())
            if told := re.fullmatch(r"pub (\S+_determined) : (.*)", part):
                self.says[told[1]] = told[2]
            elif part and not re.match(r"\S+_determined ", part):
                self.odd.append(part[:60])

    def fault(self, function, name):
        """Why a theorem does not say that the contract determines a function's answer, or None."""
        told = THEOREM.fullmatch(self.says[name])
        if not told:
            return "is not of the form that two results which the contract allows for the same arguments are equal"
        path = ".".join(part for part in (function.owner, function.name) if part)
        root = f"Rattle.{self.crate}.proofs.{path}"
        for used, module in ((told["k"], "Kinds"), (told["reads"], "Reads")):
            if self.names.get(used) != f"{root}.{module}":
                return f"speaks of {self.names.get(used, used)}, not of {root}.{module}"
        if told["r"] == told["x"]:
            return "has one name for results and buffers"
        parts = set(conjuncts(told["so"]))
        _, result, wanted = parted(function.head)
        both = [f"{told['r']}₁", f"{told['r']}₂"]
        if result and " ≡ ".join(both) not in parts:
            # a part of a lent buffer is the same part if it has the same bytes at the same place
            if not result.startswith("&") or not {f"{both[0]}.{of} ≡ {both[1]}.{of}" for of in ("now", "ref_ptr")} <= parts:
                return "does not conclude that the results are equal"
        for at in wanted:
            place = ".1" * at + ".0"
            if f"{told['x']}₁{place}.now ≡ {told['x']}₂{place}.now" not in parts:
                return f"does not conclude that what parameter {at + 1} lends is left the same"
        if not result and not wanted:
            return "has nothing to conclude"
        return None


def parted(head):
    """A function's parameters, its result's type, and which parameters are lent to be written."""
    start = head.index("(")
    depth, at, parameters = 0, start + 1, []
    for place in range(start, len(head)):
        depth += (head[place] in "([<") - (head[place] in ")]>" and head[place - 1] != "-")
        if (head[place] == "," and depth == 1) or depth == 0:
            parameters += [head[at:place].strip()] if head[at:place].strip() else []
            at = place + 1
        if depth == 0:
            break
    result = re.match(r"\s*->\s*(.*?)\s*(?:\b(?:requires|ensures)\b|$)", head[place + 1:], re.S)
    lent = [n for n, parameter in enumerate(parameters) if re.search(r"(^|:)\s*&\s*(?:'\w+\s+)?mut\b", parameter)]
    return parameters, result[1] if result else "", lent


# ---- the rows of the public functions

def counts(edit, function):
    """Whether an edit of code changes a function, or only steps and constants that it alone uses."""
    for place in PLACES[edit.crate, edit.label]:
        if place is None:
            return False
        file, owner, name, kind = place
        item = next((i for i in SOURCES.items if (i.crate, i.file, i.owner, i.name, i.kind) == (edit.crate, file, owner, name, kind)), None)
        if item is None:
            return False
        if item is not function and ((item.public and item.kind == "fn") or SOURCES.owners(item) != {function}):
            return False
    return True


PLACES = {}
for found in EDITS.values():
    for edit in found.values():
        try:
            PLACES[edit.crate, edit.label] = changed(edit) if edit.of_code else []
        except (ValueError, OSError) as fault:
            hold(False, str(fault))
            PLACES[edit.crate, edit.label] = [None]


def asks_outside(function):
    return any(item.asks_outside for item in SOURCES.reached([function]) | {function})


ROW = re.compile(r"^\| `(\w+)::([\w:]+)` \|.*$", re.M)
exceptions = section("**Exceptions.**", r"^## ")
table = section("## Public functions", r"^## |^\*\*Other edits of code")
rows = {}
for found in ROW.finditer(table):
    name = f"{found[1]}::{found[2]}"
    hold(name not in rows, f"{name} has two rows")
    rows[name] = [cell.strip() for cell in re.split(r"(?<!\\)\|", found[0])[1:-1]]
standing = {}
total = 0
for crate in LIBRARIES:
    public, determined, used = SOURCES.public(crate), Determined(crate), set()
    total += len(public)
    for odd in determined.odd:
        hold(False, f"{crate}: Determined.antt has {odd!r}, which this check does not know")
    for function in public:
        path = "::".join(part for part in (*function.module, function.owner, function.name) if part)
        name = f"{crate}::{path}"
        cells = rows.get(name)
        if not hold(cells, f"{name} has no row"):
            continue
        if not hold(len(cells) == 4, f"{name}: the row has {len(cells)} cells, not 4"):
            continue
        hold(len(cells[1]) > 10, f"{name}: the row says no promise")
        told = re.findall(r"\(`(\w+)`\)", cells[2])
        for label in told:
            edit = EDITS.get(crate, {}).get(label)
            if hold(edit, f"{name}: there is no edit {label} in {crate}") and hold(edit.of_code, f"{name}: {label} is an edit of specs/, no wrong program"):
                standing.setdefault((crate, label), []).append(name)
        good = [label for label in dict.fromkeys(told) if label in EDITS.get(crate, {}) and EDITS[crate][label].of_code and counts(EDITS[crate][label], function)]
        hold(len(good) >= 2, f"{name}: {len(good)} of its edits count ({', '.join(good) or 'none'}): they change the function or a step that it alone uses; two are needed")
        if cells[3] == "exception":
            hold(asks_outside(function), f"{name}: calls no C and is lent no reader, so its answer can be determined")
            hold(f"`{name}`" in exceptions, f"{name}: stands under no exceptions")
            continue
        proof = re.fullmatch(r"`([^`]+)`", cells[3])
        if hold(proof, f"{name}: the row names no determination proof") and hold(proof[1] in determined.says, f"{name}: there is no proof {proof[1]} in {crate}/proofs/Determined.antt"):
            hold(proof[1] not in used, f"{name}: the proof {proof[1]} stands in another row")
            used.add(proof[1])
            fault = determined.fault(function, proof[1])
            hold(fault is None, f"{name}: {proof[1]} {fault}")
    for proof in sorted(set(determined.says) - used):
        hold(False, f"{crate}: {proof} stands in no row")
for name in rows:
    crate, _, path = name.partition("::")
    hold(crate in LIBRARIES and path in {"::".join(p for p in (*f.module, f.owner, f.name) if p) for f in SOURCES.public(crate)}, f"{name} is no public function")


# ---- the parts of the archive

def told_of(head):
    """A function's head by its words, without what says that it is for C."""
    return re.sub(r"\s+", "", head.replace('extern " "', " ")).replace(",)", ")")


exported = {}
for crate in archived():
    for item in (item for item in SOURCES.items if item.crate == crate):
        name = f"{crate}::{item.name}"
        if not hold(item.kind == "fn" and item.public and 'extern "' in item.head, f"{name} is not for C, and stands in a part of the archive"):
            continue
        hold(item.name not in exported, f"{name} is in {exported.get(item.name)} too")
        exported[item.name] = crate
        called = [other for other in item.uses if other.name == item.name]
        if hold(len(called) == 1, f"{name} calls no function of its name"):
            parameters = ", ".join(parameter.partition(":")[0].strip() for parameter in parted(item.head)[0])
            call = f"{{ {called[0].crate}::{item.name}({parameters}) }}"
            hold(" ".join(item.body.split()) == call, f"{name} does more than `{call}`")
            hold(told_of(item.head) == told_of(called[0].head), f"{name} has not the parameters and the contract of {called[0]}")
for crate in LIBRARIES:
    for function in SOURCES.public(crate):
        if function.name.startswith("oatlantern_"):
            hold(function.name in exported, f"{function} is in no part of the archive")
hold(exported, "no function is for C")


# ---- the edits that stand in no row

def listed(part):
    """The edits that a list names, a line for each crate: - `crate`: `edit`, `edit`."""
    found = []
    for line in re.findall(r"^- `(\w+)`: (.*)$", part, re.M):
        found += [(line[0], label) for label in re.findall(r"`(\w+)`", line[1])]
    return found


if sys.argv[1:] == ["--lists"]:
    for crate, found in sorted(EDITS.items()):
        if labels := [f"`{label}`" for label, edit in found.items() if edit.of_code and (crate, label) not in standing]:
            print(f"- `{crate}`: {', '.join(labels)}")
    for crate, found in sorted(EDITS.items()):
        if told := [f"{edit.says.rstrip('.')} (`{label}`)" for label, edit in found.items() if not edit.of_code]:
            print(f"- `{crate}`: {'; '.join(told)}")
    sys.exit()
other = listed(section("**Other edits of code.**", r"^\*\*(?!Other)|^## "))
of_specs = listed(section("## Edits of definitions", r"^## "))
for where, wanted in ((other, True), (of_specs, False)):
    for crate, label in where:
        edit = EDITS.get(crate, {}).get(label)
        if hold(edit, f"PROMISES names the edit {label} of {crate}, which is not there"):
            hold(edit.of_code == wanted, f"{crate}/{label} is an edit of {'code' if edit.of_code else 'specs/'}, and stands among the others")
for crate, found in EDITS.items():
    for label, edit in found.items():
        places = ((crate, label) in standing) + other.count((crate, label)) + of_specs.count((crate, label))
        hold(places, f"{crate}/{label} is not on the page")
        hold(places < 2, f"{crate}/{label} stands in two lists")


# ---- the statements

def stated(crate):
    return "\n".join(file.read_text(encoding="utf-8") for file in sorted((CRATES / crate / "specs").glob("*.antt")))


# a type of answers, `NAME = Result ..`, states nothing
STATEMENT = re.compile(r"^(?:unfoldable |abbrev )pub ([A-Z]\w+) : Type 0$(?!\n\1 = (?:Result|Option|ControlFlow)\b)", re.M)
# the rooms that state promises: `promises`, and each that has a Promised.antt
ROOMS = ["promises", *(crate for crate in LIBRARIES if (CRATES / crate / "specs/Promised.antt").exists())]
statements = set(STATEMENT.findall("\n".join(stated(crate) for crate in ROOMS)))
demands = (CRATES / "promises/specs/Demands.antt").read_text(encoding="utf-8")
gathered = set(re.findall(r"^  +pub [a-z_]+ : ([A-Z]\w+)$", demands, re.M))
proved = (CRATES / "promises/proofs/Demands.antt").read_text(encoding="utf-8")
hold(gathered, "no statement stands under the demands")
hold(len(gathered) == len(re.findall(r"^      [a-z_]+ = ", proved, re.M)), "a statement under the demands has no proof")
for statement in sorted(statements):
    hold(statement in gathered, f"{statement} is under no demand, so nothing asks for its proof")
for statement in gathered:
    hold(f"`{statement}`" in PAGE, f"{statement} is not on the page")
for statement in re.findall(r"`([A-Z][a-z]+(?:[A-Z][a-z]+)+)`", PAGE[:PAGE.index("## Public functions")]):
    hold(statement in statements, f"PROMISES names {statement}, which is no statement")
claims = re.findall(r"\*\(([^)*]+)\)\*", HANDBOOK)
hold(claims, "HANDBOOK names no statement")
for claim in claims:
    for statement in re.split(r"[,;] ", claim):
        hold(statement in statements, f"HANDBOOK names {statement}, which is no statement")

for fault in faults:
    print(fault)
code = sum(edit.of_code for found in EDITS.values() for edit in found.values())
print(f"{total} public functions, {code} edits of code, {len(gathered)} statements under the demands: {cases} cases, {len(faults)} faults")
sys.exit(1 if faults or not cases else 0)
