#!/usr/bin/env python3
"""Holds numbers and listings in prose to the definitions and to what the programs print.

    prose.py                    the programs are those that `rt ci` or `rt run` and host/Makefile build
    prose.py --with PROGRAM     the independent program stands in for `list`, `hear`, `salvager`, `excite` and `sheet`, but where they are given an
                                argument; what the command `oatlantern` prints, and what is asked of a book, is passed over

Listings. In a code block of a page, and in an example of a manual page, a line `$ COMMAND` is followed by what it prints. Each command is
run and compared (of `make -C host && COMMAND` the second), but those of NOT_RUN, which show nothing, and those of a manual page that
show nothing (`rm` is run all the same: a page may begin a book anew). Standard error is shown too; a command may write below target/ and nowhere else. A line that looks like a listing's or a
change's and follows no command is a fault, and so is one in a sentence that nothing prints. A manual page's recordings are those of samples/.
Tables. The handbook's correction numbers, refusals and delays, and the tables of samples/README.md, are compared with the specs, the
place table and the files. So are sentences of a regular form: a place with its name, places that show a number, a frame and its time, the
length that four bytes are.
Names. A path or a `crate::name` that the README, the handbook, the samples' page or CHANGING names is there.
A page that must show what a program prints and does not, and a form of sentence that stands nowhere, is a fault too: so that rewording cannot let a
number go. A fault is named by file and line. The last line is `N cases`; the exit is 1 where there is a fault.
"""

import re
import subprocess
import sys
from itertools import combinations
from pathlib import Path

ROOT = Path(__file__).resolve().parent.parent
PAGES = ["README.md", "CHANGELOG.md", "docs/*.md", "docs/landings/*.md", "samples/README.md", "outside/*.md"]
MANUAL = ["host/*.1", "host/*.3"]
NAMING = ["README.md", "docs/HANDBOOK.md", "docs/CHANGING.md", "samples/README.md"]
SHOWING = {"README.md": ["list", "salvage", "tally", "decode"], "docs/HANDBOOK.md": ["list", "hear", "salvage", "excite", "sheet", "tally"],
           "samples/README.md": ["list", "salvage"], "host/oatlantern.1": ["list", "hear", "salvage", "excite", "decode", "tally"],
           "host/oatlantern-list.1": ["list"], "host/oatlantern-hear.1": ["hear"], "host/oatlantern-salvage.1": ["salvager"],
           "host/oatlantern-excite.1": ["excite"], "host/oatlantern-decode.1": ["oatlantern-decode"]}
NOT_RUN = re.compile(r"rt |\(cd crates/\w+ && rt |\.ci/run|cargo |make |cc |git |samples/make\.py |\.ci/prose\.py|python3 ")
RUN = re.compile(r"(\./run (?:target/host|crates/\w+/out)/\S+|oatlantern[ -]\w+|rm -f target/[\w-]+\.book|sqlite3 -readonly target/[\w-]+\.book|head|sed -n|cut|tail|od|wc|cmp|diff|printf|echo)(\b|$)")
TALLIED = (r"held \d+|total \d+|entries \d+|book \d+|(?:entered|already held|held|\d+) unit \d+ recording \d+ count \d+|not held unit \d+ recording \d+"
           r"|unit \d+ (?:recordings \d+ )?total \d+|entries \d+ total \d+|merged \d+ entered, \d+ already held, \d+ refused")
CHANGE = r"dropped \d+ bytes from \d+|kept \d+ frames|end written at \d+"
LISTING = re.compile(r"unit \d+ recording \d+ frames \d+|\d+ \d+ [cpd] (refused \d+|\d+ [01]( \d+){4})|repaired \d+ breaks \d+|refused \d+ at \d+( \d+)?"
                     rf"|frame \d+( \d+){{28}} .*|block( \d+){{3}}|\d+( [1-4])? refused \d+|\d+ [1-4]( -?\d+){{60}}|{CHANGE}|{TALLIED}")
independent = Path(sys.argv[2]).resolve() if sys.argv[1:2] == ["--with"] else None
cases, faults = 0, []


def hold(fact, file, line, fault):
    global cases
    cases += 1
    if not fact:
        faults.append(f"{file}:{line}: {fault}")


def read(path):
    return (ROOT / path).read_text(encoding="utf-8")


def pages(patterns):
    return [str(path.relative_to(ROOT)) for pattern in patterns for path in sorted(ROOT.glob(pattern))]


def lines_of(path):
    return list(enumerate(read(path).splitlines(), 1))


# ---- The definitions ----

def names_in(path, name):
    """The bits that a list of a spec names, in the standard's writing: PD 1 5 is PD(1)-5."""
    text = re.sub(r"--.*", "", re.search(rf"^{name} =\n(.*?)\[\]", read(path), re.M | re.S)[1])
    said = []
    for bit in text.split("∷")[:-1]:
        words = bit.split()
        said.append({1: "{0}", 2: "{0}-{1}", 3: "LSP {1}-{2}" if words[0] == "LSP" else "{0}({1})-{2}"}[len(words)].format(*words))
    return said


PLACES = names_in("crates/frame/specs/Places.antt", "places")
GUARDED = names_in("crates/frame/specs/Parity.antt", "guarded")
# of each case of a correction its letter, and what it adds to the C reader's result
LETTERS = dict(re.findall(r'^letter_of \(?(\w+)[^=]*= ascii "(.)"$', read("crates/lines/specs/Lines.antt"), re.M))
KINDS = dict(re.findall(r"^kind_of \(?(\w+)[^=]*= (\d+)$", read("crates/gateway/specs/Results.antt"), re.M))
NUMBER = {PLACES.index(name) + 1: n for n, name in enumerate(GUARDED, 1)}
LONGEST = int(re.search(r"^longest = (\d+)$", read("crates/blocks/specs/Walk.antt"), re.M)[1])


def cases_of(word):
    """What the definitions whose name has the word say of each case of an answer: {case: {what is said}}."""
    found = {}
    for spec in pages(["crates/*/specs/*.antt"]):
        for m in re.finditer(rf"^\w*{word}\w* \(?(?:Err \(?)?(?:\w+\.)?([A-Z]\w*)[^=]*= (.+)$", read(spec), re.M):
            if not spec.startswith("crates/promises/"):
                found.setdefault(m[1], set()).add(m[2])
    return found


# the refusals of salvaging and of the excitation have their numbers under the name number_of, those of the tally book under numbered
REFUSALS = {case: {int(n) for n in said if n.isdigit() and int(n)} for case, said in cases_of("(?:refusal|number_of|numbered)").items()}
REFUSALS = {case: numbers for case, numbers in REFUSALS.items() if numbers}
# a frame that is not read, since it is not eighteen bytes, has no case of its own
hold(REFUSALS.pop("None", None) == REFUSALS.get("WrongLength"), "crates/frame/specs/Answers.antt", 1, "what is not read has not the number of a wrong length")
TELLS = cases_of("(?:tells|told)")


# ---- Listings ----

def blocks(path):
    """The code blocks of a page, or the examples of a manual page: lists of (line number, text)."""
    block, fenced, found = [], False, []
    for n, line in lines_of(path):
        if path.startswith("host/"):
            inside = fenced and line != ".fi"
            fenced = line == ".nf" or (fenced and line != ".fi")
            line = line.replace("\\-", "-").replace("\\e", "\\").strip()
        elif line.startswith("```"):
            inside, fenced = False, not fenced
        else:
            inside = fenced or line.startswith("    ")
            line = line if fenced else line[4:]
        if inside and line != ".nf":
            block.append((n, line))
        elif block:
            found.append(block)
            block = []
    return found + ([block] if block else [])


def built(command):
    """The command with the programs where they are built."""
    command = re.sub(r"\boatlantern-(list|hear|excite)\b", r"./run crates/\1/out/\1", command)
    command = re.sub(r"\boatlantern-salvage\b", r"./run crates/salvager/out/salvager", command)
    command = re.sub(r"(?<!/)\boatlantern-(decode|encode)\b", r"./run target/host/oatlantern-\1", command)
    return re.sub(r"(?<![/\w-])oatlantern (?=\w)", "./run target/host/oatlantern ", command)


def stood_in(command):
    """The same with the independent program, where there is one, for those that it stands in for."""
    return re.sub(r"\./run (?:target/host/oatlantern |crates/\w+/out/)(list|hear|salvage|excite|sheet)r?\b", rf"{independent} \1", command) if independent else command


def said_by(command):
    """The lines that a command writes, standard error among them."""
    ran = subprocess.run(["sh", "-c", f"({stood_in(command)}) 2>&1"], cwd=ROOT, stdout=subprocess.PIPE)
    return ran.stdout.decode("utf-8", "replace").splitlines()


def file_of(path, command):
    """The command with the recordings of a manual page looked for in samples/."""
    return re.sub(r"(< ?)([\w-]+\.rec)\b", r"\1samples/\2", command) if path.startswith("host/") else command


showing = set()
SAID = [*(f"samples/*.{suffix}" for suffix in ("list", "hear", "excite", "changes", "said")), "crates/sheet/stdout"]
printed = {line for path in pages(SAID) for line in read(path).splitlines()}
for path in pages(PAGES) + pages(MANUAL):
    for block in blocks(path):
        asked = [i for i, (_, line) in enumerate(block) if line.startswith("$ ")]
        for n, line in block[:asked[0] if asked else len(block)]:
            hold(not LISTING.fullmatch(line.strip()), path, n, "a listing that follows no command")
        for i, j in zip(asked, asked[1:] + [len(block)]):
            n, command = block[i][0], re.sub(r"^make -C host && ", "", block[i][1][2:])
            shown = [line for _, line in block[i + 1:j]]
            while shown and not shown[-1].strip():
                shown.pop()
            if NOT_RUN.match(command) or (path.startswith("host/") and not shown and not command.startswith("rm ")):
                hold(not shown, path, n, "shows what a command prints that is not run here")
                continue
            if not all(RUN.match(part.strip()) for part in command.split("|")):
                hold(False, path, n, f"`{command}` is not a command that is known here")
                continue
            written = [file for file in re.findall(r">\s*([^\s&|]+)", command) if not re.match(r"target/[\w-]+\.rec$|/dev/null$", file)]
            hold(not written, path, n, f"`{command}` writes {written}")
            run = built(file_of(path, command))
            showing.update((path, program) for program in re.findall(r"\./run (?:target/host/oatlantern |target/host/(?=oatlantern-)|crates/\w+/out/)([\w-]+)", run))
            if written or independent and re.search(r"target/host/|target/[\w-]+\.(?:book|rec)|crates/\w+/out/(list|hear|excite|salvager?) +[^<>|\s]", run):
                # the independent program's words are not the command's, but what it lists is
                if not written and re.search(r"\| \./run target/host/oatlantern (list|hear|excite)$", run):
                    printed.update(said_by(run))
                continue
            got = said_by(run)
            printed.update(got)
            for k in range(max(len(got), len(shown))):
                is_shown, is_printed = (said[k] if k < len(said) else "nothing more" for said in (shown, got))
                hold(is_shown == is_printed, path, block[min(i + 1 + k, j - 1)][0], f"shows `{is_shown}`, but `{command}` prints `{is_printed}`")

for path, programs in SHOWING.items():
    for program in programs:
        hold((path, program) in showing, path, 1, f"shows nothing that {program} prints and that could be compared")
for path in pages(PAGES) + pages(MANUAL):
    for n, line in lines_of(path):
        for said in re.findall(rf"refused \d+ at \d+(?: \d+)?|{CHANGE}", line) + re.findall(r"`([^`]+)`", line):
            if LISTING.fullmatch(said):
                begun = said.startswith("frame ") and any(line.startswith(said + " ") for line in printed)
                hold(said in printed or begun, path, n, f"`{said}`: no recording of samples/ and no command on a page prints that")
        for number in re.findall(r"\brefused (\d+)\b", line):
            hold(any(int(number) in numbers for numbers in REFUSALS.values()), path, n, f"there is no refusal {number}")
        if "1, 2, 4" in line:
            hold([n for n, name in enumerate(GUARDED, 1) if name.startswith("HP")] == [1, 2, 4, 8], path, n, "the parity bits have other numbers")

# the names that C has for refusals, in the header and on its page
IN_C = {"LENGTH": "WrongLength", "TOO_LARGE": "TooLarge", "FALLING": "Falling", "NOT_LISTED": "NotListed", "EXPANSION": "Expansion",
        "BLOCK": "UnknownKind", "HEADER_CUT": "HeaderCut", "PAST_END": "PastEnd", "WRONG_SIZE": "WrongSize", "NOTHING_KEPT": "NoHead",
        "OTHER_COUNT": "OtherCount", "FULL": "Full", "NOT_WHOLE": "NotWhole"}
# and for the kinds of a correction, with their letters
CASE_IN_C, told, named = {"CLEAN": "Clean", "PARITY_HIT": "Parity", "DATA_HIT": "Data"}, set(), None
for path in pages(["include/oatlantern.h", "host/oatlantern.3"]):
    for n, line in lines_of(path):
        for name, number in re.findall(r'OATLANTERN_REFUSED_([A-Z_]+)[\s="(]+(\d+)\b', line):
            hold(int(number) in REFUSALS.get(IN_C.get(name), ()), path, n, f"{name} is not refusal {number}")
        for name, number in re.findall(r"define OATLANTERN_(CLEAN|PARITY_HIT|DATA_HIT) (\d+)", line):
            hold(KINDS[CASE_IN_C[name]] == number, path, n, f"{name} is not {number}")
            told.add(name)
        for name, shown in re.findall(r"case OATLANTERN_(CLEAN|PARITY_HIT|DATA_HIT):|return '([cpd])';", line):
            named = name or named
            hold(not shown or LETTERS[CASE_IN_C[named]] == shown, path, n, f"{named} has not the letter {shown}")
hold(told == set(CASE_IN_C), "include/oatlantern.h", 1, f"defines {sorted(told)} of the kinds")


# ---- The handbook's tables ----

BOOK = "docs/HANDBOOK.md"


def table(path, heading):
    """The rows of the tables that have this heading: (line number, cells)."""
    inside, rows = False, []
    for n, line in lines_of(path):
        if line.startswith(heading):
            inside = True
        elif not line.startswith("|"):
            inside = False
        elif inside and not line.startswith("|---"):
            rows.append((n, [cell.strip() for cell in line.strip("|").split("|")]))
    return rows


NTH = {"1": "first", "2": "second", "3": "third", "4": "fourth"}


def repair(name):
    """What the repair does by the number of a guarded bit."""
    m = re.fullmatch(r"(PD|PG)\((\d)\)-(\d)", name)
    if not m:
        return "inverts SP" if name == "SP" else "changes no index; every bit is read as it came"
    top = ", the top bit," if (m[1], m[3]) in (("PD", "7"), ("PG", "4")) else ""
    return f"inverts bit {m[3]}{top} of the {NTH[m[2]]} quarter's {'delay' if m[1] == 'PD' else 'PG'}"


def letter(number):
    """The letter of a correction number."""
    return LETTERS["Clean" if number == 0 else "Parity" if GUARDED[number - 1].startswith("HP") else "Data"]


def numbers_in(said):
    """The numbers of a list of numbers and stretches, as `3, 5, 9 to 15`."""
    return [n for first, last in re.findall(r"(\d+)(?: to (\d+))?", said) for n in range(int(first), int(last or first) + 1)]


rows = table(BOOK, "| number | letter | guarded bit | place |")
wanted = [["0", f"`{letter(0)}`", "none", "none", "nothing; every bit is read as it came"]]
wanted += [[str(n), f"`{letter(n)}`", name, str(PLACES.index(name) + 1), repair(name)] for n, name in enumerate(GUARDED, 1)]
hold(len(rows) == len(wanted), BOOK, 1, f"{len(rows)} rows of correction numbers, not {len(wanted)}")
for (n, cells), row in zip(rows, wanted):
    for cell, right in zip(cells, row):
        hold(cell == right, BOOK, n, f"has `{cell}` where the definitions have `{right}`")

rows = table(BOOK, "| letter | numbers |")
hold([cells[0][1] for n, cells in rows] == list(LETTERS.values()), BOOK, 1, "the table of letters has not every letter in turn")
for n, cells in rows:
    hold(numbers_in(cells[1]) == [k for k in range(16) if letter(k) == cells[0][1]], BOOK, n, f"`{cells[0][1]}` has not the numbers {cells[1]}")

named = {}
for n, cells in table(BOOK, "| number | what is wrong | what it tells |"):
    case = re.search(r"<!-- (\w+) -->", cells[1])
    hold(case and case[1] in REFUSALS, BOOK, n, "names no case of a refusal")
    if case and case[1] in REFUSALS:
        named.setdefault(case[1], set()).add(int(cells[0]))
        hold(int(cells[0]) in REFUSALS[case[1]], BOOK, n, f"{case[1]} has number {REFUSALS[case[1]]}, not {cells[0]}")
        silent = TELLS.get(case[1], set()) <= {"[]", "Nothing"}
        hold(cells[2].startswith("nothing") == silent, BOOK, n, f"{case[1]} tells {'nothing' if silent else 'something'}")
for case, numbers in REFUSALS.items():
    hold(named.get(case) == numbers, BOOK, 1, f"the table of refusals lacks {case} with {sorted(numbers)}")

for n, cells in table(BOOK, "| twelfths | samples |"):
    twelfths = int(cells[0])
    for cell, right in ((cells[1], twelfths / 12), (cells[2], twelfths / 12 / 8)):
        digits = len(cell.partition(".")[2])
        hold(abs(float(cell) - right) <= 0.5000001 * 10 ** -digits, BOOK, n, f"{twelfths} twelfths: {cell} is not {right:.5f}")
    for times in re.findall(r"(\d+) times a second", cells[3]):
        hold(int(times) == round(8000 * 12 / twelfths), BOOK, n, f"{times} times a second is not {8000 * 12 / twelfths:.1f}")


# ---- Sentences of a regular form ----

WORDS = ("none", "one", "two", "three", "four", "five", "six", "seven", "eight")
NAME = r"(?:PD|PG|CI|CG)\(\d\)-\d|LSP \d+-\d|HP-\d|SP|SY"
VOICE = {n for n, name in enumerate(GUARDED, 1) if name[:2] in ("PD", "PG")}
left_wrong = min(len({a, b, a ^ b} & VOICE) for a, b in combinations(range(1, 16), 2))
pairs = {sum(a ^ b == n for a, b in combinations(range(1, 16), 2)) for n in range(1, 16)}


def whole(said):
    return int(said.replace(",", ""))


def shown_by(said):
    """The number that flips of the places named in a sentence show."""
    number = 0
    for place in re.findall(r"\d+", re.sub(rf"\((?:{NAME})\)", "", said)):
        number ^= NUMBER.get(int(place), 0)
    return number


def length_in(said):
    """The number that four bytes are, the lowest first."""
    return int.from_bytes(bytes.fromhex(said), "little")


# a form, and what is true in its place
SENTENCES = [
    (rf"\b(\d+) \(({NAME})\)", lambda place, name: PLACES[int(place) - 1] == name),
    (r"[Tt]he places ((?:(?!places).){1,60}?),?(?: which)? show number (\d+)", lambda said, number: shown_by(said) == int(number)),
    (r"frame (\d+) begins ([\d.]+) seconds", lambda frame, seconds: abs((int(frame) - 1) * 0.03 - float(seconds)) < 0.001),
    (r"(\d+) frames, ([\d.]+) seconds", lambda frames, seconds: abs(int(frames) * 0.03 - float(seconds)) < 0.001),
    (r"(?:lasts|times|which is) (0\.\d+) seconds", lambda seconds: float(seconds) == 0.03),
    (r"(?<!\+ )\b(\d+(?: \+ \d+)+) is (\d+)", lambda said, result: sum(map(int, said.split(" + "))) == int(result)),
    (r"\b((?:[0-9A-F]{2} ){3}[0-9A-F]{2}) is [^.]{1,40}, which is ([\d,]+)", lambda said, length: length_in(said) == whole(length)),
    (r"room for ([\d,]+) frames", lambda frames: whole(frames) == (LONGEST - 30) // 18),
    (r"any of (\w+) pairs of hit places", lambda count: pairs == {WORDS.index(count)}),
    (r"[Tt]wo hits among the fifteen always leave at least (\w+) bit of the voice wrong", lambda count: left_wrong == WORDS.index(count)),
    (r"\b(\d+) of the 144 places of a frame are not guarded", lambda count: int(count) == 144 - len(GUARDED)),
    (r"`samples/([\w-]+)\.rec`[^`.]*?(\d+) breaks?\b", lambda name, count: read(f"samples/{name}.list").rstrip().endswith(f" breaks {count}")),
    (r"(?:at most|[mM]ore than|has not) ([\d,]+) bytes", lambda most: whole(most) == LONGEST),
]
for form, holds in SENTENCES:
    found = 0
    for path in pages(PAGES) + pages(MANUAL):
        for n, line in lines_of(path):
            for m in re.finditer(form, line):
                found += 1
                hold(holds(*m.groups()), path, n, f"`{m[0]}` is not so")
    hold(found, BOOK, 1, f"no page has a sentence of the form {form}")


# ---- The samples' page ----

PAGE = "samples/README.md"
told = set()
for n, cells in table(PAGE, "| file | bytes |"):
    file = ROOT / "samples" / cells[0].strip("`")
    hold(file.exists(), PAGE, n, f"{cells[0]} is not there")
    if not file.exists():
        continue
    told.add(file.name)
    recording, listing = file.read_bytes(), file.with_suffix(".list").read_text(encoding="utf-8").splitlines()
    hold(int(cells[1]) == len(recording), PAGE, n, f"{file.name} has {len(recording)} bytes")
    for first, last, said in re.findall(r"[bB]ytes? (\d+)(?: to (\d+))? (?:is|are) `([0-9A-F ]+)`", cells[2]):
        right = recording[int(first):int(last or first) + 1].hex(" ").upper()
        hold(said == right, PAGE, n, f"{file.name} has {right} from byte {first}")
    hits = re.findall(r"frame (\d+) of `([\w-]+\.rec)` with places? ([\d, and]+) flipped", cells[2])
    if hits:
        whole = (ROOT / "samples" / hits[0][1]).read_bytes()
        flips = {(at - 20) // 18 * 144 + (at - 20) % 18 * 8 + q + 1 for at in range(len(whole)) for q in range(8)
                 if (whole[at] ^ recording[at]) >> (7 - q) & 1}
        said = {(int(frame) - 1) * 144 + int(place) for frame, _, places in hits for place in re.findall(r"\d+", places)}
        hold(flips == said, PAGE, n, f"{file.name}: the places flipped are others")
    for line in re.findall(r"`([^`]+)`", cells[3]):
        hold(line in listing, PAGE, n, f"`{line}` is no line of {file.stem}.list")
    hold(listing[0].startswith("refused") == (cells[3] == f"`{listing[0]}`"), PAGE, n, f"{file.name} stands in the other table")
    changes = file.with_suffix(".changes").read_text(encoding="utf-8").splitlines()
    said = cells[4] if len(cells) > 4 else ""
    hold(said == ", ".join(f"`{line}`" for line in changes), PAGE, n, f"{file.stem}.changes has {changes}")
    mended = bool(changes) and not changes[0].startswith("refused")
    hold(file.with_suffix(".salvaged").exists() == mended, PAGE, n, f"{file.stem}.salvaged is there or not, against {file.stem}.changes")
for n, cells in table(PAGE, "| calls | bytes |"):
    file = ROOT / "samples" / cells[0].strip("`")
    hold(file.exists(), PAGE, n, f"{cells[0]} is not there")
    if not file.exists():
        continue
    told.add(file.name)
    hold(int(cells[1]) == file.stat().st_size, PAGE, n, f"{file.name} has {file.stat().st_size} bytes")
    said = file.with_suffix(".said").read_text(encoding="utf-8").splitlines()
    hold(cells[3] == ", ".join(f"`{line}`" for line in said), PAGE, n, f"{file.stem}.said has {said}")
for file in pages(["samples/*.rec", "samples/*.calls"]):
    hold(Path(file).name in told, PAGE, 1, f"{file} is not on the page")


# ---- Names ----

for path in pages(NAMING):
    for n, line in lines_of(path):
        for said in re.findall(r"`((?:crates|docs|samples|outside|host|include|\.ci)/[^`\s]*)`", line):
            if not re.search(r"[<{]|\b[A-Z]{4,}\b(?!\.md)", said):
                hold(list(ROOT.glob(said.rstrip("/"))), path, n, f"`{said}` is not there")
        for crate, name in re.findall(r"`(\w+)::(?:\w+::)?(\w+)`", line):
            sources = pages([f"crates/{crate}/src/*.rt"])
            hold(any(re.search(rf"\b{name}\b", read(source)) for source in sources), path, n, f"`{crate}::{name}` is not there")

for fault in faults:
    print(fault)
print(f"{len(faults)} faults, {cases} cases")
sys.exit(1 if faults or not cases else 0)
