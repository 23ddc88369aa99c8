#!/usr/bin/env python3
"""Shows that each must-fail edit of code is a wrong program: with it, a program prints something else than it should.

    wrong.py [--find] [--since COMMIT] [--jobs N] [--outside PROGRAM] [CRATE | CRATE/EDIT ..]

An edit is made in copies of the crate and of those above it, up to a program that uses what it changes, and that program is run, unproved, by
`rt try`. What counts is what the compiled program does: it writes something else. The edit file names the run:

    seen: list                         the program on its own `stdin`, held to its own `stdout`
    seen: list samples/cut.rec         on a recording of samples/, held to the file of the program's name beside it
    seen: list recordings/00253.rec    on a recording that the independent program makes, held to what it says of it
    seen: salvager samples/dropped.rec held to two files beside it, for standard output and for standard error
    seen: exchange cases/others        on cases that the independent program makes and that are not stored, held to what it says of them
    seen: leaves, does not end         the run has to be ended by the bound of `rt try`
    seen: leaves, is stopped           `rt try` stops the program, since what it does has no meaning (a sum that does not fit), or the program
                                       ends with another status than 0

A line that says no more than the run is true where the program prints something else, is stopped or does not end: the right program, which
runs beside it, does neither. An edit without a line that is true is a fault; --find looks for a run among all there are, and writes the line. Every run that was used is made of the right program too, as `rt ci` built it, which has to print what it should. With --since
only the edits of crates are tried that changed after COMMIT. Edits of specs/ change what is promised, so they are no wrong programs and are
not tried.

`rt try` compiles the kit's own library each time, which is most of what it takes. So the wrong programs of many edits are one: each is a
variant, with copies of its own of what the edit changes and of all that stands above it, and the first argument of a run says which variant
runs. The last line is `N cases, M faults`; the exit is 1 if there are faults or no cases.
"""

import argparse
import os
import re
import shutil
import subprocess
import sys
import tempfile
import time
from concurrent.futures import ThreadPoolExecutor
from pathlib import Path

from sources import CRATES, ROOT, Sources, below, changed, edits

RECORDINGS, SEED = 560, 1
SECONDS = 10  # how long a variant may run
TOGETHER = 20  # how many variants are compiled together
# what is stored beside a recording of what a program writes to standard output and to standard error, and the independent program's word for
# it; a program that is not named here has a file of its own name, and nothing to say
TOLD = {"salvager": ("salvaged", "changes", "salvage")}
# what a variant of a program does otherwise than the program: it takes the next argument for its first, and tells the changes behind the result
TURNED = {"": [("rt.arg(1, ", "rt.arg(2, ")], "salvager": [("tell(&mut rt.stderr(), salvaged)", "tell(&mut rt.stdout(), salvaged)")]}
RIGHT, ELSE, ENDLESS, STOPPED = "prints the right thing", "prints something else", "does not end", "is stopped"
MAIN = """// One wrong program of many: the first argument says which.
use std::env::Env;

fn main(rt: HostRuntime) {{
    let mut word = [48u8; 4];
    let long = rt.arg(1, &mut word).unwrap_or(0);
    let mut n = 0usize;
    let mut i = 0;
    while i < long && i < 4 {{
        n = 10 * n + (word[i] as usize - 48);
        i += 1;
    }}
    match n {{
{arms}        _ => {{}}
    }}
}}
"""


class Runs:
    """The runs there are of each program: the word for its input, the input, what has to be printed, and what has to be said."""

    def __init__(self, outside, folder, programs):
        self.folder, self.nothing = folder, folder / "nothing"
        self.nothing.write_bytes(b"")
        made = subprocess.run([outside, "recordings", folder / "recordings", str(RECORDINGS), str(SEED)], check=False) if outside else None
        if made is not None and made.returncode:
            sys.exit(f"{outside} recordings ended with status {made.returncode}")
        if outside:
            self.others(outside, folder / "cases")
        self.said = {program: self.told(outside, program) for program in TOLD if outside}
        self.of = {program: list(self.inputs(program)) for program in programs}

    def others(self, outside, folder):
        """Lays down the cases of the exchange that are not stored, and what is to be printed of them."""
        folder.mkdir()
        cases = subprocess.run([outside, "exchange-cases", "others"], capture_output=True, check=True).stdout
        (folder / "others").write_bytes(cases)
        (folder / "others.exchange").write_bytes(subprocess.run([outside, "exchange"], input=cases, capture_output=True, check=True).stdout)

    def told(self, outside, program):
        """What the independent program says to standard error of a program's own input, which is not stored."""
        said = self.folder / f"{program}.said"
        with (CRATES / program / "stdin").open("rb") as source:
            said.write_bytes(subprocess.run([outside, TOLD[program][2]], stdin=source, capture_output=True, check=True).stderr)
        return said

    def inputs(self, program):
        own = CRATES / program
        yield "", own / "stdin" if (own / "stdin").exists() else self.nothing, own / "stdout", self.said.get(program)
        if program == "exchange" and (others := self.folder / "cases/others").exists():
            yield "cases/others", others, others.with_suffix(".exchange"), None
        kept = sorted((ROOT / "samples").glob("*.rec"))
        made = sorted((self.folder / "recordings").glob("*.rec"), key=lambda path: (path.stat().st_size > 2500, -path.stat().st_size))
        told, said, _ = TOLD.get(program, (program, None, None))
        for path in kept + made:
            printed, changes = path.with_suffix(f".{told}"), said and path.with_suffix(f".{said}")
            if changes and not printed.exists():
                # samples/ has a result where a recording is mended: a refused one has none, and a sound one is its own
                printed = path if not changes.read_bytes() else self.nothing
            if printed.exists():
                yield f"{path.parent.name}/{path.name}", path, printed, changes

    def named(self, words):
        """The run that a `seen:` line names, or None."""
        program, _, data = words.partition(" ")
        return next(((program, *run) for run in self.of.get(program, []) if run[0] == data.strip()), None)


class Variants:
    """Wrong programs made of one program by some edits, compiled together."""

    def __init__(self, program, texts, listed, folder):
        self.program, self.folder, self.faults = program, folder, None
        whole = below(program, listed)
        (folder / "crates").mkdir(parents=True)
        lines = {}
        for n, changes in enumerate(texts):
            edited = {crate for crate, _ in changes} or {program}
            own = {crate for crate in whole if edited & below(crate, listed)}
            for crate in whole:
                name = f"{crate}_v{n}" if crate in own else crate
                if name not in lines:
                    self.copy(crate, name, own, n, changes)
                    lines[name] = [f"{use}_v{n}" if use in own else use for use in listed[crate]]
        arms = ""
        for n, changes in enumerate(texts):
            name = f"{program}_v{n}"
            asks = re.search(r"\bfn main\(\s*rt\b", (CRATES / program / "src/main.rt").read_text(encoding="utf-8"))
            arms += f"        {n} => {name}::main({'rt' if asks else ''}),\n"
        (folder / "crates/wrong/src").mkdir(parents=True)
        (folder / "crates/wrong/src/main.rt").write_text(MAIN.format(arms=arms), encoding="utf-8")
        lines["wrong"] = [f"{program}_v{n}" for n in range(len(texts))]
        (folder / "crates.txt").write_text("".join(f"{name}: {' '.join(uses)}\n" for name, uses in lines.items()), encoding="utf-8")

    def copy(self, crate, name, own, n, changes):
        """A crate under a name of its own, whose paths lead to the copies of the crates that have one."""
        source = CRATES / crate / "src"
        for path in sorted(source.rglob("*.rt")):
            file = path.relative_to(CRATES / crate)
            text = changes.get((crate, str(file))) or path.read_text(encoding="utf-8")
            if own:
                text = re.sub(rf"(?<![\w.:])({'|'.join(sorted(own, key=len, reverse=True))})(?=::)", rf"\1_v{n}", text)
            if path.name == "main.rt" and path.parent == source:
                file = file.with_name("lib.rt")
                text = re.sub(r"^fn main\(", "pub fn main(", text, flags=re.M)
                for old, new in TURNED[""] + TURNED.get(crate, []):
                    text = text.replace(old, new)
            place = self.folder / "crates" / name / file
            place.parent.mkdir(parents=True, exist_ok=True)
            place.write_text(text, encoding="utf-8")

    def run(self, cases):
        """What each of some cases, a variant and a run of it, comes to; None for all, and why, where they are not compiled."""
        inputs = self.folder / "cases"
        shutil.rmtree(inputs, ignore_errors=True)
        inputs.mkdir()
        for k, (n, (_, _, data, told, said)) in enumerate(cases):
            shutil.copy(data, inputs / f"{k:05}")
            (inputs / f"{k:05}.args").write_text(f"{n}\n", encoding="utf-8")
            (inputs / f"{k:05}.stdout").write_bytes(told.read_bytes() + (said.read_bytes() if said else b""))
        done = subprocess.run(["rt", "try", "--steps", "1", "--seconds", str(SECONDS), "--cases", str(inputs)], cwd=self.folder / "crates/wrong",
                              stdin=subprocess.DEVNULL, capture_output=True, check=False)
        said = done.stderr.decode(errors="replace") + done.stdout.decode(errors="replace")
        found = {int(case): rest for case, rest in re.findall(r"^case=(\d+) (.*)$", said, re.M)}
        if sorted(found) != list(range(len(cases))):
            return None, said
        return [self.meaning(found[k]) for k in range(len(cases))], ""

    def meaning(self, line):
        if line.startswith("run=no-answer"):
            return ENDLESS, line
        if not line.startswith("run=ended status=0"):
            return STOPPED, line
        return (ELSE if "output=differs" in line else RIGHT), line


def parted(seen):
    """The run of a `seen:` line and what it says is seen there."""
    run, comma, how = seen.partition(",")
    return run.strip(), how.strip() if comma else ELSE


class Trial:
    def __init__(self, runs, sources, folder):
        self.runs, self.listed, self.folder = runs, sources.listed, folder
        self.main = {item.crate: item for item in sources.programs()}
        self.reached = {program: {(i.crate, i.file, i.owner, i.name) for i in sources.reached([main])} for program, main in self.main.items()}

    def programs_for(self, edit):
        """The programs that use what an edit changes, those with the fewest libraries first."""
        places = {(edit.crate, *place[:3]) for place in changed(edit) if place}
        return sorted((p for p in self.main if places & self.reached[p] or p == edit.crate), key=lambda p: len(below(p, self.listed)))

    def variants(self, program, texts):
        return Variants(program, texts, self.listed, Path(tempfile.mkdtemp(dir=self.folder)))

    def together(self, program, wanted):
        """The lines to print for some edits that are seen in one program, each with whether it is a fault; beside them the right program runs."""
        said, tried, cases = [], [], []
        for edit in wanted:
            try:
                texts = {(edit.crate, file): text for file, text in edit.applied()[0].items()}
            except (ValueError, OSError) as fault:
                said.append((str(fault), True))
                continue
            run = self.runs.named(parted(edit.seen)[0])
            if not run:
                said.append((f"{edit}: there is no run {edit.seen}", True))
                continue
            cases.append((len(tried), run))
            tried.append((edit, texts))
        if not tried:
            return said
        used = sorted({run for _, run in cases}, key=str)
        try:
            shown, why = self.variants(program, [texts for _, texts in tried] + [{}]).run(cases + [(len(tried), run) for run in used])
        except OSError as fault:
            shown, why = None, str(fault)
        if shown is None:
            if len(tried) == 1:
                return said + [(f"{tried[0][0]}: is not compiled: {why.strip()[-300:]}", True)]
            half = len(wanted) // 2
            return self.together(program, wanted[:half]) + self.together(program, wanted[half:])
        for (edit, _), (found, line) in zip(tried, shown):
            how = parted(edit.seen)[1]
            fault = found == RIGHT if how == ELSE else found != how
            said.append((f"{edit}: {edit.seen}" + (f": but it {found}: {line}" if fault else f": {found}"), fault))
        said += [(f"the right program: {' '.join(run[:2])}: {found}: {line}", True) for run, (found, line) in zip(used, shown[len(tried):]) if found != RIGHT]
        return said

    def looked_for(self, edit):
        """The words of a run that shows an edit: one that prints something else, or else what there is."""
        texts = {(edit.crate, file): text for file, text in edit.applied()[0].items()}
        other = None
        for program in self.programs_for(edit):
            runs = [(program, *run) for run in self.runs.of[program]]
            shown, why = self.variants(program, [texts]).run([(0, run) for run in runs])
            if shown is None:
                sys.exit(f"{edit}: is not compiled: {why.strip()[-600:]}")
            for run, (found, _) in zip(runs, shown):
                words = " ".join(word for word in run[:2] if word)
                if found == ELSE:
                    return words
                if found != RIGHT:
                    other = other or f"{words}, {found}"
        return other


def write_seen(edit, words):
    lines = [line for line in edit.path.read_text(encoding="utf-8").splitlines() if not line.startswith("seen: ")]
    at = next(n for n, line in enumerate(lines) if line.startswith("file: "))
    edit.path.write_text("\n".join([*lines[:at], f"seen: {words}", *lines[at:]]) + "\n", encoding="utf-8")


def chosen(names, since):
    """The edits of code that were asked for."""
    found = [edit for edit in edits() if edit.of_code]
    if since:
        changes = subprocess.run(["git", "diff", "--name-only", since, "--", "crates"], cwd=ROOT, capture_output=True, text=True, check=True).stdout
        crates = {line.split("/")[1] for line in changes.splitlines()}
        found = [edit for edit in found if edit.crate in crates]
    for name in names:
        if not any(name in (edit.crate, str(edit)) for edit in found):
            sys.exit(f"{name}: no such edit of code")
    return [edit for edit in found if not names or edit.crate in names or str(edit) in names]


def main():
    parser = argparse.ArgumentParser(usage=__doc__)
    parser.add_argument("names", nargs="*")
    parser.add_argument("--find", action="store_true")
    parser.add_argument("--since")
    parser.add_argument("--outside", default=str(ROOT / "outside/target/release/outside"))
    parser.add_argument("--jobs", type=int, default=os.cpu_count())
    told = parser.parse_args()
    sources = Sources()
    wanted = chosen(told.names, told.since)
    faults, started = 0, time.time()
    with tempfile.TemporaryDirectory() as folder, ThreadPoolExecutor(told.jobs) as pool:
        folder = Path(folder)
        (folder / "recordings").mkdir()
        trial = Trial(Runs(told.outside, folder, [item.crate for item in sources.programs()]), sources, folder)

        def all_of(found):
            """The lines for some edits, by the program that shows each, so many together."""
            by = {}
            for edit in found:
                by.setdefault(parted(edit.seen)[0].partition(" ")[0], []).append(edit)
            groups = [(program, of[k : k + TOGETHER]) for program, of in by.items() for k in range(0, len(of), TOGETHER)]
            for lines in pool.map(lambda group: trial.together(*group) if group[0] in trial.main else [(f"{edit}: no run is named", True) for edit in group[1]], groups):
                yield from lines

        lines = list(all_of(wanted))
        if told.find:
            bad = [edit for edit in wanted if any(fault and said.startswith(f"{edit}:") for said, fault in lines)]
            for edit, words in zip(bad, pool.map(trial.looked_for, bad)):
                if words:
                    write_seen(edit, words)
            lines = [line for line in lines if not line[1]] + list(all_of([edit for edit in edits() if str(edit) in {str(it) for it in bad}]))
        for said, fault in lines:
            faults += fault
            print(("FAULT " if fault else "") + said, flush=True)
    print(f"{time.time() - started:.0f} s, edits of code tried: {len(wanted)} cases, {faults} faults")
    return 1 if faults or not wanted else 0


if __name__ == "__main__":
    sys.exit(main())
