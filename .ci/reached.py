#!/usr/bin/env python3
"""Says which public functions of the libraries no program reaches that the gate runs.

    reached.py

The programs are the crates with a `main`, which `rt ci` runs and holds to their files `stdout`, and the C programs below, which call the
functions of the archive. What is in the archive stands in the parts that `gateway_c` and its like are, and they call the libraries.
From them the calls are followed through the sources. What the crate of exports of outside/belt names has to be there too: the gate does
not build it. The last line is `N cases, M faults`; the exit is 1 where a public function is not reached or a name is not there.
"""

import re
import sys

from sources import CRATES, ROOT, Sources, masked

# the C programs, each with the script of the gate that runs it
C_PROGRAMS = {
    "host/frames.c": "host/test.sh",
    "host/recordings.c": "host/test.sh",
    "host/tally.c": "host/test-book.py",
    "host/test-header.c": "host/test.sh",
    "outside/boundary/answers.c": "outside/boundary/compare.sh",
    "outside/boundary/sanitize.c": "outside/boundary/sanitize.sh",
}


def called_from_c(faults):
    """What the C programs call, each with the first program that does."""
    gate = (ROOT / ".ci/run").read_text(encoding="utf-8")
    found = {}
    for program, script in C_PROGRAMS.items():
        text = (ROOT / program).read_text(encoding="utf-8")
        if not re.search(rf"^(?:compare|run|pair|step) .*\b{re.escape(script)}\b", gate, re.M):
            faults.append(f"{program}: the gate does not run {script}")
        text = re.sub(r'/\*.*?\*/|//[^\n]*|"(?:\\.|[^"\\])*"', " ", text, flags=re.S)
        for name in re.findall(r"\b(oatlantern_\w+)\s*\(", text):
            found.setdefault(name, program)
    return found


def named_by_the_belt(listed, faults):
    """The names that the belt unit's exports take from the libraries, functions, types and their cases; those that are not there are faults."""
    exports = ROOT / "outside/belt/exports.txt"
    text, cases = masked(exports.read_text(encoding="utf-8")), {}
    names = {(crate, name) for crate, name in re.findall(r"\b([a-z]\w*)::(\w+)", text) if crate in listed}
    for crate, name in sorted(names):
        source = masked((CRATES / crate / "src/lib.rt").read_text(encoding="utf-8"))
        there = re.search(rf"\bpub (?:fn|struct|enum|const) {name}\b(?:[^{{;]*\{{([^}}]*)\}})?", source)
        if not there:
            faults.append(f"{exports.relative_to(ROOT)}: there is no {crate}::{name}")
        elif name[0].isupper():
            cases[name] = set(re.findall(r"\b[A-Z]\w*", there[1] or ""))
    asked = {(name, case) for name, case in re.findall(r"\b([A-Z]\w*)::([A-Z]\w*)", text) if name in cases}
    faults += [f"{exports.relative_to(ROOT)}: {name} has no case {case}" for name, case in sorted(asked) if case not in cases[name]]
    return len(names) + len(asked)


def main():
    sources = Sources()
    faults = list(sources.faults)
    programs = sources.programs()
    from_c = called_from_c(faults)
    archive = [item for item in sources.items if item.public and item.name in from_c and 'extern "' in item.head]
    reached = sources.reached(programs) | sources.reached(archive) | set(archive)
    cases = 0
    for crate in sources.listed:
        for function in sources.public(crate):
            cases += 1
            if function not in reached:
                unclear = sorted(str(item) for item in reached if function in item.unclear)
                told = f"; `.{function.name}(` in {', '.join(unclear)} may mean it or another" if unclear else ""
                faults.append(f"{function} is reached by no program{told}")
    cases += named_by_the_belt(sources.listed, faults)
    for fault in faults:
        print(fault)
    print(f"programs: {', '.join(item.crate for item in programs)}, {', '.join(C_PROGRAMS)}")
    print(f"public functions and the belt unit's names: {cases} cases, {len(faults)} faults")
    return 1 if faults or not cases else 0


if __name__ == "__main__":
    sys.exit(main())
