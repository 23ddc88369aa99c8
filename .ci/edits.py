#!/usr/bin/env python3
"""Reads what `rt ci` said of each must-fail edit, and holds it to this: the edit is refused because a fact fails.

    edits.py [LOG]    LOG is what `rt ci` printed, target/gate/rt-ci.log if not said

rt tells apart what a refusal shows. An edit that cannot be applied, compiled or read is a BAD EDIT, and fails nothing there; it does here. So
does one that is refused only because a proof file names what the edit took away, or only by a limit of the prover: neither shows
anything of a contract. An edit that is still proved (NOT REFUSED) or was not tried fails in both. Each edit of the repository has to have its
line. That the edited program is a wrong one is not shown here but by running it: wrong.py. The last line is `N cases, M faults`; the exit is
1 where there is a fault or no case.
"""

import re
import sys
from pathlib import Path

from sources import ROOT, edits

TOLD = re.compile(r"^rt: must-fail (?P<edit>\S+)\.edit: (?P<said>.*)$", re.M)
REFUSED = "refused, as it must be"


def is_fact(said):
    """Whether what rt says of an edit is that a fact fails."""
    return said.startswith(f"{REFUSED}: ")


def main():
    if len(sys.argv) > 2:
        sys.exit(__doc__)
    log = Path(sys.argv[1] if len(sys.argv) == 2 else ROOT / "target/gate/rt-ci.log")
    told = {}
    for found in TOLD.finditer(log.read_text(encoding="utf-8", errors="replace")):
        told.setdefault(found["edit"], []).append(found["said"])
    names = [str(edit) for edit in edits()]
    faults = [f"{name}: {'; '.join(told.get(name, [])) or 'rt ci said nothing of it'}" for name in names
              if len(told.get(name, [])) != 1 or not is_fact(told[name][0])]
    faults += [f"{name}: rt ci tried it, and it is not there" for name in told if name not in names]
    for fault in faults:
        print(fault)
    print(f"what rt ci said of {len(names)} cases read, {len(faults)} faults")
    return 1 if faults or not names else 0


if __name__ == "__main__":
    sys.exit(main())
