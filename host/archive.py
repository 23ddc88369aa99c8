#!/usr/bin/env python3
"""Makes the archive for C, and the programs in Rattle: proves each of the crates with rt, and takes what rt makes of it.

    archive.py ARCHIVE CRATE..              beside the archive it leaves CRATE.o of each part, and what that was made from (CRATE.made)
    archive.py --programs FOLDER CRATE..    rt leaves each program as crates/CRATE/out/CRATE; what that was made from is left in FOLDER

rt is asked for a crate where the kit, the sources of the crate and of those below it, or what was made are other than when it was
made last; where a crate is not proved, what rt says is shown, and nothing is made. ARCHIVE is written only where it changes. AR names what
makes it.
"""

import fcntl
import hashlib
import os
import subprocess
import sys
from pathlib import Path

ROOT = Path(__file__).resolve().parent.parent
AR = os.environ.get("AR", "ar")


def listed():
    """The crates as crates.txt lists them, each with what it uses."""
    found = {}
    for line in (ROOT / "crates.txt").read_text(encoding="utf-8").splitlines():
        words, colon, uses = line.split("#")[0].partition(":")
        if colon:
            found[words.split()[0]] = uses.split()
    return found


def below(crate, uses):
    """A crate and all of this repository that it uses."""
    found, left = set(), [crate]
    while left:
        if (name := left.pop()) not in found and name in uses:
            found.add(name)
            left += uses[name]
    return sorted(found)


def sum_of(crate, kit, made):
    """A checksum of all that an object file is made from, and of the file."""
    uses = listed()
    told = hashlib.sha256(kit)
    for name in below(crate, uses):
        told.update(repr((name, uses[name])).encode())
        for path in sorted(path for part in ("src", "specs", "proofs") for path in (ROOT / "crates" / name / part).rglob("*") if path.is_file()):
            told.update(repr((str(path.relative_to(ROOT)), path.read_bytes())).encode())
    told.update(made.read_bytes() if made.is_file() else b"")
    return told.hexdigest()


def replace(path, data):
    """Writes a file, so that no one meets half of it."""
    new = path.with_name(path.name + ".new")
    new.write_bytes(data)
    os.replace(new, path)


def anew(crate, folder, kit, made, verb, take):
    """What rt makes of a crate: asks it by its verb where that has to be made anew, and takes it to its place."""
    stamp = folder / f"{crate}.made"
    if not stamp.is_file() or stamp.read_text(encoding="utf-8") != sum_of(crate, kit, made):
        stamp.unlink(missing_ok=True)
        made.unlink(missing_ok=True)
        before = sum_of(crate, kit, made)
        log = folder / f"{crate}.log"
        with log.open("wb") as out:
            done = subprocess.run(["rt", verb], cwd=ROOT / "crates" / crate, stdin=subprocess.DEVNULL, stdout=out, stderr=subprocess.STDOUT, check=False)
        if done.returncode:
            sys.exit(f"{log.read_text(encoding='utf-8', errors='replace')}\nhost/archive.py: {crate} is not proved, and nothing is made")
        take()
        if sum_of(crate, kit, Path(os.devnull)) == before:
            replace(stamp, sum_of(crate, kit, made).encode())
    return made


def part(crate, folder, kit):
    """The object file of a part of the archive."""
    made, library = folder / f"{crate}.o", ROOT / "crates" / crate / "out" / f"lib{crate}.a"

    def take():
        replace(made, subprocess.run([AR, "p", library, made.name], stdout=subprocess.PIPE, check=True).stdout)

    return anew(crate, folder, kit, made, "lib", take)


def program(crate, folder, kit):
    """A program, where rt leaves it. rt runs it too, on an empty input."""
    return anew(crate, folder, kit, ROOT / "crates" / crate / "out" / crate, "run", lambda: None)


def main():
    words = sys.argv[1:]
    programs = words[:1] == ["--programs"]
    if len(words) < 2 + programs:
        sys.exit(__doc__)
    archive, crates = Path(words[programs]).absolute(), words[1 + programs :]
    folder = archive if programs else archive.parent
    folder.mkdir(parents=True, exist_ok=True)
    kit = subprocess.run(["rt", "version"], stdout=subprocess.PIPE, check=True).stdout
    # one at a time, also where two of these run at once
    with (folder / "archive.lock").open("w") as lock:
        fcntl.flock(lock, fcntl.LOCK_EX)
        if programs:
            for crate in crates:
                program(crate, folder, kit)
            return
        parts = [part(crate, folder, kit) for crate in crates]
        new = archive.with_name(archive.name + ".new")
        new.unlink(missing_ok=True)
        subprocess.run([AR, "rcsD", new, *parts], check=True)
        if archive.is_file() and archive.read_bytes() == new.read_bytes():
            new.unlink()
        else:
            os.replace(new, archive)


if __name__ == "__main__":
    main()
