#!/usr/bin/env python3
"""Tries `oatlantern tally` on books in files: killed writers, many at once, locks, full and read-only disks, bad books.

    test-book.py COMMAND [SEED]    COMMAND is in the shell's words, as './run target/host/oatlantern'

The last line is how many checks there were; or the fault is told, and the status is 1. SEED makes the same choices again, but
not the same moments. Books are looked into, and bad ones are built, with Python's own SQLite, all in a temporary folder.
"""

import os
import random
import re
import resource
import shlex
import shutil
import signal
import sqlite3
import stat
import struct
import subprocess
import sys
import tempfile
import threading
import time
import zlib
from concurrent.futures import ThreadPoolExecutor, as_completed
from pathlib import Path

HERE = Path(__file__).resolve().parent
SAMPLES = HERE.parent / "samples"
KILLS = 300  # writers to kill, in two threads
WAIT = int(re.search(r"WAIT_SECONDS (\d+)", (HERE / "book.h").read_text())[1])  # how long a program waits for another
LARGEST = 4294967295
ROOM = 4096
APPLICATION = 0x4F41544C

COMMAND = []
SCHEMA = []  # the statements that make a book, taken from one that the command has made
counted = 0
counting = threading.Lock()
stopped = threading.Event()


class Fault(Exception):
    pass


def check(holds, *about):
    """Counts a check; what is about it is told where it does not hold."""
    global counted
    with counting:
        counted += 1
    if not holds:
        raise Fault(" ".join(str(a) for a in about))
    if stopped.is_set():
        raise Fault("stopped")


# ---- Running the command ----

class Answer:
    def __init__(self, words, status, out, err):
        self.words, self.status, self.out, self.err = words, status, out, err

    def __str__(self):
        return f"{' '.join(map(str, self.words))}: status {self.status}\n{self.out}{self.err}"


def tally(*words, **how):
    how = {"stdout": subprocess.PIPE, "stderr": subprocess.PIPE} | how
    done = subprocess.run(COMMAND + ["tally"] + [str(w) for w in words], stdin=subprocess.DEVNULL, timeout=120, **how)
    return Answer(words, done.returncode, (done.stdout or b"").decode(), (done.stderr or b"").decode())


def well(*words, out=None):
    """All went well, with nothing on standard error; answers what was printed."""
    answer = tally(*words)
    check(answer.status == 0 and answer.err == "", answer)
    check(out is None or answer.out == out, answer, "expected:", out)
    return answer.out


def fails(status, pattern, *words, **how):
    """Nothing was printed, and standard error is one line that matches."""
    answer = tally(*words, **how)
    check(answer.status == status and answer.out == "", answer, "expected status", status)
    check(re.fullmatch(f"oatlantern: {pattern}\n", answer.err) is not None, answer, "expected", pattern)


class Untouched:
    """Nothing in a folder is changed, made or removed meanwhile."""

    def __init__(self, folder):
        self.folder = folder

    def look(self):
        return {p.relative_to(self.folder): p.read_bytes() for p in self.folder.rglob("*") if p.is_file()}

    def __enter__(self):
        self.before = self.look()

    def __exit__(self, kind, *rest):
        if kind is None:
            after = self.look()
            check(after.keys() == self.before.keys(), "files in the folder:", list(self.before), "and then", list(after))
            check(after == self.before, "a file was changed in", self.folder)


# ---- Books, by Python's own SQLite ----

def connect(path):
    return sqlite3.connect(path, isolation_level=None, timeout=30)


def rows_of(entries):
    """Entries (unit, number, count) as rows, with their seals."""
    seal = 0
    for place, entry in enumerate(entries, 1):
        seal = zlib.crc32(struct.pack("<5I", seal, place, *entry))
        yield (place, *entry, seal)


def build(path, entries=(), rows=None, application=APPLICATION, version=1, schema=None, more=""):
    database = connect(path)
    database.executescript(f"BEGIN; PRAGMA application_id={application}; PRAGMA user_version={version};"
                           f"{';'.join(SCHEMA if schema is None else schema)}; {more}; PRAGMA ignore_check_constraints=ON;")
    database.executemany("INSERT INTO entries VALUES(?, ?, ?, ?, ?)", rows_of(entries) if rows is None else rows)
    database.execute("COMMIT")
    database.close()


def held_in(path):
    """The entries of a book, judged here, on a copy: what a crash left is rolled back there and not in the book itself."""
    with tempfile.TemporaryDirectory(dir=path.parent.parent) as folder:
        copy = Path(folder) / path.name
        shutil.copyfile(path, copy)
        if (journal := Path(f"{path}-journal")).exists():
            shutil.copyfile(journal, f"{copy}-journal")
        database = connect(copy)
        check(database.execute("PRAGMA integrity_check").fetchall() == [("ok",)], path, "is not whole")
        rows = database.execute("SELECT * FROM entries ORDER BY place").fetchall()
        totals = database.execute("SELECT * FROM totals").fetchall()
        database.close()
    entries = [row[1:4] for row in rows]
    check(rows == list(rows_of(entries)), path, "places or seals are wrong")
    check(len({e[:2] for e in entries}) == len(entries), path, "holds a key twice")
    check(totals == totals_of(entries), path, "its view has", totals)
    return entries


def totals_of(entries):
    totals = {}
    for unit, _, count in entries:
        recordings, total = totals.get(unit, (0, 0))
        totals[unit] = recordings + 1, total + count
    return [(unit, *totals[unit]) for unit in sorted(totals)]


def shown(entries):
    return "".join(f"{place} unit {u} recording {n} count {c}\n" for place, (u, n, c) in enumerate(entries, 1))


def shown_totals(entries):
    lines = "".join(f"unit {u} recordings {r} total {t}\n" for u, r, t in totals_of(entries))
    return f"{lines}entries {len(entries)} total {sum(e[2] for e in entries)}\n"


def name(path):
    return re.escape(str(path))


# ---- Killed writers ----

def killed(words, delay):
    """Starts a writer in a group of its own and kills the group; answers whether it was still running, and what it had told."""
    process = subprocess.Popen(COMMAND + ["tally"] + [str(w) for w in words], stdin=subprocess.DEVNULL, stdout=subprocess.PIPE,
                               stderr=subprocess.PIPE, start_new_session=True)
    time.sleep(delay)
    os.killpg(process.pid, signal.SIGKILL)
    out, err = process.communicate()
    check(err == b"" and process.returncode in (0, -signal.SIGKILL), words, process.returncode, err)
    return process.returncode != 0, out.decode()


def kill_writers(folder, seed, kills):
    choose = random.Random(seed)
    book, other, held, unit = folder / "book", folder / "other", [], 0
    dead = rounds = told = untold = hot = 0
    start = time.monotonic()
    well(folder / "first", "enter-key", 1, 2, 3)
    life = time.monotonic() - start
    while dead < kills:
        rounds += 1
        unit += 1
        check(rounds < 5 * kills, "only", dead, "writers could be killed")
        kind = choose.choices(["enter", "merge", "make"], [7, 2, 1])[0]
        new = [(unit, n, choose.randrange(100)) for n in range(1, 1 + (choose.randrange(20, 90) if kind == "merge" else 1))]
        target = folder / f"made-{unit}" if kind == "make" else book
        if kind == "merge":
            other.unlink(missing_ok=True)
            build(other, new)
            words = [target, "merge", other]
        else:
            words = [target, "enter-key", *new[0]]
        # over all of its life, and more often over its end, where it writes
        died, out = killed(words, choose.uniform(choose.choice([0, 0.4, 0.7]), 1.1) * life)
        dead += died
        # how long a life is depends on what else the machine does: some are to come to their end
        life *= 1.0125 if out == "" else 0.95
        line = (f"merged {len(new)} entered, 0 already held, 0 refused\n" if kind == "merge" else
                "entered unit {} recording {} count {}\n".format(*new[0]))
        check(out in ("", line), words, "told", out)
        hot += Path(f"{target}-journal").exists()
        before = [] if kind == "make" else held
        after = held_in(target) if target.exists() else before
        check(after == before + new or (after == before and out == ""), words, "told", repr(out), "but", before, "became", after)
        told += out != ""
        untold += out == "" and after != before
        if kind != "make":
            held = after
        if rounds % 10 == 0 and target.exists():
            well(target, "check", out=f"{target}: a book, {len(after)} entries\n")
        if len(held) > 1500:
            well(book, "show", out=shown(held))
            book.unlink()
            Path(f"{book}-journal").unlink(missing_ok=True)
            held = []
    well(book, "show", out=shown(held))
    well(book, "totals", out=shown_totals(held))
    well(book, "enter-key", 0, 0, 0)
    check(held_in(book) == held + [(0, 0, 0)], "the last entry led to", held_in(book))
    check(not Path(f"{book}-journal").exists(), "a journal is left")
    print(f"{dead} writers killed: {told} entries told before, {untold} held and not told, {hot} journals left to roll back")


def half_written(left, entries):
    """A book as the power leaves it: some pages are written, the journal of them is there, and nothing is committed."""
    book = left.parent / "whole"
    build(book, entries)
    database = connect(book)
    database.executescript("PRAGMA cache_size=1; BEGIN IMMEDIATE; UPDATE entries SET count = count + 1")
    shutil.copyfile(book, left)
    shutil.copyfile(f"{book}-journal", f"{left}-journal")
    database.execute("ROLLBACK")
    database.close()
    check(left.read_bytes() != book.read_bytes(), "nothing was half written")
    book.unlink()


def crash_in_writing(folder):
    left, spoiled, held = folder / "left", folder / "spoiled", [(1, n, n) for n in range(1, 700)]
    half_written(left, held)
    shutil.copyfile(left, spoiled)
    fails(1, f"{name(spoiled)}: no book: .*", spoiled, "check")
    check(held_in(left) == held, "it cannot be rolled back")
    well(left, "enter-key", 2, 1, 5, out="entered unit 2 recording 1 count 5\n")
    check(held_in(left) == held + [(2, 1, 5)], "it was not rolled back first")
    half_written(left, held)
    well(left, "show", out=shown(held))
    check(sorted(p.name for p in folder.iterdir()) == ["left", "spoiled"], "a journal is left")


def journal_alone(folder):
    """A journal that was left without its book would be rolled back into a new one."""
    book = folder / "book"
    for suffix in ["journal", "wal"]:
        Path(f"{book}-{suffix}").write_bytes(b"what was left")
        with Untouched(folder):
            fails(3, f"{name(book)}: a journal is there without its book, and would spoil a new one", book, "enter-key", 1, 2, 3)
        Path(f"{book}-{suffix}").unlink()


# ---- Many at once, and locks ----

def four_writers(folder):
    """The book is not there at first: they also make it at once."""
    book = folder / "book"

    def write(unit):
        for number in range(1, 13):
            entry = unit, number, unit * number
            well(book, "enter-key", *entry, out="entered unit {} recording {} count {}\n".format(*entry))

    with ThreadPoolExecutor(4) as pool:
        for writer in [pool.submit(write, unit) for unit in range(1, 5)]:
            writer.result()
    held = held_in(book)
    check(sorted(held) == [(u, n, u * n) for u in range(1, 5) for n in range(1, 13)], "four writers entered", held)
    for unit in range(1, 5):
        check([n for u, n, _ in held if u == unit] == list(range(1, 13)), "unit", unit, "out of order:", held)
    well(book, "totals", out=shown_totals(held))
    check([p.name for p in folder.iterdir()] == ["book"], "something is left beside the book")


class Holder:
    """Another program that has the book. It is a process of its own: a lock is lost where its process opens the file again."""

    def __init__(self, book, *statements):
        program = ("import sqlite3, sys\n"
                   "database = sqlite3.connect(sys.argv[1], isolation_level=None, timeout=30)\n"
                   "print([database.execute(sql).fetchall() for sql in sys.argv[2:]], flush=True)\n"
                   "sys.stdin.read()\n")
        self.process = subprocess.Popen([sys.executable, "-c", program, book, *statements], stdin=subprocess.PIPE,
                                        stdout=subprocess.PIPE)

    def __enter__(self):
        check(self.process.stdout.readline() != b"", "the book could not be locked")

    def __exit__(self, *_):
        self.process.communicate()


def held_long(folder):
    book = folder / "book"
    build(book, [(1, 1, 1)])
    with Holder(book, "BEGIN IMMEDIATE"):
        start = time.monotonic()
        with Untouched(folder):
            fails(3, f"{name(book)}: another program has held the book for {WAIT} seconds", book, "enter-key", 1, 2, 3)
        passed = time.monotonic() - start
        check(WAIT - 1 <= passed < WAIT + 5, "it waited for", passed, "seconds")
        well(book, "show", out=shown([(1, 1, 1)]))


def read_long(folder):
    """One that only reads keeps a writer from committing; and one that is writing to the file keeps readers out."""
    book = folder / "book"
    build(book, [(1, 1, 1)])
    for statements, words in [(["BEGIN", "SELECT * FROM entries"], ["enter-key", 1, 2, 3]), (["BEGIN EXCLUSIVE"], ["total", 1])]:
        with Holder(book, *statements), Untouched(folder):
            fails(3, f"{name(book)}: another program has held the book for {WAIT} seconds", book, *words)


def held_shortly(folder):
    book = folder / "book"
    build(book, [(1, 1, 1)])
    with ThreadPoolExecutor(1) as pool:
        with Holder(book, "BEGIN EXCLUSIVE"):
            writer = pool.submit(well, book, "enter-key", 1, 2, 3, out="entered unit 1 recording 2 count 3\n")
            time.sleep(1.5)
            check(not writer.done(), "the writer did not wait")
        writer.result()
    check(held_in(book) == [(1, 1, 1), (1, 2, 3)], "it was entered after the wait")


# ---- Disks that are full or read-only ----

class SmallDisk:
    """A disk of its own of some pages, where this may be mounted."""

    def __init__(self, folder, pages):
        self.folder, self.pages = folder, pages

    def mount(self, *words):
        return subprocess.run(["mount", *words, self.folder], capture_output=True, check=False).returncode == 0

    def __enter__(self):
        self.mounted = os.geteuid() == 0 and self.mount("-t", "tmpfs", "-o", f"size={4 * self.pages}k,mode=755", "tmpfs")
        return self

    def read_only(self):
        return self.mounted and self.mount("-o", "remount,ro")

    def __exit__(self, *_):
        if self.mounted and subprocess.run(["umount", self.folder], check=False).returncode != 0:
            subprocess.run(["umount", "-l", self.folder], check=False)


def full_disk(folder):
    book, other, disk = folder / "disk/book", folder / "other", folder / "disk"
    disk.mkdir()
    build(other, [(2, n, n) for n in range(1, 500)])
    with SmallDisk(disk, 24) as small:
        if not small.mounted:
            print("no disk could be mounted here: full disks are tried by a limit on files alone")
            return
        build(book, [(1, 1, 1)])
        filler, answers = disk / "filler", set()
        for pages in range(21, 8, -2):
            with open(filler, "wb") as file:
                file.write(bytes(4096 * pages))
            before = book.read_bytes()
            answer = tally(book, "merge", other)
            answers.add(answer.status)
            if answer.status == 0:
                check(answer.out == "merged 499 entered, 0 already held, 0 refused\n", answer)
                break
            check(answer.status == 3 and answer.out == "", answer)
            check(answer.err == f"oatlantern: {book}: database or disk is full\n", answer)
            check(book.read_bytes() == before and {p.name for p in disk.iterdir()} == {"book", "filler"}, "after a full disk")
        check(answers == {0, 3}, "full disks were answered by", answers)
        check(len(held_in(book)) == 500, "the merge")
        book.unlink()
        with open(filler, "wb", buffering=0) as file:
            while file.tell() < 4096 * 23:
                file.write(bytes(4096))
        with Untouched(disk):
            fails(3, f"{name(book)}: database or disk is full", book, "enter-key", 1, 2, 3)


def limited_files(folder):
    """No file may grow over a limit: of the book itself, or of its journal."""
    book, other = folder / "book", folder / "other"
    build(book, [(1, 1, 1)])
    build(other, [(2, n, n) for n in range(1, 500)])

    def limit(size):
        def set_limit():
            signal.signal(signal.SIGXFSZ, signal.SIG_IGN)
            resource.setrlimit(resource.RLIMIT_FSIZE, (size, size))
        return set_limit

    for size in [4096, 10000]:
        with Untouched(folder):
            fails(3, f"{name(book)}: disk I/O error: File too large", book, "merge", other, preexec_fn=limit(size))
    with Untouched(folder):
        new = folder / "new"
        fails(3, f"{name(new)}: disk I/O error: File too large", new, "enter-key", 1, 2, 3, preexec_fn=limit(2048))


def as_another(folder):
    """Root is bound by no permission: how a command is run as nobody, who can go to the folder; None where it cannot."""
    if os.geteuid() != 0:
        return {}
    for path in [folder, *folder.parents][:3]:
        path.chmod(0o755)
    how = {"user": 65534, "group": 65534, "extra_groups": []}
    runs = subprocess.run(COMMAND + ["--version"], capture_output=True, check=False, **how).returncode == 0
    return how if runs else None


def read_only(folder):
    """A disk that is read-only, or files and a folder that are."""
    disk, held = folder / "disk", [(1, n, n) for n in range(1, 700)]
    book, left, new = disk / "book", disk / "left", disk / "new"
    disk.mkdir()
    with SmallDisk(disk, 64) as small:
        half_written(left, held)
        build(book, [(1, 1, 1)])
        how = {}
        if not small.read_only():
            for path in [book, left, Path(f"{left}-journal")]:
                path.chmod(0o444)
            disk.chmod(0o555)
            how = as_another(folder)
            if how is None:
                print("no file can be made read-only here")
                return
        words = "(Read-only file system|Permission denied)"
        with Untouched(disk):
            answer = tally(book, "show", **how)
            check(answer.status == 0 and answer.out == shown([(1, 1, 1)]) and answer.err == "", answer)
            fails(3, f"{name(book)}: {words}", book, "enter-key", 1, 2, 3, **how)
            fails(3, f"{name(book)}: {words}", book, "merge", book, **how)
            fails(3, f"{name(new)}: {words}", new, "enter-key", 1, 2, 3, **how)
            fails(3, f"{name(left)}: a crash left it half written, .* while it is read-only", left, "show", **how)
        if not small.mounted:
            disk.chmod(0o755)


def read_only_folder(folder):
    """The file could be written, but no journal can stand beside it."""
    disk = folder / "disk"
    book, new = disk / "book", disk / "new"
    disk.mkdir()
    build(book, [(1, 1, 1)])
    book.chmod(0o666)
    disk.chmod(0o555)
    how = as_another(folder)
    if how is None:
        print("the command cannot be run as another here: no read-only folder was tried")
        return
    with Untouched(disk):
        fails(3, f"{name(book)}: its folder cannot be written, .*", book, "enter-key", 1, 2, 3, **how)
        fails(3, f"{name(new)}: Permission denied", new, "enter-key", 1, 2, 3, **how)
        answer = tally(book, "held", 1, 1, **how)
        check(answer.status == 0 and answer.out == "held unit 1 recording 1 count 1\n", answer)
    disk.chmod(0o755)


def output_fails(folder):
    book = folder / "book"
    with open("/dev/full", "wb") as full:
        answer = tally(book, "enter-key", 1, 2, 3, stdout=full)
    check(answer.status == 3 and answer.err == "oatlantern: standard output: No space left on device\n", answer)
    check(held_in(book) == [(1, 2, 3)], "what was not told may be held")


# ---- Files that are no books ----

def bad_books(folder):
    good = [(7, 1, 40), (7, 2, 41), (9, 1, 42)]
    rows = list(rows_of(good))

    def reseal(rows):
        return list(rows_of([r[1:4] for r in rows]))

    def with_(i, column, value):
        row = list(rows[i])
        row[column] = value
        return rows[:i] + [tuple(row)] + rows[i + 1:]

    def built(**how):
        return lambda path: build(path, **({"rows": rows} | how))

    def wal(path):
        build(path, good)
        database = connect(path)
        database.execute("PRAGMA journal_mode=WAL")
        database.close()

    def changed(place, value):
        def make(path):
            build(path, good)
            data = bytearray(path.read_bytes())
            data[place] = value
            path.write_bytes(data)
        return make

    def wal_beside(path):
        build(path, good)
        Path(f"{path}-wal").write_bytes(b"")

    gap = [(p if p < 3 else 4, u, n, c, zlib.crc32(struct.pack("<5I", rows[1][4], 4, u, n, c)) if p == 3 else s)
           for p, u, n, c, s in rows]
    wide = 1 << 32
    books = [
        ("it is no SQLite database", lambda path: path.write_text("7 1 40\n" * 40)),
        ("it is no SQLite database", lambda path: path.write_bytes(b"SQLite")),
        ("it is cut short", lambda path: path.write_bytes(b"SQLite format 3\0" + bytes(50))),
        ("it is empty", lambda path: path.write_bytes(b"")),
        ("it is a directory", lambda path: path.mkdir()),
        ("it is no regular file", os.mkfifo),
        ("another program's database", built(application=0)),
        ("another program's database", built(application=APPLICATION + 1)),
        ("it is of a version that this program does not know", built(version=2)),
        ("it is of a version that this program does not know", built(version=0)),
        ("its journal is not of a book's kind", wal),
        ("a write-ahead log stands beside it", wal_beside),
        ("its pages are not laid out as those of a book", changed(55, 2)),
        ("*** in database main *** Main freelist: size is 0 but should be 1", changed(39, 1)),
        ("its tables are not those of a book", built(schema=[SCHEMA[0]])),
        ("its tables are not those of a book", built(schema=[SCHEMA[0].replace("4096", "9096"), SCHEMA[1]])),
        ("its tables are not those of a book", built(schema=[SCHEMA[0], SCHEMA[1].replace("sum", "max")])),
        ("its tables are not those of a book", built(more="CREATE TABLE more(x)")),
        ("its tables are not those of a book", built(more="CREATE INDEX keys ON entries(unit)")),
        ("its tables are not those of a book", built(more="CREATE TRIGGER twice AFTER INSERT ON entries BEGIN SELECT 1; END")),
        ("entry 3 has a key that entry 1 holds", built(rows=reseal(with_(2, 1, 7)))),
        ("entry 3 has a key that entry 1 holds", built(rows=reseal(rows[:2] + rows[:1]))),
        ("entry 2 is missing", built(rows=[rows[0], rows[2]])),
        ("entry 1 is missing", built(rows=[(0, *rows[0][1:])])),
        ("entry 3 is missing", built(rows=gap)),
        ("entry 2 has a number that no entry can have", built(rows=with_(1, 3, wide + 41))),
        ("entry 2 has a number that no entry can have", built(rows=with_(1, 1, -1))),
        ("entry 1 has a number that no entry can have", built(rows=with_(0, 4, wide + rows[0][4]))),
        ("entry 3 was changed", built(rows=with_(2, 3, 43))),
        ("entry 1 was changed", built(rows=with_(0, 2, 3))),
        ("entry 2 was changed", built(rows=with_(1, 4, rows[1][4] ^ 1))),
        ("entry 1 was changed", built(rows=rows_of_swapped(rows))),
        ("it has more than 4096 entries", built(rows=rows_of((1, n, 1) for n in range(ROOM + 1)))),
    ]
    sound = folder / "sound"
    build(sound, good)
    with Untouched(folder):
        well(sound, "check", out=f"{sound}: a book, 3 entries\n")
    for n, (why, make) in enumerate(books):
        place = folder / str(n)
        place.mkdir()
        book = place / "book"
        make(book)
        with Untouched(place):
            fails(1, f"{name(book)}: no book: {re.escape(why)}", book, "check")
            # and one of those that would write to it, or take from it
            fails(1, f"{name(book)}: no book: {re.escape(why)}",
                  *[[book, "enter-key", 7, 9, 1], [book, "merge", sound], [sound, "merge", book]][n % 3])
    check(held_in(sound) == good, "the book that was to be merged into")
    # statistics are tables of SQLite's own
    analyzed = folder / "analyzed"
    build(analyzed, good, more="ANALYZE")
    well(analyzed, "show", out=shown(good))


def rows_of_swapped(rows):
    """The entries of the first two places exchanged, each with the seal that it had."""
    return [(1, *rows[1][1:]), (2, *rows[0][1:]), *rows[2:]]


def damaged_books(folder, seed):
    """Cut short at many lengths, and with a byte changed at many places."""
    choose = random.Random(seed)
    held = [(7, 1, 40), (7, 2, 70000), (9, 1, 42), (4000000000, 4000000000, 4000000000), (0, 0, 0)]
    sound = folder / "sound"
    build(sound, held)
    data = sound.read_bytes()
    sound.unlink()
    entries = data.rfind(bytes(16)) + 16
    text = data.index(b"CREATE")
    places = choose.sample(range(100), 14) + choose.sample(range(100, 112), 3) + choose.sample(range(text - 80, 4096), 5)
    places += choose.sample(range(4096, 4114), 5) + choose.sample(range(entries, len(data)), 9) + [2000, 5000]
    cuts = [1, 99, 100, 512, 4095, 4096, 4097, 8191] + [choose.randrange(2, len(data)) for _ in range(8)]
    cases = [(f"cut to {cut}", data[:cut]) for cut in cuts]
    for place in places:
        changed = bytearray(data)
        changed[place] ^= choose.choice([1, 128, choose.randrange(1, 256)])
        cases.append((f"byte {place} was {data[place]} and is {changed[place]}", bytes(changed)))
    refused = 0
    for n, (what, content) in enumerate(cases):
        place = folder / str(n)
        place.mkdir()
        book = place / "book"
        book.write_bytes(content)
        with Untouched(place):
            answer = tally(book, "show")
            if answer.status == 0:
                check(answer.out == shown(held) and answer.err == "", what, answer)
            else:
                refused += 1
                check(answer.status in (1, 3) and answer.out == "", what, answer)
                check(re.fullmatch(f"oatlantern: {name(book)}: [^\n]+\n", answer.err), what, answer)
    check(refused >= len(cuts) + 20, "only", refused, "of", len(cases), "damaged books were refused")


# ---- Histories ----

def recordings():
    """The samples: of each that is sound its unit and number, of others none."""
    for path in sorted(SAMPLES.glob("*.rec")):
        head = re.match(r"unit (\d+) recording (\d+) ", path.with_suffix(".list").read_text())
        yield path, head and (int(head[1]), int(head[2]))


def history(folder, seed):
    choose = random.Random(seed)
    book, held, all_recordings = folder / "book", {}, list(recordings())
    for _ in range(26):
        asks = 1 if held else 0
        what = choose.choices(["key", "recording", "held", "total"], [8, 4, asks, asks])[0]
        count = choose.choice([0, 1, 40, 41, LARGEST])
        key = choose.choice([1, 2, LARGEST]), choose.choice([1, 2, 3, 345])
        if what == "recording":
            path, key = choose.choice(all_recordings)
            words = ["enter", path, count]
            if key is None:
                with Untouched(folder):
                    fails(1, f"{name(path)}: refused \\d+ at .*", book, *words)
                continue
        elif what == "key":
            words = ["enter-key", *key, count]
        elif what == "held":
            words = [what, *key]
            line = "held unit {} recording {} count {}\n" if key in held else "not held unit {} recording {}\n"
            well(book, *words, out=line.format(*key, held.get(key)))
            continue
        else:
            well(book, what, key[0], out=f"unit {key[0]} total {sum(c for k, c in held.items() if k[0] == key[0])}\n")
            continue
        unit, number = key
        if key not in held:
            well(book, *words, out=f"entered unit {unit} recording {number} count {count}\n")
            held[key] = count
            continue
        with Untouched(folder):
            if held[key] == count:
                well(book, *words, out=f"already held unit {unit} recording {number} count {count}\n")
            else:
                fails(1, f"{name(book)}: refused 13: the tally book holds this unit and number with another count "
                      f"\\(unit {unit} recording {number} is held with {held[key]}, not {count}\\)", book, *words)
    entries = [(*key, count) for key, count in held.items()]
    check(held_in(book) == entries, "a history led to", held_in(book), "and not to", entries)
    with Untouched(folder):
        well(book, "show", out=shown(entries))
        well(book, "totals", out=shown_totals(entries))
        well(book, "check", out=f"{book}: a book, {len(entries)} entries\n")
        for unit, _, total in totals_of(entries):
            well(book, "total", unit, out=f"unit {unit} total {total}\n")
        well(book, "total", 123456, out="unit 123456 total 0\n")


def merges(folder, seed):
    choose = random.Random(seed)
    counts = {(u, n): choose.randrange(1000) for u in range(4) for n in range(40)}
    parts = [[(*key, counts[key]) for key in choose.sample(sorted(counts), 90)] for _ in range(2)]
    one, other, empty = folder / "one", folder / "other", folder / "empty"
    for path, part in zip([one, other], parts):
        build(path, part)
    build(empty)

    def merged(into, out_of):
        both = into + [e for e in out_of if e not in into]
        return both, f"merged {len(both) - len(into)} entered, {len(out_of) - len(both) + len(into)} already held, 0 refused\n"

    results = []
    for (path, part), (second, second_part) in [((one, parts[0]), (other, parts[1])), ((other, parts[1]), (one, parts[0]))]:
        copy = folder / f"{path.name}-first"
        shutil.copyfile(path, copy)
        both, line = merged(part, second_part)
        well(copy, "merge", second, out=line)
        check(held_in(copy) == both, "a merge led to", held_in(copy))
        results.append(well(copy, "totals", out=shown_totals(both)))
        with Untouched(folder):
            well(copy, "merge", second, out=f"merged 0 entered, {len(second_part)} already held, 0 refused\n")
    check(results[0] == results[1], "merges in two orders have other totals", results)
    with Untouched(folder):
        well(one, "merge", one, out=f"merged 0 entered, {len(parts[0])} already held, 0 refused\n")
        well(one, "merge", empty, out="merged 0 entered, 0 already held, 0 refused\n")
        well(folder / "new", "merge", empty, out="merged 0 entered, 0 already held, 0 refused\n")
        fails(3, f"{name(folder / 'none')}: No such file or directory", folder / "new", "merge", folder / "none")
        fails(3, f"{name(folder / 'none')}: No such file or directory", one, "merge", folder / "none")
    well(folder / "new", "merge", one, out=f"merged {len(parts[0])} entered, 0 already held, 0 refused\n")
    check(held_in(folder / "new") == parts[0], "a merge that makes the book")

    # two counts of one key: each is told and left out, and the rest is entered
    differing = [(u, n, c + (i % 3 == 0)) for i, (u, n, c) in enumerate(parts[1])]
    build(folder / "differing", differing)
    held = {e[:2]: e[2] for e in parts[0]}
    answer = tally(one, "merge", folder / "differing")
    told = [f"oatlantern: {one}: refused 13: the tally book holds this unit and number with another count "
            f"(unit {u} recording {n} is held with {held[u, n]}, not {c})\n" for u, n, c in differing if held.get((u, n), c) != c]
    new = [e for e in differing if e[:2] not in held]
    check(len(told) > 0 and answer.status == 1 and answer.err == "".join(told), answer, "expected", "".join(told))
    same = len(differing) - len(new) - len(told)
    check(answer.out == f"merged {len(new)} entered, {same} already held, {len(told)} refused\n", answer)
    check(held_in(one) == parts[0] + new, "a merge with refusals led to", held_in(one))


def full_books(folder):
    book, nearly, more = folder / "book", folder / "nearly", folder / "more"
    entries = [(50 + n % 2, n, LARGEST) for n in range(ROOM)]
    build(book, entries)
    build(nearly, entries[:-5])
    build(more, [(1, n, n) for n in range(5)] + [entries[0]])
    full = "refused 14: the tally book is full, and this unit and number are new"
    with Untouched(folder):
        fails(1, f"{name(book)}: {full} \\(unit 1 recording 2\\)", book, "enter-key", 1, 2, 3)
        well(book, "enter-key", *entries[-1], out="already held unit {} recording {} count {}\n".format(*entries[-1]))
        fails(1, f"{name(book)}: refused 13: .*", book, "enter-key", 50, 0, 1)
        well(book, "totals", out=shown_totals(entries))
        well(book, "show", out=shown(entries))
        fails(1, f"{name(book)}: {full} \\(unit 1 recording 0\\)", book, "merge", more)
    well(nearly, "merge", more, out="merged 5 entered, 1 already held, 0 refused\n")
    check(held_in(nearly) == entries[:-5] + [(1, n, n) for n in range(5)], "the last places")
    nearly.unlink()
    build(nearly, entries[:-4])
    with Untouched(folder):
        fails(1, f"{name(nearly)}: {full} \\(unit 1 recording 4\\)", nearly, "merge", more)


# ---- What is given ----

def given(folder):
    book, sound = folder / "book", SAMPLES / "sound.rec"
    none = folder / "none"
    usage = "usage: oatlantern tally .*"
    with Untouched(folder):
        fails(1, f"{name(SAMPLES / 'cut.rec')}: refused 9 at 56: .*", book, "enter", SAMPLES / "cut.rec", 4)
        fails(3, f"{name(none)}: No such file or directory", book, "enter", none, 4)
        for number, why in [("-1", "is no number of digits only"), ("4294967296", "is larger than 4294967295"),
                            ("99999999999999999999999", "is larger than 4294967295"), ("1x", "is no number of digits only"),
                            ("+1", "is no number of digits only"), ("-", "is no number of digits only")]:
            fails(2, f"the count {re.escape(number)} {why}", book, "enter", none, number)
        fails(2, "the count is empty", book, "enter", sound, "")
        fails(2, "the unit  1 is no number of digits only", book, "enter-key", " 1", 2, 3)
        fails(2, "the recording number 0x1 is no number of digits only", book, "enter-key", 1, "0x1", 3)
        fails(2, "the count 3. is no number of digits only", book, "enter-key", 1, 2, "3.")
        fails(2, "the unit 4294967296 is larger than 4294967295", book, "total", 1 << 32)
        fails(2, "the unit one is no number of digits only", book, "held", "one", 2)
        fails(2, "the recording number is empty", book, "held", 1, "")
        fails(2, usage)
        fails(2, usage, book)
        for words in [["list"], ["enter", sound], ["enter", sound, 1, 2], ["enter-key", 1, 2], ["total"], ["totals", 1],
                      ["held", 1], ["show", 1], ["merge"], ["check", book]]:
            fails(2, usage, book, *words)
        fails(2, "a book cannot be standard input", "-", "show")
        fails(2, "a book cannot be standard input", book, "merge", "-")
        for words in [["total", 1], ["totals"], ["held", 1, 2], ["show"], ["check"]]:
            fails(3, f"{name(book)}: No such file or directory", book, *words)
        fails(3, f"{name(none)}/book: No such file or directory", none / "book", "enter-key", 1, 2, 3)
        fails(3, f"{name(folder)}/none/: .*", f"{folder}/none/", "enter-key", 1, 2, 3)
        fails(3, f"{name(sound)}/book: Not a directory", sound / "book", "enter-key", 1, 2, 3)
        fails(3, f"{name(folder)}/x+: File name too long", folder / ("x" * 300), "enter-key", 1, 2, 3)
        fails(3, ": No such file or directory", "", "enter-key", 1, 2, 3)
    # a link is followed, also to nothing; names are taken as they are
    link = folder / "link"
    link.symlink_to("linked")
    fails(3, f"{name(link)}: No such file or directory", link, "enter-key", 1, 2, 3)
    build(folder / "linked", [(1, 1, 1)])
    well(link, "enter-key", 1, 2, "0003", out="entered unit 1 recording 2 count 3\n")
    check(link.is_symlink() and held_in(folder / "linked") == [(1, 1, 1), (1, 2, 3)], "what the link leads to")
    odd = folder / "file:a b?mode=memory#\n%41"
    well(odd, "enter", sound, LARGEST, out=f"entered unit 7 recording 1 count {LARGEST}\n")
    check(held_in(odd) == [(7, 1, LARGEST)], "a book with an odd name")
    well(odd, "check", out=str(odd).replace("\n", "?") + ": a book, 1 entries\n")
    check(stat.S_IMODE(odd.stat().st_mode) == 0o666 & ~umask(), "the mode of a new book")


def umask():
    done = subprocess.run(["sh", "-c", "umask"], capture_output=True, check=True)
    return int(done.stdout, 8)


def laid_out(folder):
    """What the command makes: the schema is taken from it for all that is built here."""
    book = folder / "book"
    well(book, "enter-key", 7, 1, 40, out="entered unit 7 recording 1 count 40\n")
    check([p.name for p in folder.iterdir()] == ["book"], "something is left beside the book")
    database = connect(book)
    for pragma, value in [("application_id", APPLICATION), ("user_version", 1), ("journal_mode", "delete")]:
        check(database.execute(f"PRAGMA {pragma}").fetchone() == (value,), pragma)
    objects = database.execute("SELECT type, name, sql FROM sqlite_schema ORDER BY name").fetchall()
    check([o[:2] for o in objects] == [("table", "entries"), ("view", "totals")], "the schema is", objects)
    check(database.execute("SELECT * FROM entries").fetchall() == [(1, 7, 1, 40, zlib.crc32(struct.pack("<5I", 0, 1, 7, 1, 40)))],
          "the first entry")
    for row in [(0, 1, 1, 1, 1), (ROOM + 1, 1, 1, 1, 1), (2, -1, 1, 1, 1), (2, 1, LARGEST + 1, 1, 1), (2, 1, 1, "a", 1),
                (2, 1, 1, 1, None), (2, 1, 1, 1, LARGEST + 1), (2, 1, 1, 1.5, 1)]:
        try:
            database.execute("INSERT INTO entries VALUES(?, ?, ?, ?, ?)", row)
            check(False, "the table takes", row)
        except sqlite3.IntegrityError:
            check(True)
    database.close()
    SCHEMA.extend(o[2] for o in objects)


def main():
    if len(sys.argv) not in (2, 3):
        sys.exit("usage: test-book.py COMMAND [SEED]")
    COMMAND.extend(shlex.split(sys.argv[1]))
    seed = int(sys.argv[2]) if len(sys.argv) == 3 else random.SystemRandom().randrange(1 << 32)
    memory = "/dev/shm" if os.access("/dev/shm", os.W_OK) else None
    with tempfile.TemporaryDirectory(prefix="book-", dir=memory) as top:
        def own(test, *more):
            folder = Path(tempfile.mkdtemp(prefix=f"{test.__name__}-", dir=top)) / "own"
            folder.mkdir()
            test(folder, *more)

        fault = None
        try:
            own(laid_out)
        except Fault as found:
            fault = f"laid_out: {found}"
        # some at once, and those that wait for a lock beside them
        with ThreadPoolExecutor(3) as pool, ThreadPoolExecutor(3) as waiting:
            tests = {} if fault else {waiting.submit(own, test): test for test in [held_long, read_long, held_shortly]}
            for test, *more in [] if fault else [
                    (kill_writers, seed, KILLS // 2), (kill_writers, seed + 1, KILLS // 2), (damaged_books, seed), (bad_books,),
                    (four_writers,), (history, seed), (history, seed + 1), (given,), (merges, seed), (full_books,), (full_disk,),
                    (limited_files,), (read_only,), (read_only_folder,), (output_fails,), (crash_in_writing,), (journal_alone,)]:
                tests[pool.submit(own, test, *more)] = test
            for done in as_completed(tests):
                error = done.exception()
                if error is not None and fault is None:
                    fault = f"{tests[done].__name__}: {error if isinstance(error, Fault) else repr(error)}"
                    stopped.set()
    if fault is not None:
        print(f"{fault}\n(seed {seed})")
        sys.exit(1)
    print(f"{counted} checks")


if __name__ == "__main__":
    main()
