"""For the benchmarks: how long a program takes, its time on x86-64 and on any other machine its instructions; with which compilers
what is measured beside it is built; and the independent program's tables, for that."""

import os
import platform
import shlex
import subprocess
import time
from pathlib import Path

ROOT = Path(__file__).resolve().parents[1]
OUTSIDE = ROOT / "outside/target/release/outside"
NATIVE = platform.machine().lower() in ("x86_64", "amd64")
UNIT = "nanoseconds" if NATIVE else "instructions"
# one instruction at a time, on a processor for which the C library copies 16 bytes by an instruction: one that repeats
# itself would be logged for each byte
EMULATOR = {"QEMU_ONE_INSN_PER_TB": "1", "QEMU_LOG": "exec,nochain", "QEMU_CPU": "qemu64"}


def timed(path, given, taken):
    """The status, the nanoseconds and what is said on standard error."""
    start = time.perf_counter_ns()
    ended = subprocess.run([path], stdin=given, stdout=taken, stderr=subprocess.PIPE, check=False)
    return ended.returncode, time.perf_counter_ns() - start, ended.stderr


def counted(path, given, taken):
    """The same with the instructions. The log comes by standard error. Nine bits of a line's last number tell how many
    instructions a block has."""
    count, said = 0, b""
    streams = {"stdin": given, "stdout": taken, "stderr": subprocess.PIPE}
    with subprocess.Popen([ROOT / "run", path], env={**os.environ, **EMULATOR}, **streams) as running:
        for line in running.stderr:
            if not line.startswith(b"Trace "):
                said += line
            elif count == 0 and int(line[:line.index(b"]")].split(b"/")[-1], 16) % 512 != 1:
                said += b"(the emulator executes several instructions at a time)"
            count += 1
    return running.returncode, count, said if count else b"(the emulator logs nothing)"


measured = timed if NATIVE else counted


def compilers():
    """The C compiler and the C++ compiler for what runs here, and the flags of the latter; each as words."""
    tools = ["sh", "-c", '. host/tools.sh; printf "%s\\n" "$CC" "$CXX" "$cxx_flags"']
    return [shlex.split(line) for line in subprocess.check_output(tools, cwd=ROOT, text=True).splitlines()]


def tables():
    """The independent program's tables, by name: the lines of each."""
    lines, found = iter(subprocess.check_output([OUTSIDE, "tables"], text=True).splitlines()), {}
    for header in lines:
        name, count = header.split()
        found[name] = [next(lines) for _ in range(int(count))]
    return found


def constants(arrays):
    """A C header with constant arrays, by their type and name."""
    return "".join(f"static const {name}[{len(values)}] = {{ {', '.join(values)} }};\n" for name, values in arrays.items())
