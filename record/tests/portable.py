#!/usr/bin/env python3
"""portable.py [--all]: the recorders on other systems than that of the tests: on Windows, as far as MinGW-w64 and Wine show it (x86-64);
on ARM64, by its gcc and qemu; on macOS, as far as clang compiles C for it with the stand-ins for headers in macos/, which has a README.

On the first two, every kind of event is recorded in C and C++, in logs of several sizes: with the bytes and the messages of the build for
this machine. What my.c records, and what threads do to a register, is judged by the audit. ring_live.h runs with
live_lines.c in place of the library, so that the audit judges what the monitor saw; on ARM64 with the library too. The recorders and tools
in Python run as on Windows, where a stream of text writes CR LF, and hunt and explore as on macOS, where Python pins no process. --all
adds ring_live.h in C++, macOS on x86-64, and the recorders in Go and Java, in a minute. Nothing is run on Windows or macOS itself. What is
left out, since a compiler, Wine or qemu is missing, is printed. The last line counts.

The program is $PROGRAM, else that of ./lamport_ring."""
import contextlib
import os
import platform
import re
import shutil
import subprocess
import sys
import tempfile

RECORD = os.path.dirname(os.path.dirname(os.path.abspath(__file__)))
TOP = os.path.dirname(RECORD)
sys.path[:0] = [f"{RECORD}/tests", f"{TOP}/tests"]
import programs
from counting import Counting

counts = Counting("portable")
STRICT = ["-O1", "-Wall", "-Wextra", "-Wpedantic", "-Werror", f"-I{RECORD}/include"]
KINDS, REGISTERS = "tests/kinds/kinds.c", "tests/registers/registers.c"
# The sources that record every kind of event, the standard, more flags, and the numbers of words in a log; without one nothing is recorded.
RECORDED = (
    (KINDS, "c11", [], (1000, 20, 7)),
    (KINDS, "c++11", [], (1000, 20)),
    (KINDS, "c11", ["-DRING_CALLS_TSC"], (1000, 20)),
    (REGISTERS, "c11", [], (1000, 6, 3)),
    (REGISTERS, "c++11", [], (1000, 6)),
    (f"{REGISTERS}pp", "c++17", [], (1000, 6)),
)
# Sources that are only compiled where there is no library for them.
COMPILED = ("tests/unit/unit.c", "tests/unit/judge.c", "tests/unit/register_unit.c")
# Those that clang compiles for macOS.
FOR_MACOS = (*COMPILED, KINDS, REGISTERS, "tests/registers/threads.c", "tests/live_test.c", "tests/live_lines.c", "broken/twelve.c")
# A test by ring_audit.hpp, of a recording in which live_lines.c finds a fault at line 3.
AUDITED = """#include "ring_audit.hpp"
#include <iostream>
int main() {
    ring_auditor audit;
    ring_calls_recorder rec(100);
    rec.put(7, [] { return true; });
    auto found = audit.lawful(rec, "queue 8");
    std::cout << found;
    return found ? 0 : 3;
}
"""
SHOWN = "fault: line 3: as it was asked to\n       1  queue 8\n       2  P put 7\n>      3  P stored\n"
# A Python as on macOS, and one whose streams of text are as on Windows.
AS_ON_MACOS = """import os, platform, sys
sys.platform, platform.system, platform.machine = "darwin", lambda: "Darwin", lambda: "arm64"
del os.sched_getaffinity, os.sched_setaffinity
"""
AS_ON_WINDOWS = "import sys\nsys.stdout.reconfigure(newline='\\r\\n')\n"
HUNT_ON_WINDOWS = """import argparse, os, platform, runpy, shutil, subprocess, sys, tempfile
os.name, platform.system, sys.argv = "nt", lambda: "Windows", ["hunt", "--", "true"]
runpy.run_path("hunt", run_name="__main__")
"""


def read(path):
    with open(path, "rb") as file:
        return file.read()


def write(path, text):
    with open(path, "w", encoding="utf-8") as file:
        file.write(text)
    return path


def run(command, text=b"", cwd=RECORD, **more):
    """Returns the status, the output, and the standard error with the ends of its lines as on this system."""
    try:
        ran = subprocess.run(command, input=text, capture_output=True, timeout=200, check=False, cwd=cwd, env={**os.environ, **more})
    except subprocess.TimeoutExpired:
        return 124, b"", "it takes too long"
    return ran.returncode, ran.stdout, ran.stderr.decode(errors="replace").replace("\r\n", "\n")


def is_there(what, *commands):
    """Whether these commands are installed, the compilers for other systems with headers; if not, prints what is left out."""
    missing = [command for command in commands if not shutil.which(command)]
    for compiler in (command for command in commands if command.endswith("-gcc") and command not in missing):
        missing += [f"the C library of {compiler}"] * (run([compiler, "-E", "-include", "stdio.h", "-x", "c", os.devnull])[0] != 0)
    if missing:
        print(f"portable: skipped, since {', '.join(missing)} {'is' if len(missing) == 1 else 'are'} not installed: {what}", flush=True)
    return not missing


class System:
    """A system: its compilers, what runs a program that they made, and the library in dist/ for it."""

    def __init__(self, name, room, front="", start=(), library=None):
        self.name, self.front, self.start, self.library = name, front, start, library
        self.room = f"{room}/{name.split()[0]}"
        os.mkdir(self.room)
        self.made = {}

    def compiled(self, standard, *words):
        """The path of a program, compiled from these words, or None. -c in the words makes no program."""
        known = (standard, *words)
        if known not in self.made:
            is_cpp, path = "+" in standard, f"{self.room}/{len(self.made)}.exe"
            as_cpp = ["-x", "c++"] if is_cpp else []
            compiler = [f"{self.front}{'g++' if is_cpp else 'gcc'}", f"-std={standard}", *STRICT, "-static", "-pthread", *as_cpp]
            status, _, said = run([*compiler, *words, "-o", path])
            good = counts.check(status == 0, f"{self.name}: compiles {' '.join(known)}", said[-2000:])
            self.made[known] = path if good else None
        return self.made[known]

    def run(self, program, *words, **more):
        return run([*self.start, program, *map(str, words)], **more) if program else (None, b"", "it was not compiled")

    def check(self, good, what, seen):
        return counts.check(good, f"{self.name}: {what}", seen)


class Audit:
    """The program, which judges recordings."""

    def __init__(self):
        self.program = os.environ.get("PROGRAM")
        if not self.program:
            self.program = subprocess.check_output([f"{TOP}/lamport_ring", "--which"], text=True).strip()

    def verdict(self, recording, kind="--calls"):
        """Its first line, and its report."""
        _, out, said = run([self.program, "audit", kind], recording)
        first, *report = (out.decode() or said).splitlines() or [""]
        return first, dict(line.split(" ", 1) for line in report if " " in line)


def try_kinds(system, here):
    """The same bytes and messages as on this machine, also in small logs, whose recordings are cut."""
    for source, standard, flags, sizes in RECORDED:
        if flags and system.name == "ARM64":
            continue
        words = (standard, *flags, source)
        theirs, ours = system.compiled(*words), here.compiled(*words)
        for size in ((), *((number,) for number in sizes)):
            seen, want = system.run(theirs, *size), here.run(ours, *size)
            good = seen == want and want[0] == 0 and b"\r" not in seen[1]
            system.check(good, f"{' '.join(words)}, in logs of {size} words", seen)
    wanted = read(f"{RECORD}/tests/kinds/kinds.calls")
    seen = system.run(system.compiled("c11", KINDS), 1000)
    system.check(seen == (0, wanted, ""), "kinds.calls", seen)


def try_sample(system, audit):
    """The program my.c records a ring, which is lawful, and one that stores no items, which is not."""
    write(f"{system.room}/my_queue.h", programs.RING)
    for flags, want in (((), "lawful"), (("-DSTORES_NONE", "-Wno-unused-parameter"), "fault: line ")):
        status, out, said = system.run(system.compiled("gnu17", "-O2", *flags, f"-I{system.room}", "my.c"), 1)
        verdict, report = audit.verdict(out)
        good = status == 0 and not said and b"\r" not in out and verdict.startswith(want)
        good = good and (flags or report.get("calls") == "200000")
        system.check(good, f"my.c {flags}", (status, verdict, report, said))
        if not flags:
            print(f"portable: {system.name}: my.c: {verdict}, overlapped {report.get('overlapped')}", flush=True)


def try_registers(system, audit):
    status, out, said = system.run(system.compiled("gnu11", "tests/registers/threads.c"), "atomic", 2000)
    verdict, _ = audit.verdict(out, "--register")
    system.check((status, verdict, said) == (0, "atomic", "") and b"\r" not in out, "a register of threads", (status, verdict, said))


def try_live(system, audit, standards):
    """The monitor sees what the sides record, in its order, and stops both at a fault. (The audit judges what it saw.)"""
    lines, kinds = f"{system.room}/lines", "tests/kinds/kinds.calls"
    for standard in standards:
        program = system.compiled(standard, "tests/live_test.c", "tests/live_lines.c")
        seen = system.run(program, "feed", kinds, LIVE_LINES=lines)
        system.check(seen[0] == 0 and read(lines) == read(f"{RECORD}/{kinds}"), f"{kinds}, live, in {standard}", seen)
        for queue, items, *bug in (("ring", 5000), ("blocking", 1000), ("ring", 5000, "lost")):
            status, _, said = system.run(program, "live", queue, 8, items, *bug, LIVE_LINES=lines)
            verdict, report = audit.verdict(read(lines))
            good = verdict.startswith("fault: line ") if bug else verdict == "lawful" and report["taken"] == str(items)
            good = good and status == 0 and not said
            system.check(good, f"live, in {standard}, {queue} {bug}", (status, verdict, report, said))
        status, _, said = system.run(program, "live", "ring", 8, 100_000, LIVE_LINES=lines, LIVE_FAULT="1000")
        good = status == 1 and said.startswith("fault: line 1000: as it was asked to\n") and re.search(r"\n> +1000  [PC] ", said)
        good = good and read(lines).count(b"\n") == 999
        system.check(good, f"live, in {standard}, stops at a fault", (status, said))
    if system.library:
        program = system.compiled("gnu11", "tests/live_test.c", system.library)
        seen, wanted = system.run(program, "feed", kinds), run([audit.program, "audit", "--calls"], read(f"{RECORD}/{kinds}"))
        system.check(seen == (0, wanted[1] + b"\n", ""), f"{kinds}, live, by the library", seen)
        for bug, want in (([], "\nlawful\n"), (["lost"], "\nfault: line ")):
            status, out, said = system.run(program, "live", "ring", 8, 5000, *bug)
            system.check(status == len(bug) and want in out.decode(), f"live, by the library {bug}", (status, out, said))


def try_audited(system):
    """ring_audit.hpp has the lines around a fault, and the recording is kept, with no CR."""
    source, kept = write(f"{system.room}/audited.cpp", AUDITED), f"{system.room}/kept"
    lines = system.compiled("c11", "-c", "tests/live_lines.c")
    program = system.compiled("c++17", source, "-x", "none", lines) if lines else None
    status, out, said = system.run(program, LIVE_LINES=f"{system.room}/lines", LIVE_FAULT="3", RING_AUDIT_KEEP=kept)
    good = status == 3 and out.decode().replace("\r\n", "\n") == SHOWN
    good = good and os.path.exists(kept) and read(kept) == b"queue 8\nP put 7\nP stored\n"
    system.check(good, "ring_audit.hpp", (status, out, said))
    for each in () if system.library else COMPILED:
        system.compiled("gnu11", "-c", each)


def try_macos(room, machines):
    """clang compiles the recorders and their tests in C for macOS; with the stand-ins it refuses what macOS lacks."""
    write(f"{room}/my_queue.h", programs.RING)
    sources = dict.fromkeys((*FOR_MACOS, "my.c"), True)
    for kind, header in (("pthread_barrier_t", "pthread.h"), ("cpu_set_t", "sched.h")):
        sources[write(f"{room}/{kind}.c", f"#include <{header}>\n{kind} it;\n")] = False
    for machine in machines:
        compiler = ["clang", "-target", f"{machine}-apple-macos11", "-std=c11", "-nostdlibinc", "-isystem", "tests/macos", *STRICT]
        for source, good in sources.items():
            bug = ["-DBUG=1"] * source.endswith("twelve.c")
            status, _, said = run([*compiler, *bug, f"-I{room}", "-c", source, "-o", f"{room}/macos.o"])
            counts.check((status == 0) == good, f"macOS on {machine}: {source}", said[-2000:])


def try_python(room, audit):
    """The recorders and tools in Python write no CR where a stream of text does; hunt and explore say what a system lacks."""
    for name, text in (("windows", AS_ON_WINDOWS), ("macos", AS_ON_MACOS)):
        os.mkdir(f"{room}/{name}")
        write(f"{room}/{name}/sitecustomize.py", text)
    calls, windows, macos = f"{audit.program} audit --calls", {"PYTHONPATH": f"{room}/windows"}, {"PYTHONPATH": f"{room}/macos"}
    counts.check(run([sys.executable, "-c", "print()"], **windows)[1] == b"\r\n", "Python as on Windows")
    fault = write(f"{room}/fault.calls", "queue 8\nP put 1\nC take\nP stored\nC item 2\n")
    for words in (
        ["tests/kinds/kinds.py", "1000"],
        ["tests/registers/registers.py", "1000"],
        ["convert", "tests/logs/jepsen.edn"],
        ["head", "tests/kinds/kinds.calls"],
        ["shrink", fault],
    ):
        seen, want = (run([sys.executable, *words], AUDIT=calls, **env) for env in (windows, {}))
        counts.check(seen == want and want[0] == 0 and b"\r" not in seen[1] and seen[1], f"Python as on Windows: {words}", seen)
    good = ["printf", "queue 8\\nP put 1\\nP stored\\n"]
    said = "hunt: without rests: they need Linux, and this is Darwin\n"
    seen = run([sys.executable, f"{RECORD}/hunt", "--runs", "2", "--", *good], cwd=room, AUDIT=calls, **macos)
    counts.check(seen[0] == 0 and seen[1].startswith(b"2 runs in ") and seen[2] == said, "hunt as on macOS", seen)
    seen = run([sys.executable, "hunt", "--pins", "0", "--", *good], AUDIT=calls, **macos)
    said = ": error: argument --pins: Darwin pins no threads to processors: only none\n"
    counts.check(seen[0] == 2 and seen[2].endswith(said), "hunt --pins as on macOS", seen)
    seen = run([sys.executable, "explore", KINDS], **macos)
    counts.check(seen == (2, b"", "explore: it needs Linux, and this is Darwin\n"), "explore as on macOS", seen)
    seen = run([sys.executable, "-c", HUNT_ON_WINDOWS], AUDIT=calls)
    counts.check(seen == (2, b"", "hunt: it needs Linux, or macOS without rests and pins; this is Windows\n"), "hunt as on Windows", seen)


def try_go(room, systems):
    """The recorder in Go, compiled for each system, and for macOS too, where it is not run."""
    folder = f"{room}/go"
    os.mkdir(folder)
    for source in ("include/go/ring_calls.go", "tests/kinds/kinds.go"):
        shutil.copy2(f"{RECORD}/{source}", folder)
    wanted = read(f"{RECORD}/tests/kinds/kinds.calls")
    for name, target in (("Windows", "windows/amd64"), ("ARM64", "linux/arm64"), ("macOS", "darwin/arm64")):
        its_os, machine = target.split("/")
        env = {"GO111MODULE": "off", "GOOS": its_os, "GOARCH": machine, "CGO_ENABLED": "0"}
        made = run(["go", "build", "-o", name, "ring_calls.go", "kinds.go"], cwd=folder, **env)
        counts.check(made[0] == 0, f"Go for {target}", made)
        for system in systems:
            if system.name.split()[0] == name:
                seen = system.run(f"{folder}/{name}", 1000)
                system.check(seen == (0, wanted, ""), "the recorder in Go", seen)


def try_java(room):
    """The recorder in Java writes no CR where the end of a line is CR LF."""
    made = run(["javac", "-Werror", "-d", f"{room}/java", "include/java/RingCalls.java", "tests/kinds/Kinds.java"])
    seen = run(["java", "-Dline.separator=\r\n", "-cp", f"{room}/java", "Kinds", "1000"])
    counts.check(made[0] == 0 and seen == (0, read(f"{RECORD}/tests/kinds/kinds.calls"), ""), "the recorder in Java", (made, seen))


@contextlib.contextmanager
def wine(room):
    """Wine in a folder of its own. One program waits for input all the while, so that what serves the others is started once."""
    os.environ.update(WINEPREFIX=f"{room}/wine", WINEDEBUG="-all", WINEDLLOVERRIDES="mscoree=;mshtml=;winemenubuilder.exe=")
    silent = {"stdout": subprocess.DEVNULL, "stderr": subprocess.DEVNULL}
    subprocess.run(["wine", "cmd", "/c", "exit"], stdin=subprocess.DEVNULL, **silent, check=False)
    with subprocess.Popen(["wine", "cmd"], stdin=subprocess.PIPE, **silent) as waits:
        try:
            yield
        finally:
            waits.stdin.close()
            waits.wait()
            run(["wineserver", "-k", "-w"])


def main(words):
    audit, does_all = Audit(), "--all" in words
    with tempfile.TemporaryDirectory(prefix="portable-") as room, contextlib.ExitStack() as stack:
        systems = []
        mingw, arm, here = "x86_64-w64-mingw32-", "aarch64-linux-gnu-", ("gcc", "g++")
        if is_there("the recorders on Windows, by Wine", *here, f"{mingw}gcc", f"{mingw}g++", "wine", "wineserver"):
            stack.enter_context(wine(room))
            systems.append(System("Windows", room, mingw, ["wine"]))
        if platform.machine() != "aarch64" and is_there("the recorders on ARM64, by qemu", *here, f"{arm}gcc", f"{arm}g++", "qemu-aarch64"):
            systems.append(System("ARM64", room, arm, ["qemu-aarch64"], f"{TOP}/dist/aarch64-linux/libring_audit.a"))
        here = System("this machine", room)
        for system in systems:
            try_kinds(system, here)
            try_sample(system, audit)
            try_registers(system, audit)
            try_live(system, audit, ("gnu11", "c++11") if does_all else ("gnu11",))
            try_audited(system)
        if is_there("the recorders for macOS, by clang", "clang"):
            os.mkdir(f"{room}/apple")
            try_macos(f"{room}/apple", ("arm64", "x86_64") if does_all else ("arm64",))
        try_python(room, audit)
        if does_all:
            if is_there("the recorder in Go on other systems", "go"):
                try_go(room, systems)
            if is_there("the recorder in Java", "java", "javac"):
                try_java(room)
    return counts.end()


if __name__ == "__main__":
    sys.exit(main(sys.argv[1:]))
