#!/usr/bin/env python3
"""The time per item of the ring for C: python3 bench/native_bench.py, from any folder, on a machine that does nothing else.

For each shape it prints how many nanoseconds an item takes from one thread to the other: in `lamport_ring run`, and through
dist/libcounter_ring.a (or the library in $RING_LIBRARY) in a C loop that does the same, and the ratio of the two. A second table has
ordinary rings, whose loops pause and yield in the same way: two in C11 (native/rings.c), Boost's spsc_queue if its header is installed, and the
rtrb of the Rattle kit if `rt` is installed. Runs alternate; it prints the medians, with the first and the third quartile. Each of the two
threads has a core of its own, the last two of those available to the bench.
"""
import os
import re
import shutil
import statistics
import subprocess
import sys
import tempfile

from bench import PROGRAM, TOP
from ring_bench import build_apart

RUNS = 21
COUNT = 1_000_000
# Capacity, modulus, batch and take batch.
SHAPES = [(1, 3, 1, 1), (8, 10, 1, 1), (64, 256, 1, 1), (8, 17, 8, 8), (64, 81, 16, 16), (64, 97, 32, 32)]
USUAL = [("seq_cst", 64), ("cached", 64), ("boost", 64), ("rtrb", 64), ("cached", 1024), ("boost", 1024), ("rtrb", 1024)]
NATIVE = f"{TOP}/bench/native"


def build(folder):
    """Builds the rings in C, with Boost's if it is installed, and rtrb; returns which of these two were built."""
    library = os.path.join(os.environ.get("RING_LIBRARY", f"{TOP}/dist"), "libcounter_ring.a")
    gcc = ["gcc", "-std=c11", "-O2", "-Wall", "-Wextra", "-Werror", f"-I{TOP}/native/include", "-c", f"{NATIVE}/rings.c", "-o", f"{folder}/rings.o"]
    boost = subprocess.run(["g++", "-O2", "-c", f"{NATIVE}/boost.cpp", "-o", f"{folder}/boost.o"], stderr=subprocess.DEVNULL, check=False).returncode == 0
    subprocess.run(gcc + (["-DWITH_BOOST"] if boost else []), check=True)
    objects = [f"{folder}/rings.o"] + ([f"{folder}/boost.o"] if boost else [])
    subprocess.run(["g++", *objects, library, "-pthread", "-o", f"{folder}/rings"], check=True)
    found = {"boost"} if boost else set()
    if shutil.which("rt"):
        os.makedirs(f"{folder}/crates/ring_rtrb/src")
        # (rt ci refuses a file .rt outside the crates)
        shutil.copy(f"{NATIVE}/rtrb.rattle", f"{folder}/crates/ring_rtrb/src/main.rt")
        with open(f"{folder}/crates.txt", "w", encoding="utf-8") as crates:
            crates.write("ring_rtrb: rtrb\n")
        shutil.copy(f"{TOP}/HANDLES", folder)
        subprocess.run(["rt", "run", "--", "64", "1"], cwd=f"{folder}/crates/ring_rtrb", stdout=subprocess.DEVNULL, stderr=subprocess.DEVNULL, check=True)
        found.add("rtrb")
    return found


def through(command, env):
    """The nanoseconds per item, from one run of a command that prints those of all items."""
    done = subprocess.run(command, env=env, stdin=subprocess.DEVNULL, stdout=subprocess.PIPE, text=True, check=False)
    if done.returncode != 0 or not done.stdout.strip().isdigit():
        sys.exit(f"{command} ended with {done.returncode} and printed {done.stdout!r}")
    return int(done.stdout) / COUNT


def by_run(shape, env):
    """The nanoseconds per item, from one run of `lamport_ring run`."""
    options = [f"--{name}={number}" for name, number in zip(["capacity", "modulus", "batch", "take-batch"], shape)]
    command = [PROGRAM, "run", "--report", "--ring=counter", "--width=64", *options, f"--count={COUNT}", f"--limit={2**64 - 1}"]
    done = subprocess.run(command, env=env, stdin=subprocess.DEVNULL, stdout=subprocess.PIPE, text=True, check=False)
    pace = re.search(r"^items a second (\d+)$", done.stdout, re.M)
    if done.returncode != 0 or not pace:
        sys.exit(f"{command} ended with {done.returncode} and printed {done.stdout!r}")
    return 1e9 / int(pace[1])


def middle(times):
    first, median, third = statistics.quantiles(times, n=4)
    return f"{median:.0f} ({first:.0f} to {third:.0f})"


def proved(folder, env):
    print("| Capacity, modulus, batch, take batch | `run` | From C | Ratio |\n|---|---|---|---|")
    for shape in SHAPES:
        command = [f"{folder}/rings", "several" if max(shape[2:]) > 1 else "proved", *map(str, shape), str(COUNT)]
        pairs = [(by_run(shape, env), through(command, env)) for _ in range(RUNS)]
        run, native = zip(*pairs)
        print(f"| {', '.join(map(str, shape))} | {middle(run)} | {middle(native)} | {statistics.median(native) / statistics.median(run):.2f} |", flush=True)


def usual(folder, env, found):
    kinds = [(kind, capacity) for kind, capacity in USUAL if kind in found or kind in ("seq_cst", "cached")]
    commands = [
        [f"{folder}/crates/ring_rtrb/out/ring_rtrb", str(capacity), str(COUNT)]
        if kind == "rtrb"
        else [f"{folder}/rings", kind, str(capacity), "0", "1", "1", str(COUNT)]
        for kind, capacity in kinds
    ]
    times = list(zip(*[[through(command, env) for command in commands] for _ in range(RUNS)]))
    print("\n| Usual ring | Capacity | One by one |\n|---|---|---|")
    for (kind, capacity), each in zip(kinds, times):
        print(f"| {kind} | {capacity:,} | {middle(each)} |")


def main():
    cores = sorted(os.sched_getaffinity(0))[-2:]
    with tempfile.TemporaryDirectory() as folder:
        found = build(folder)
        env = build_apart(folder, cores[-1])
        os.sched_setaffinity(0, cores[:1])
        print(f"nanoseconds per item, {'two cores' if len(cores) == 2 else 'one core'}, {RUNS} runs of each, {COUNT:,} items\n")
        proved(folder, env)
        usual(folder, env, found)


if __name__ == "__main__":
    main()
