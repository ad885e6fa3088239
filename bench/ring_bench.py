#!/usr/bin/env python3
"""The time per item of the running rings: python3 bench/ring_bench.py, from any folder, on a machine that does nothing else.

For twelve shapes it prints how many nanoseconds an item takes from one thread to the other, as `run --report` reports it, beside a
twin in plain Rust (ring_twin.rs, built with rustc -O) that does the same, and beside an ordinary ring. Their runs alternate; it prints
the medians, with the first and the third quartile; the ratio is that of the medians. Each of the two threads has a core: the
last two of those available to the bench. `taskset -c 2 python3 bench/ring_bench.py` puts both threads on that one.
"""
import os
import re
import statistics
import subprocess
import sys
import tempfile

from bench import PROGRAM, TOP, build_twin

RUNS = 21
COUNT = 200_000
# Rings, with capacity, modulus, width, batch and take batch.
SHAPES = [
    ("flicker", (1, 3, 1, 1, 1)),
    ("flicker", (8, 10, 16, 1, 1)),
    ("flicker", (64, 256, 64, 1, 1)),
    ("counter", (1, 3, 1, 1, 1)),
    ("counter", (8, 10, 16, 1, 1)),
    ("counter", (64, 256, 64, 1, 1)),
    ("counter", (8, 17, 16, 8, 1)),
    ("counter", (64, 256, 64, 16, 1)),
    ("counter", (64, 256, 64, 64, 1)),
    ("flicker", (64, 81, 64, 16, 16)),
    ("counter", (8, 17, 16, 8, 8)),
    ("counter", (64, 81, 64, 16, 16)),
]


def build_apart(folder, core):
    """Builds the library that puts the second thread of a process on this core; returns the environment that the process needs."""
    apart = f"{folder}/apart.so"
    subprocess.run(["rustc", "-O", "--edition", "2024", "--crate-type", "cdylib", "-o", apart, f"{TOP}/bench/apart.rs"], check=True)
    return {"LD_PRELOAD": apart, "CORE": str(core)}


def commands(twin, ring, shape):
    """The commands of the program, its twin and the ordinary ring, for a ring of this shape."""
    options = [f"--{name}={number}" for name, number in zip(["capacity", "modulus", "width", "batch", "take-batch"], shape)]
    numbers = [*map(str, shape), str(COUNT)]
    run = [PROGRAM, "run", "--report", f"--ring={ring}", *options, f"--count={COUNT}", f"--limit={2**64 - 1}"]
    return run, [twin, ring, *numbers], [twin, "usual", *numbers]


def nanoseconds(command, env):
    """Runs the command once; returns the nanoseconds per item."""
    done = subprocess.run(command, env=env, stdin=subprocess.DEVNULL, stdout=subprocess.PIPE, text=True, check=False)
    pace = re.search(r"^items a second (\d+)$", done.stdout, re.M)
    if done.returncode != 0 or not pace or not done.stdout.startswith(f"put {COUNT}\ntaken {COUNT}\nclosed yes\n"):
        sys.exit(f"{command} ended with {done.returncode} and printed {done.stdout!r}")
    return 1e9 / int(pace[1])


def quartiles(times):
    first, median, third = statistics.quantiles(times, n=4)
    return f"{median:.0f} ({first:.0f} to {third:.0f})"


def rings(twin, env):
    """Prints the table of rings."""
    print("| Ring | Capacity, modulus, width, batch, take batch | `run` | Twin | Ratio | Ordinary ring |")
    print("|---|---|---|---|---|---|")
    for ring, shape in SHAPES:
        each = commands(twin, ring, shape)
        rounds = [[nanoseconds(command, env) for command in each] for _ in range(RUNS)]
        run, same, usual = zip(*rounds)
        ratio = statistics.median(run) / statistics.median(same)
        print(f"| {ring} | {', '.join(map(str, shape))} | {quartiles(run)} | {quartiles(same)} | {ratio:.2f} | {quartiles(usual)} |", flush=True)


def main():
    cores = sorted(os.sched_getaffinity(0))[-2:]
    with tempfile.TemporaryDirectory() as folder:
        twin = build_twin("ring_twin", folder)
        env = build_apart(folder, cores[-1])
        os.sched_setaffinity(0, cores[:1])
        print(f"nanoseconds per item, {'two cores' if len(cores) == 2 else 'one core'}, {RUNS} runs of each, {COUNT:,} items")
        print()
        rings(twin, env)


if __name__ == "__main__":
    main()
