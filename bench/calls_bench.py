#!/usr/bin/env python3
"""The audit of recorded calls: python3 bench/calls_bench.py, from any folder, on a machine that does nothing else.

It prints a table: for recordings of several lengths the shortest time of `audit --calls` and of a twin in plain Rust with the same rules
(calls_twin.rs, built with rustc -O), the ratio, the lines per second, and the peak memory. The queue has 8 cells; both sides are under
way most of the time, puts find it full and takes find it empty. It builds the program first if it is not built.
"""
import os
import random
import subprocess
import sys
import tempfile
import time

from bench import PROGRAM, TOP, build_twin, peak

AUDIT = [PROGRAM, "audit", "--calls"]
RUNS = 7
CAPACITY = 8


def write_calls(path, calls):
    """Writes a recording of this many calls of a queue. A call takes effect either at its start or at its end."""
    pick = random.Random(1)
    inside, item = [], 0
    answers = {"P": None, "C": None}
    begun = 0

    def effect(side):
        nonlocal item
        if side == "P":
            if len(inside) == CAPACITY:
                return "P full"
            inside.append(item)
            item += 1
            return "P stored"
        return f"C item {inside.pop(0)}" if inside else "C empty"

    with open(path, "w", encoding="ascii") as file:
        file.write(f"queue {CAPACITY}\n")
        while begun < calls:
            side = pick.choice("PC")
            if answers[side] is None:
                file.write(f"P put {item}\n" if side == "P" else "C take\n")
                begun += 1
                answers[side] = effect(side) if pick.random() < 0.5 else "later"
            else:
                file.write((effect(side) if answers[side] == "later" else answers[side]) + "\n")
                answers[side] = None


def run(command, path):
    """Runs the command on the file; returns the seconds that it took and what it printed."""
    with open(path, "rb") as file:
        start = time.perf_counter()
        child = subprocess.Popen(command, stdin=file, stdout=subprocess.PIPE)
        printed = child.stdout.read()
        status = child.wait()
        took = time.perf_counter() - start
    if status != 0 or not printed.startswith(b"lawful\n"):
        sys.exit(f"{command} ended with {status} and printed {printed!r}")
    return took, printed


def main():
    subprocess.run([f"{TOP}/lamport_ring", "--help"], check=True, stdout=subprocess.DEVNULL)
    with tempfile.TemporaryDirectory() as folder:
        twin = [build_twin("calls_twin", folder)]
        print(f"{os.cpu_count()} cores, {RUNS} runs of each")
        print()
        print("| Calls | Input, bytes | `audit --calls`, s | Twin, s | Ratio | Lines a second | Peak, KiB |")
        print("|---|---|---|---|---|---|---|")
        for calls in [10_000, 100_000, 1_000_000, 10_000_000]:
            path = f"{folder}/calls"
            write_calls(path, calls)
            ours, twins = [], []
            for _ in range(RUNS):
                took, printed = run(AUDIT, path)
                ours.append(took)
                took, wanted = run(twin, path)
                twins.append(took)
                if printed != wanted:
                    sys.exit(f"the program printed {printed!r}, and the twin {wanted!r}")
            with open(path) as file:
                text = file.read()
            lines = text.count("\n")
            most = peak(AUDIT, text)
            print(
                f"| {calls:,} | {os.path.getsize(path)} | {min(ours):.3f} | {min(twins):.3f} | {min(ours) / min(twins):.2f} | "
                f"{lines / min(ours) / 1e6:.0f} million | {most} |",
                flush=True,
            )


if __name__ == "__main__":
    main()
