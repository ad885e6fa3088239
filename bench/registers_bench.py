#!/usr/bin/env python3
"""The audit of recorded registers: python3 bench/registers_bench.py, from any folder, on a machine that does nothing else.

It prints a table: for recordings of several lengths the shortest time of `audit --register` and of a twin in plain Rust with the same rules
(registers_twin.rs, built with rustc -O), the ratio, the lines per second, and the peak memory of both. The register is atomic, has the values 0 to
999, a writer and four readers; all are under way most of the time, and reads are short. One more recording has a read that lasts through all of it, so
that each write is kept. It builds the program first if it is not built.
"""
import os
import random
import subprocess
import sys
import tempfile
import time

from bench import PROGRAM, TOP, build_twin, peak

AUDIT = [PROGRAM, "audit", "--register"]
RUNS = 5
VALUES, READERS = 1000, 4


def write_recording(path, lines, stalls):
    """Writes a recording of this many lines. An operation takes effect either at its start or at its end."""
    pick = random.Random(1)
    draw = pick.random
    held = 0
    # what each side has under way: the value of a write that takes effect at its end; the value of a read that took effect at its start
    under_way = [None] * (READERS + 1)
    begun = [False] * (READERS + 1)
    with open(path, "w", encoding="ascii") as file:
        file.write(f"register 0 {VALUES}\n")
        if stalls:
            file.write(f"R{READERS + 1} read\n")
        for _ in range(lines - 1 - stalls):
            side = int(draw() * (READERS + 1))
            at_once = draw() < 0.5
            if not begun[side]:
                value = int(draw() * VALUES) if side == 0 else held
                if side == 0 and at_once:
                    held = value
                under_way[side] = None if side == 0 and at_once or side and not at_once else value
                file.write(f"R{side} read\n" if side else f"W write {value}\n")
            elif side:
                file.write(f"R{side} got {held if under_way[side] is None else under_way[side]}\n")
            else:
                held = held if under_way[0] is None else under_way[0]
                file.write("W wrote\n")
            begun[side] = not begun[side]


def run(command, path):
    """Runs the command on the file; returns the seconds that it took and what it printed."""
    with open(path, "rb") as file:
        start = time.perf_counter()
        child = subprocess.Popen([*command, "--report"], stdin=file, stdout=subprocess.PIPE)
        printed = child.stdout.read()
        status = child.wait()
        took = time.perf_counter() - start
    if status != 0 or not printed.startswith(b"atomic\n"):
        sys.exit(f"{command} ended with {status} and printed {printed!r}")
    return took, printed


def main():
    subprocess.run([f"{TOP}/lamport_ring", "--help"], check=True, stdout=subprocess.DEVNULL)
    with tempfile.TemporaryDirectory() as folder:
        twin = [build_twin("registers_twin", folder)]
        print(f"{os.cpu_count()} cores, {RUNS} runs of each")
        print()
        print("| Lines | Input, bytes | `audit --register`, s | Twin, s | Ratio | Lines a second | Peak, KiB | Twin's peak, KiB |")
        print("|---|---|---|---|---|---|---|---|")
        for lines, stalls in [(10_000, False), (1_000_000, False), (10_000_000, False), (1_000_000, True)]:
            path = f"{folder}/recording"
            write_recording(path, lines, stalls)
            ours, twins = [], []
            for _ in range(RUNS):
                took, printed = run(AUDIT, path)
                ours.append(took)
                took, wanted = run(twin, path)
                twins.append(took)
                if printed != wanted:
                    sys.exit(f"the program printed {printed!r}, and the twin {wanted!r}")
            with open(path, encoding="ascii") as file:
                text = file.read()
            print(
                f"| {lines:,}{', a read through all' * stalls} | {os.path.getsize(path)} | {min(ours):.3f} | {min(twins):.3f} | {min(ours) / min(twins):.2f} | "
                f"{lines / min(ours) / 1e6:.0f} million | {peak(AUDIT, text)} | {peak(twin, text)} |",
                flush=True,
            )


if __name__ == "__main__":
    main()
