#!/usr/bin/env python3
"""Time and peak memory: python3 bench/bench.py, from any folder, on a machine that does nothing else.

It prints a table: for each input the shortest and the median time of several runs, the shortest time of a twin in plain
Rust (audit_twin.rs, built with rustc -O) and the ratio to it, and the peak memory above that of the bare process (the
same command on a trace of two events) beside its limit: the input and 16 bytes per event. A second table is
for the audit of programs, on prefixes of traces of plays: its shortest time beside those of the audit of their bits
and of the twin, and its peak memory. A third is for plays: their time, that of a play whose trace is written, and the peak
memory of both. It builds the programs first if they are not built.
"""
import json
import os
import random
import statistics
import subprocess
import sys
import tempfile
import time

TOP = os.path.dirname(os.path.dirname(os.path.abspath(__file__)))
PROGRAM = subprocess.check_output([f"{TOP}/lamport_ring", "--which"], text=True).strip()
AUDIT_BITS = [PROGRAM, "audit", "--bits"]
AUDIT = [PROGRAM, "audit"]
MEMORY = [f"{TOP}/crates/memory_bench/out/memory_bench"]
RUNS = 20


def quiet(events):
    """Reads of s0 that no write overlaps: each returns its first value."""
    return "shape 1 3 1\n" + "C read s0\nC got s0 1\n" * (events // 2)


def overlapped(events):
    """One write of s0 that stays open, and reads of s0 during it, with alternating answers."""
    lines = ["shape 1 3 1", "P write s0 0", "C read s0"]
    while len(lines) - 1 < events:
        lines.append(f"C got s0 {len(lines) // 2 % 2}")
        if len(lines) - 1 < events:
            lines.append("C read s0")
    return "\n".join(lines) + "\n"


def random_bits(events):
    """Random accesses to random bits of the largest shape. Reads that a write overlaps return a random value."""
    pick = random.Random(1)
    read_by = {"P": [f"r{i}" for i in range(256)], "C": [f"s{i}" for i in range(256)] + ["x"] + [f"c{j}.{i}" for j in range(64) for i in range(64)]}
    written_by = {"P": read_by["C"], "C": read_by["P"]}
    held = {bit: 0 for bits in read_by.values() for bit in bits} | {"s0": 1, "r0": 1}
    opened = {"P": None, "C": None}
    lines = ["shape 64 256 64"]
    while len(lines) - 1 < events:
        side = pick.choice("PC")
        other = "PC"[side == "P"]
        if opened[side] is None:
            if pick.random() < 0.5:
                bit = pick.choice(read_by[side])
                beside = opened[other]
                opened[side] = [bit, None, beside is not None and beside[0] == bit]
                lines.append(f"{side} read {bit}")
            else:
                # sometimes the bit that the other side reads
                beside = opened[other]
                overlaps = beside is not None and beside[1] is None and pick.random() < 0.5
                bit = beside[0] if overlaps else pick.choice(written_by[side])
                if overlaps:
                    beside[2] = True
                value = pick.randrange(2)
                opened[side] = [bit, value, False]
                lines.append(f"{side} write {bit} {value}")
        else:
            bit, value, overlapped = opened[side]
            opened[side] = None
            if value is None:
                lines.append(f"{side} got {bit} {pick.randrange(2) if overlapped else held[bit]}")
            else:
                held[bit] = value
                lines.append(f"{side} wrote {bit}")
    return "\n".join(lines) + "\n"


def script(schedule, items, modulus=3, width=1):
    """A script with this schedule; the consumer takes more items than there are, so that it is never done."""
    fields = {"capacity": 1, "modulus": modulus, "width": width, "items": items, "takes": 2000, "close": False}
    return json.dumps(fields | {"schedule": schedule, "oracle": "01"}, separators=(",", ":"))


def one_side(letters):
    """Letters of one side in a single run: a put, and then puts that find the ring full again and again."""
    return script(f"P{letters}", [1, 1])


def both_sides(letters):
    """Letters of the two sides in turn, each written separately, so that reads overlap writes."""
    return script("PC" * (letters // 2), [1, 0] * 500)


def long_calls(letters):
    """Letters of the two sides, for calls long enough that the items suffice: counts modulo 256 and items of 64 digits."""
    return script(("PPC" * letters)[:letters], [2**64 - 1, 0] * 500, 256, 64)


def played(text):
    """The lines of the trace of this script's play."""
    done = subprocess.run([PROGRAM, "play", "--trace"], input=text.encode(), capture_output=True, check=True)
    return done.stdout.decode().splitlines(keepends=True)


def item_by_item(events):
    """The lines of a trace of many short calls: six items are put and taken one by one, and then the last three of
    these repeatedly, since the ring is in the same state after them as before."""
    again = "P8C10P8C10P10C6"
    lines = played(script("P8C10P10C12P10C6" + again, [1, 0, 1, 0, 1, 1]))
    return lines + lines[-52:] * (events // 52)


def seconds(command, text, wanted):
    """Runs the command once on the text, and times it. If `wanted` is None, any output is accepted."""
    start = time.perf_counter()
    done = subprocess.run(command, input=text.encode(), capture_output=True)
    took = time.perf_counter() - start
    if done.returncode != 0 or done.stdout != wanted and wanted is not None:
        sys.exit(f"{command} ended with {done.returncode} and printed {done.stdout!r}")
    return took


def peak(command, text):
    """Runs the command once on the text, and returns its peak memory in KiB. Its output is a full pipe, so that it
    waits in its last write, after all its work, and its peak can be read."""
    read_end, write_end = os.pipe()
    os.set_blocking(write_end, False)
    try:
        while True:
            os.write(write_end, b"." * 4096)
    except BlockingIOError:
        os.set_blocking(write_end, True)
    child = subprocess.Popen(command, stdin=subprocess.PIPE, stdout=write_end)
    os.close(write_end)
    child.stdin.write(text.encode())
    child.stdin.close()
    waits = 0
    while waits < 20:
        time.sleep(0.005)
        with open(f"/proc/{child.pid}/stat") as it:
            waits = waits + 1 if it.read().rsplit(")", 1)[1].split()[0] == "S" else 0
    with open(f"/proc/{child.pid}/status") as it:
        most = next(int(line.split()[1]) for line in it if line.startswith("VmHWM:"))
    while os.read(read_end, 65536):
        pass
    os.close(read_end)
    child.wait()
    return most


def times(command, twin, text, wanted):
    """The times in milliseconds of several runs, alternating with runs of the twin."""
    took = [], []
    for _ in range(RUNS):
        for which, each in enumerate([command, twin]):
            took[which].append(seconds(each, text, wanted) * 1000)
    return took


def build():
    subprocess.run([f"{TOP}/lamport_ring", "--help"], check=True, stdout=subprocess.DEVNULL)
    print("bench: building memory_bench with its proof, if it is not built", file=sys.stderr)
    subprocess.run(["rt", "run"], cwd=f"{TOP}/crates/memory_bench", check=True, capture_output=True)


def build_twin(name, folder):
    """Builds a twin from this folder into another folder, and returns the path of its program."""
    twin = f"{folder}/{name}"
    subprocess.run(["rustc", "-O", "--edition", "2024", "-o", twin, f"{TOP}/bench/{name}.rs"], check=True)
    return twin


def main():
    build()
    with tempfile.TemporaryDirectory() as folder:
        twin = build_twin("audit_twin", folder)
        bare = max(peak(AUDIT_BITS, quiet(2)) for _ in range(10))
        print(f"{os.cpu_count()} cores, {RUNS} runs of each; the bare audit has {bare} KiB at its peak")
        print()
        print("| What | Input, bytes | Shortest, ms | Median, ms | Twin, ms | Ratio | Above the bare audit, KiB | Allowed, KiB |")
        print("|---|---|---|---|---|---|---|---|")
        for name, make in [("quiet", quiet), ("every read overlapped", overlapped), ("random bits of the largest shape", random_bits)]:
            for events in [1_000, 10_000, 100_000, 1_000_000]:
                text = make(events)
                took, twins = times(AUDIT_BITS, [twin, "--bits"], text, b"lawful\n")
                above = max(peak(AUDIT_BITS, text) for _ in range(5)) - bare
                print(
                    f"| {events:,} events, {name} | {len(text)} | {min(took):.1f} | {statistics.median(took):.1f} | "
                    f"{min(twins):.1f} | {min(took) / min(twins):.2f} | {above} | {(len(text) + 16 * events) // 1024} |",
                    flush=True,
                )
        took = [seconds(MEMORY, "", b"events 10000, flickers 2500\n") * 1000 for _ in range(RUNS)]
        print(f"| 10,000 events made by a memory | 0 | {min(took):.1f} | {statistics.median(took):.1f} | | | | |")
        programs(bare, twin)
        plays(bare)


def programs(bare, twin):
    """The table for the audit of programs. Program and twin must print the same."""
    print()
    print("| What | Input, bytes | `audit --bits`, ms | `audit`, ms | Twin, ms | Ratio | Above the bare audit, KiB |")
    print("|---|---|---|---|---|---|---|")
    for name, lines in [
        ("full ring", played(one_side(1_000_000))),
        ("both sides, long calls", played(long_calls(1_000_000))),
        ("both sides, item by item", item_by_item(1_000_000)),
    ]:
        for events in [10_000, 100_000, 1_000_000]:
            text = "".join(lines[: events + 1])
            wanted = subprocess.run([twin], input=text.encode(), capture_output=True, check=True).stdout
            bits = min(seconds(AUDIT_BITS, text, b"lawful\n") for _ in range(RUNS)) * 1000
            took, twins = times(AUDIT, [twin], text, wanted)
            above = max(peak(AUDIT, text) for _ in range(5)) - bare
            print(
                f"| {min(events, len(lines) - 1):,} events, {name} | {len(text)} | {bits:.1f} | {min(took):.1f} | "
                f"{min(twins):.1f} | {min(took) / min(twins):.2f} | {above} |",
                flush=True,
            )


def plays(bare):
    """The table for plays."""
    print()
    print("| What | Script, bytes | `play`, ms | Above the bare audit, KiB | `play --trace`, ms | Above the bare audit, KiB |")
    print("|---|---|---|---|---|---|")
    for name, make in [("one side", one_side), ("both sides in turn", both_sides)]:
        for letters in [10_000, 100_000, 1_000_000]:
            text = make(letters)
            cells = []
            for command in [[PROGRAM, "play"], [PROGRAM, "play", "--trace"]]:
                took = min(seconds(command, text, None) for _ in range(RUNS)) * 1000
                above = max(peak(command, text) for _ in range(5)) - bare
                cells.append(f"{took:.1f} | {above}")
            print(f"| {letters:,} letters, {name} | {len(text)} | {' | '.join(cells)} |", flush=True)


if __name__ == "__main__":
    main()
