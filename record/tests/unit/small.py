#!/usr/bin/env python3
"""small.py RING: tests record/shrink and record/head, with the audit in process and as a program; RING is a program built from broken/ring.cpp. The last line is
`N passed, M failed`. The audit is that of compare.py."""
import os
import re
import resource
import shlex
import subprocess
import sys
import tempfile

import compare
from counting import Counting

HERE = compare.HERE
MOST = 2**64 - 1
counts = Counting()
check = counts.check


def verdict_of(recording):
    """The first line that the audit prints."""
    return subprocess.run(compare.AUDIT, input=recording, capture_output=True, check=False).stdout.decode().split("\n")[0]


def run(command):
    return subprocess.check_output(shlex.split(command))


def in_batches(rounds, head, stored_all, stored_one, took):
    """A recording of puts of three items and takes of two, where one item stays inside from round to round, so that all calls are
    connected by items; finally the queue is reported empty. Its first line and its ends have these words."""
    lines, item = [head, "P put 0", "P stored"], 1
    for _ in range(rounds):
        for stored in (3, 3, 1):
            lines += [f"P put {item} {item + 1} {item + 2}", stored_all if stored == 3 else stored_one]
            item += stored
        for first in (item - 8, item - 6, item - 4):
            lines += ["C take 2", f"{took} {first} {first + 1}"]
        lines += ["C take", f"{took} {item - 2}"]
    return "\n".join([*lines, "C take", "C empty", ""]).encode()


def seconds_of_children():
    used = resource.getrusage(resource.RUSAGE_CHILDREN)
    return used.ru_utime + used.ru_stime


def in_both_ways(tool, recording):
    """The output, standard error and status of shrink or head for a recording: with the audit as a program, and in process; and the longer processor
    time."""
    with tempfile.NamedTemporaryFile() as file:
        file.write(recording)
        file.flush()
        seen, took = [], 0
        for audit in ({"AUDIT": shlex.join(compare.AUDIT)}, {}):
            env = {name: value for name, value in os.environ.items() if name != "AUDIT"}
            began = seconds_of_children()
            done = subprocess.run([f"{HERE}/{tool}", file.name], env={**env, **audit}, capture_output=True, check=False)
            took = max(took, seconds_of_children() - began)
            seen.append((done.stdout, done.stderr.decode(), done.returncode))
    return *seen, took


def shrink_of(recording, verdict):
    """How many lines remain of a recording with this fault, and what is wrong with them, if anything: at most 12 lines, within ten seconds,
    or a message why there are more; with the same first line and, at the last line, a fault with the same words."""
    by_program, in_process, took = in_both_ways("shrink", recording)
    small, said, status = in_process
    lines = small.count(10)
    words = [re.sub(r"\d+", "N", re.sub(r"^fault: line \d+: ", "", each)) for each in (verdict, verdict_of(small))]
    good = status == 0 and small.split(b"\n")[0] == recording.split(b"\n")[0] and words[0] == words[1] and by_program == in_process
    good = good and verdict_of(small).startswith(f"fault: line {lines}: ")
    most = recording.split(b"\n")[0].split(b" ")[-1].decode()
    reason = f"shrink: {lines} lines: {int(most) + 1 if most.isdigit() else ''} items must be inside, each of which must be stored first\n"
    good = good and took < 10 and (lines <= 12 or said.startswith(reason))
    return lines, "" if good else (verdict, f"{took:.0f} s", small[:1000], said, by_program[1:])


def try_shrink(what, recording):
    lines, lacks = shrink_of(recording, verdict_of(recording))
    check(not lacks, what, lacks)
    return lines


def try_shrinks():
    """Recordings of each kind of fault; with batches and with equal items; long ones; and recordings without a fault."""
    for words_of in (("queue 8", "P stored", "P stored 1", "C item"), ("cut queue 8", "P some 3", "P some 1", "C some")):
        check((lines := try_shrink("shrink of batches", in_batches(2000, *words_of))) == 5, "shrink of batches: 5 lines are left", lines)
    sevens, pairs = " 7" * 1000, "".join(f"P put {at}\nC take\nP stored\nC item {at}\n" for at in range(8, 30_000))
    for text, most in (
        (f"queue 8\n{'P put 7|P stored|C take|C item 7|' * 2000}C take|C item 7\n", 7),
        (f"queue 8\n{'P put 7 7|C take|P stored|C item 7|C take|C item 7|' * 2000}P put 7 7|P stored|C take|C empty\n", 5),
        (f"queue\n{f'P put{sevens}|P stored|C take 2000|C item{sevens}|' * 10}P put 7 8|C take 3|C item 8 7\n", 4),
        (f"queue 8\nP put 1\nC take\nP stored\nC item 1\n{pairs}C take\nC item 1\n", 7),
        (f"queue 8\n{pairs}P put 1 2 3 4|P short\n", 3),
        (f"queue 8\n{pairs}P put 1 2 3 4|P stored|C take 9|C some 1|P put 2 3|P close\n", 3),
        (f"queue 8\n{pairs}P put 1 2 3 4|P stored|P close|C take|C closed\n", 6),
        (f"queue 8\n{pairs}P put 1|P closed\n", 3),
        (f"queue 100\n{pairs}" + "".join(f"P put {at}|P stored\n" for at in range(101)), 203),
        (f"queue 100\n{pairs}" + "".join(f"P put {3 * at} {3 * at + 1} {3 * at + 2}|P stored\n" for at in range(34)), 69),
    ):
        text = text.replace("|", "\n").encode()
        check((lines := try_shrink(f"shrink of {text[-100:]}", text)) == most, f"shrink: {most} lines are left of {text[-100:]}", lines)
    for text in compare.texts(40, "shrink"):
        text = text.encode()
        if verdict_of(text).startswith("fault: "):
            try_shrink(f"shrink of {text[-1000:]}", text)
        else:
            by_program, in_process, _ = in_both_ways("shrink", text)
            good = all(seen[0] == b"" and seen[1].startswith("shrink: ") and seen[2] == 1 for seen in (by_program, in_process))
            check(good, f"shrink has nothing to do with {text[-1000:]}", (by_program, in_process))
    filled = "".join(f"P put {at}\nP stored\n" for at in range(7))
    for text, want, said in (
        (f"{filled}P put 7\nP full\n", "P put 7\nP full\n", "line 17: full, but at most 7 inside since line 16"),
        (f"{filled}P put 7 8\nP short\n", "P put 7 8\nP short\n", "line 17: short for 2, but at most 7 inside since line 16"),
    ):
        head = "queue 8\n" if want.endswith("full\n") else "queue 9\n"
        told = f"shrink: of the whole recording: {said}; record/head finds the first line that fits\n"
        seen = in_both_ways("shrink", (head + text).encode())[:2]
        check(all(each == ((head + want).encode(), told, 0) for each in seen), f"shrink: {said}", seen)
    long = b"queue 8\n" + b"".join(b"P put %d\nC take\nP stored\nC item %d\n" % (at, at) for at in range(250_000)) + b"C take\nC closed\n"
    check((lines := try_shrink("shrink of 1,000,003 lines", long)) == 3, "shrink of a long recording", lines)


def try_heads(ring):
    """For correct rings their own first line; for rings that report full too early or too late what they do; for all a
    first line that is lawful, while tighter ones are not."""
    for bug, seeds, want in ((0, 2, b"queue 8\n"), (4, 2, b"queue 7\n"), (5, 2, b"queue 9\n"), (10, 2, b"queue ([0-7] )?[78]\n")):
        for seed in range(1, seeds + 1):
            recording = run(f"{ring} {bug} 2000 {seed}")
            for text in (recording, recording.split(b"\n", 1)[1], b"queue 512\n" + recording.split(b"\n", 1)[1]):
                by_program, in_process, _ = in_both_ways("head", text)
                good = by_program == in_process and in_process[2] == 0 and re.fullmatch(want, in_process[0])
                check(good, f"head of bug {bug}, seed {seed}", (by_program, in_process))
    filled = "".join(f"P put {at}\nP stored\n" for at in range(512))
    for text, want, said in (
        (f"queue 1 512\nP put 9\nP stored\nP put 9\nP full\nC take\nC item 9\n{filled}", "queue 1 512", "overlapped 0: "),
        (f"queue\n{filled}", "queue 512", "no call reports that the queue is full, so 512 "),
        (f"cut queue 1000\n{filled}P put 9\nC take\nP full\n", "cut queue 512", "the recording is cut"),
        (f"{filled}P put 9 9 9\nP short\n", "queue 514", "each number from 512 to 514 is lawful"),
        ("queue 3\nP put 9\nP full\n", "queue 0 1", "overlapped 0: "),
        ("queue 9\n", "queue 1", "no call reports"),
    ):
        by_program, in_process, _ = in_both_ways("head", text.encode())
        good = by_program == in_process and in_process[0] == f"{want}\n".encode() and said in in_process[1]
        check(good, f"head: {want}", (by_program, in_process))
    for text, want in (
        ("queue 8\nC take\nC item 1\n", (b"fault: line 3: item 1 was not inside; none is next\n", "", 3)),
        ("C take\nC item 1\n", (b"fault: line 3: item 1 was not inside; none is next\n", "", 3)),
        ("", (b"", "head: there is no text\n", 1)),
        ("queue 8\nP put\n", (b"", "", 1)),
        ("C item 01\n", (b"", "", 1)),
    ):
        by_program, in_process, _ = in_both_ways("head", text.encode())
        good = all(seen[0] == want[0] and want[1] in seen[1] and seen[2] == want[2] for seen in (by_program, in_process))
        check(good, f"head of {text}", (by_program, in_process))
    for text in [*compare.texts(40, "head")][::3]:
        try_head(text)


def try_head(text):
    """The recording is lawful with the printed line, and with no tighter one; or it has a fault with each."""
    lines = text.split("\n", 1)[1] if text.startswith(("queue", "cut queue")) else text
    by_program, in_process, _ = in_both_ways("head", text.encode())
    if in_process[2] != 0:
        verdict = verdict_of(f"queue 0 {MOST}\n{lines}".encode())
        good = in_process[2] == (3 if verdict.startswith("fault") else 1) and in_process[0] == f"{verdict}\n".encode() * (in_process[2] == 3)
        check(good and by_program[::2] == in_process[::2], f"head of {text[-1000:]}", (verdict, by_program, in_process))
        return
    numbers = [int(word) for word in in_process[0].decode().removeprefix("cut ").split()[1:]]
    first, last = numbers[0], numbers[-1]
    # the line, followed by lines that must not be lawful
    if last > first:
        heads = [numbers, (first + 1, last) if last > first + 1 else (last,), *([(first, last - 1)] if last > first + 1 else [])]
    elif "no call reports that the queue is full" in in_process[1]:
        heads = [numbers, *([(first - 1,)] if first > 1 else [])]
    else:
        heads = [numbers, (first + 1,)]
    verdicts = [verdict_of(f"{' '.join(map(str, ('queue', *head)))}\n{lines}".encode()) for head in heads]
    good = verdicts[0] == "lawful" and "lawful" not in verdicts[1:] and by_program == in_process
    check(good, f"head of {text[-1000:]}", (heads, verdicts, by_program, in_process))


def try_help():
    for tool in ("shrink", "head"):
        for words, status in (("--help", 0), ("-h", 0), ("", 2), ("--what --help", 2)):
            done = subprocess.run([f"{HERE}/{tool}", *words.split()], capture_output=True, text=True, check=False)
            used = (done.stdout, done.stderr)[status == 2].startswith(f"record/{tool} CALLS")
            check(done.returncode == status and used and (status == 2) == (done.stdout == ""), f"{tool} {words}", done)


def main(ring):
    try_help()
    try_shrinks()
    try_heads(ring)
    return counts.end()


if __name__ == "__main__":
    sys.exit(main(*sys.argv[1:]))
