#!/usr/bin/env python3
"""compare.py COUNT SEED JUDGE..: recordings judged in process, by each JUDGE, a program built from judge.c, .rs or .go, and by
ring_audit.py, must be reported as the audit reports them: in the same words, with the same report, and with lines as they are in the
recording.

The recordings are those of kinds/, those of ../examples/calls that are of the format, COUNT random ones by ../tests/causes, whose lines
are of all kinds and mostly lawful, up to the first fault, and some at the edges of batches. The audit is $AUDIT, else ../lamport_ring
audit --calls. The last line is `N passed, M failed`."""
import contextlib
import functools
import glob
import importlib.machinery
import importlib.util
import io
import os
import random
import re
import shlex
import subprocess
import sys
import tempfile
from collections import Counter

HERE = os.path.dirname(os.path.dirname(os.path.dirname(os.path.abspath(__file__))))
TOP = os.path.dirname(HERE)
sys.path[:0] = [f"{HERE}/include/python", f"{TOP}/tests"]
import ring_audit
import ring_calls
from counting import Counting

AUDIT = shlex.split(os.environ.get("AUDIT", ""))
if not AUDIT:
    AUDIT = [subprocess.check_output([f"{TOP}/lamport_ring", "--which"], text=True).strip(), "audit", "--calls"]
# The recorder's name of each kind of line.
NAMES = (
    "put",
    "close",
    "take",
    "stored",
    "some",
    "full",
    "put_short",
    "put_nothing",
    "closed",
    "item",
    "some_items",
    "empty",
    "take_short",
    "take_nothing",
    "told",
)
# How often a judge reports that a recording has no call, if it is more than once: also when it is written, or judged twice.
REPORTS = {"judge_rs": 2, "judge_go": 3}
counts = Counting(most=10)
check = counts.check


def parts_of(line):
    """The kind of a line, and its numbers."""
    side, word, *numbers = line.split(" ")
    return ring_calls.WORDS.index(f"{side} {word}"), [int(it) for it in numbers]


class Recording:
    """A recording, and what the audit prints of it: its answer, or the first line of a refusal."""

    def __init__(self, text):
        self.text, self.lines = text, text.split("\n")[:-1]
        self.head, self.is_cut = self.lines[0].removeprefix("cut "), self.lines[0].startswith("cut ")
        ran = subprocess.run(AUDIT, input=text, capture_output=True, text=True, check=False)
        self.answer = ran.stdout or ran.stderr.split("\n")[0] + "\n"
        self.words = self.answer.split("\n")[0]
        self.is_lawful = self.words == "lawful"

    def is_shown(self, told):
        """Whether stderr reports it correctly: the words, the line at fault, and the lines around it, as they are in the recording."""
        if self.is_lawful:
            return not told
        if not told.startswith(f"{self.words}\n"):
            return False
        words, *lines = told.splitlines()
        at = int(re.search(r"line (\d+)", words)[1])
        shown = {int(line[1:9]): line for line in lines if line != "        .."}
        named = {int(it) for it in re.findall(r"line (\d+)", words)}
        marked = {number for number, line in shown.items() if line[0] == ">"}
        round_it = set(range(max(at - 6, 1), min(at + 2, len(self.lines)) + 1))
        return (
            all(line[9:] == f" {self.lines[number - 1]}" for number, line in shown.items())
            and list(shown) == sorted(round_it | marked)
            and {at} <= marked <= named
            and len(marked) <= 2
        )


def in_batches(rounds, head):
    """Puts of three items and takes of two, so that one item stays inside from round to round; finally the queue is reported empty."""
    lines, item = [head, "P put 0", "P stored"], 1
    for _ in range(rounds):
        for stored in ("P stored", "P some 3"):
            lines += [f"P put {item} {item + 1} {item + 2}", stored]
            item += 3
        for first in (item - 7, item - 5, item - 3):
            lines += ["C take 2", f"C item {first} {first + 1}"]
    return "\n".join([*lines, "C take", "C empty", ""])


def texts(count, seed):
    for words in (1000, *range(0, 60, 7)):
        yield subprocess.check_output([sys.executable, f"{HERE}/tests/kinds/kinds.py", str(words)], stderr=subprocess.DEVNULL, text=True)
    for verdict in sorted(glob.glob(f"{TOP}/examples/calls/*.verdict")):
        with open(verdict, encoding="ascii") as told, open(f"{verdict.removesuffix('verdict')}calls", encoding="ascii", newline="") as file:
            if not told.read().startswith("refused"):
                yield file.read()
    loader = importlib.machinery.SourceFileLoader("causes", f"{TOP}/tests/causes")
    causes = importlib.util.module_from_spec(importlib.util.spec_from_loader("causes", loader))
    loader.exec_module(causes)
    for at in range(count):
        yield "\n".join([*causes.Maker(random.Random(f"{seed} {at}")).lines(), ""])
    for between in (65535, 65536):
        yield "\n".join([*causes.taken_again(between, False), ""])
    for rounds in (10, 42, 43, 1000):
        yield in_batches(rounds, "queue 8")
    for items in (1022, 1023, 1024, 1025, 5000):
        sevens = " 7" * items
        yield f"queue\nP put 1\nP stored\nP put{sevens}\nP stored\nC take\nC item 1\nC take {items}\nC item{sevens}\nC take\nC empty\n"
    # what a recorder writes if no items are put
    yield "queue 8\nP put\n"


def without_full_logs(said):
    """A text without the lines that say whose log was full, or that no call was recorded."""
    return re.sub(r"(?m)^ring_calls: .*\n", "", said)


def is_told_of_none(said_of, times):
    """Whether stderr, said_of(TEXT), has this many lines more for a cut recording than for a whole one, and others for one without
    calls."""
    whole, none, cut = (
        [line for line in said_of(text).splitlines() if line.startswith("ring_calls: ")]
        for text in ("queue 8\nP put 1\n", "queue 8\n", "cut queue 8\nP put 1\n")
    )
    return (
        len(none) == len(cut) == len(whole) + times
        and none[-1].startswith("ring_calls: no call was recorded: ")
        and cut[-1].startswith("ring_calls: the consumer's log was full after ")
    )


def is_told_alone(said_of):
    """Whether stderr reports once that none of a thousand calls overlapped, and nothing for fewer calls, or if one pair did."""
    calls = "P put 1\nP stored\nC take\nC item 1\n"
    few, many, met = (
        [line for line in said_of(text).splitlines() if line.startswith("ring_audit: ")]
        for text in (f"queue 8\n{calls * 249}", f"queue 8\n{calls * 500}", f"queue 8\nP put 1\nC take\nP stored\nC item 1\n{calls * 500}")
    )
    return not few and len(many) == 1 and many[0].startswith("ring_audit: of 1000 calls none overlapped one of the other side, ") and not met


def said_by(judge, text):
    with tempfile.NamedTemporaryFile("w", suffix=".calls") as file:
        file.write(text)
        file.flush()
        return subprocess.run([*shlex.split(judge), file.name], capture_output=True, text=True, check=False).stderr


def said_by_python(text):
    rec = recorder_of([parts_of(line) for line in text.splitlines()[1:]], text.startswith("cut "))
    ring_audit._counted[:] = 0, 0  # pylint: disable=protected-access
    with contextlib.redirect_stderr(io.StringIO()) as told:
        ring_audit.lawful(rec, "queue 8")
    return told.getvalue()


def judge_by_c(judge, recordings):
    with tempfile.TemporaryDirectory() as room:
        names = [f"{room}/{at}.calls" for at in range(len(recordings))]
        for name, recording in zip(names, recordings):
            with open(name, "w", encoding="ascii") as file:
                file.write(recording.text)
        keep = {**os.environ, "RING_AUDIT_KEEP": f"{room}/kept"}
        ran = subprocess.run([*shlex.split(judge), *names], capture_output=True, text=True, check=False, env=keep)
        check(ran.returncode == 0, f"{judge} ends well", ran.stderr[-1000:])
        answers = ran.stdout.split("\n\n")
        check(len(answers) == len(recordings) + 1, f"{judge} judges each", len(answers))
        told = re.split(r"(?m)^(?=fault: |refused: )", without_full_logs(ran.stderr).split("\n", 1)[-1])[1:]
        for recording, answer in zip(recordings, answers):
            check(answer + "\n" == recording.answer, f"{judge} of {recording.text[-1000:]}", answer)
            shown = "" if recording.is_lawful else told.pop(0) if told else ""
            check(recording.is_shown(shown), f"{judge} shows of {recording.text[-1000:]}", shown)
        check(not told, f"{judge} reports nothing more", told)
        with open(f"{room}/kept", encoding="ascii") as file:
            check(file.read() == [it for it in recordings if not it.is_lawful][-1].text, f"{judge} keeps the last one", "another")


def report_of(audit, is_cut):
    """A report as the audit prints it."""
    lines = ["lawful"]
    for name, value in audit.report()._asdict().items():
        lines.append(f"{name} {' '.join(map(str, value)) if name == 'inside' else ('no', 'yes')[value] if name == 'told' else value}")
    return "\n".join([*lines, *["cut yes"] * is_cut])


def record(calls, kind, numbers):
    """Calls the recorder's function for this line; returns its result."""
    if NAMES[kind] == "stored" and numbers:
        return calls.stored_of(numbers[0], numbers[0] + 1)
    return getattr(calls, NAMES[kind])(*numbers)


def recorder_of(events, is_cut):
    rec = ring_calls.Recorder(sum(len(numbers) for _, numbers in events) + 2 * len(events))
    for kind, numbers in events:
        record(rec, kind, numbers)
    rec.takes.cut = ring_calls.NEVER - 1 if is_cut else ring_calls.NEVER
    return rec


def judge_by_python(recordings, kept):
    os.environ["RING_AUDIT_KEEP"] = kept
    for recording in recordings:
        events = [parts_of(line) for line in recording.lines[1:]]
        room = sum(len(numbers) for _, numbers in events)
        by_kind, by_name = ring_audit.Audit(recording.head, room), ring_audit.Audit(recording.head, room)
        rec = recorder_of(events, recording.is_cut)
        answers = []
        for kind, numbers in events:
            answers.append(by_kind.event(kind, numbers))
            record(by_name, kind, numbers)
        with contextlib.redirect_stderr(io.StringIO()) as told:
            result = ring_audit.lawful(rec, recording.head)
        says = [f"{audit.fault() or report_of(audit, recording.is_cut)}\n" for audit in (by_kind, by_name)]
        check(says == [recording.answer] * 2, f"ring_audit.py of {recording.text[-1000:]}", says)
        lawful = len(answers) if recording.is_lawful else int(re.search(r"line (\d+)", recording.words)[1]) - 2
        check(answers == [True] * lawful + [False] * (len(answers) - lawful), f"the answers of ring_audit.py of {recording.text[-1000:]}", answers)
        good = (
            bool(result) == recording.is_lawful and result.words == repr(result) == recording.words and recording.is_shown(without_full_logs(told.getvalue()))
        )
        check(good, f"lawful of ring_audit.py of {recording.text[-1000:]}", f"{result.words}: {told.getvalue()}")
        if not recording.is_lawful:
            with open(kept, encoding="ascii") as file:
                check(file.read() == recording.text, "ring_audit.py keeps it", recording.text)


def main(count, seed, *judges):
    recordings = [Recording(text) for text in texts(int(count), seed)]
    # Each kind of line, and each kind of words, occurs.
    kinds = Counter(parts_of(line)[0] for recording in recordings for line in recording.lines[1:])
    words = Counter(re.sub(r"\d+", "N", recording.words) for recording in recordings)
    check(len(kinds) == len(NAMES), "all kinds of lines", kinds)
    print(f"{len(recordings)} recordings, {sum(kinds.values())} lines, {words['lawful']} lawful, {len(words) - 1} kinds of words of the others")
    for judge in judges:
        judge_by_c(judge, recordings)
        check(
            is_told_of_none(functools.partial(said_by, judge), REPORTS.get(os.path.basename(judge), 1)),
            f"{judge} reports that there is no call",
            said_by(judge, "queue 8\n"),
        )
        check(is_told_alone(functools.partial(said_by, judge)), f"{judge} reports that no calls overlap", "another")
    check(is_told_alone(said_by_python), "ring_audit.py reports that no calls overlap", "another")
    check(is_told_of_none(said_by_python, 1), "ring_audit.py reports that there is no call", said_by_python("queue 8\n"))
    with tempfile.TemporaryDirectory() as room:
        judge_by_python(recordings, f"{room}/kept")
    return counts.end()


if __name__ == "__main__":
    sys.exit(main(*sys.argv[1:]))
