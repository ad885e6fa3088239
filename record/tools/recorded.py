"""recorded.py: shared by record/shrink and record/head: a recording as numbers, and its audit.

The audit runs in process, by ring_audit.py, if libring_audit.so.1 is found and $AUDIT is not set; otherwise it is a program that is run each time:
$AUDIT, or ./lamport_ring audit --calls of this repository. Both find the same."""
import array
import os
import re
import shlex
import subprocess
import sys
from collections import namedtuple

RECORD = os.path.dirname(os.path.dirname(os.path.abspath(__file__)))
sys.path.insert(0, os.path.join(RECORD, "include", "python"))
import ring_audit
from ring_calls import WORDS

LAUNCHER = os.path.join(os.path.dirname(RECORD), "lamport_ring")
KINDS = {words: kind for kind, words in enumerate(WORDS)}
(PUT, CLOSE, TAKE, STORED, PUT_SOME, FULL, PUT_SHORT, PUT_NOTHING, CLOSED, ITEM, TAKE_SOME, EMPTY, TAKE_SHORT, TAKE_NOTHING, TOLD) = range(len(WORDS))
LINE = re.compile(
    r"(?:(?:P put|C item|C some)(?: (?:0|[1-9][0-9]*))+|P (?:stored|(?:stored|some) [1-9][0-9]*|full|short|nothing|closed?)|"
    r"C (?:take|take (?:[2-9]|[1-9][0-9]+)|empty|short|nothing|closed))\n"
)
# Lines without numbers: most of a recording.
BARE = {f"{words}\n": kind for words, kind in KINDS.items() if LINE.fullmatch(f"{words}\n")}
OUT_OF_TURN, NOT_LINEARIZABLE = 1, 2

# The finding for a recording: the line at fault and the words after `fault: line L: `; line 0 if it is lawful, and then the report,
# by the names of its lines.
Found = namedtuple("Found", "line words report")


class Refused(Exception):
    """A text that is not a recording, or an audit that does not answer; its text says why."""


class Recording:
    """head: its first line without `cut `, or None. lines: for each further line its kind and, from bit 32 on, how many
    numbers it has; numbers: those of all lines, one after the other. body: the text after the first line, once it was requested."""

    def __init__(self, head, is_cut, lines, numbers):
        self.head, self.is_cut, self.lines, self.numbers, self.body = head, is_cut, lines, numbers, None

    def events(self):
        """The kind and the numbers of each line after the first."""
        at = 0
        for line in self.lines:
            end = at + (line >> 32)
            yield line & 0xFFFFFFFF, self.numbers[at:end]
            at = end

    def first_line(self, head):
        return ("cut " if self.is_cut else "") + head

    def text(self, head):
        """The text of the recording, with this first line."""
        self.body = self.body or "".join(line_of(*event) + "\n" for event in self.events())
        return f"{self.first_line(head)}\n{self.body}"


def line_of(kind, numbers):
    return " ".join([WORDS[kind], *map(str, numbers)])


def recording_of(head, is_cut, events):
    """The recording of these events, each a kind and numbers."""
    lines, numbers = array.array("Q"), array.array("Q")
    for kind, those in events:
        lines.append(kind | len(those) << 32)
        numbers.extend(those)
    return Recording(head, is_cut, lines, numbers)


def read(path):
    """The recording in this file; its first line may be missing, and is not checked; only the audit decides whether it is lawful."""
    with open(path, encoding="ascii", errors="replace", newline="\n") as file:
        first = file.readline()
        has_head = re.match(r"cut |queue", first) is not None
        if not has_head:
            file.seek(0)
        first = first.removesuffix("\n") if has_head else ""
        lines, numbers = array.array("Q"), array.array("Q")
        for line in file:
            if (kind := BARE.get(line)) is not None:
                lines.append(kind)
                continue
            side, word, *those = line.split() if LINE.fullmatch(line) else ("", "")
            try:
                numbers.extend(map(int, those))
            except OverflowError:
                side = ""
            if not side:
                raise Refused(f"calls line {len(lines) + 1 + has_head} is not a line of the format: {line[:80]!r}")
            lines.append(KINDS[f"{side} {word}"] | len(those) << 32)
    if not has_head and not lines:
        raise Refused("there is no text")
    return Recording(first.removeprefix("cut ") if has_head else None, first.startswith("cut "), lines, numbers)


class Judge:
    """Audits recordings with at most `items` items in all."""

    def __init__(self, items):
        self.command, self.items, self.audit = shlex.split(os.environ.get("AUDIT", "")), max(items, 1), None
        if self.command:
            return
        try:
            ring_audit.load()
        except (OSError, ImportError):
            self.command = [program(), "audit", "--calls"]

    def found(self, recording, head):
        """The audit's finding for the recording with this first line."""
        return self.found_by_program(recording, head) if self.command else self.found_in_process(recording, head)

    def found_in_process(self, recording, head):
        try:
            if self.audit:
                self.audit.restart(head)
            else:
                self.audit = ring_audit.Audit(head, self.items, min(self.items, ring_audit.TAKEN))
        except ValueError:
            raise Refused("calls line 1 is not a line of the format") from None
        # (copies, since the audit takes over the lists passed to it)
        if self.audit.hear(recording.lines[:], recording.numbers[:]):
            report = self.audit.report()._asdict()
            return Found(0, "", {**report, "told": "yes" if report["told"] else "no", "cut": "yes" if recording.is_cut else "no"})
        if self.audit.found.verdict not in (OUT_OF_TURN, NOT_LINEARIZABLE):
            raise Refused(self.audit.fault().removeprefix("refused: "))
        return found_in(self.audit.fault())

    def found_by_program(self, recording, head):
        # (bytes: on Windows a line of text would end in CR LF, which the audit refuses)
        done = subprocess.run(self.command, input=recording.text(head).encode("ascii"), capture_output=True, check=False)
        out = done.stdout.decode("ascii", "replace")
        if done.returncode == 0:
            report = dict(line.split(" ", 1) for line in out.splitlines()[1:])
            counts = {name: int(value) for name, value in report.items() if value.isdigit()}
            return Found(0, "", {"cut": "no", **report, **counts, "inside": tuple(map(int, report["inside"].split(" ")))})
        if done.returncode == 3:
            return found_in(out.split("\n")[0])
        raise Refused(f"the audit failed: {(done.stderr.decode(errors='replace') or out).strip()}")


def program():
    """The program of this repository."""
    try:
        done = subprocess.run([LAUNCHER, "--which"], stdout=subprocess.PIPE, text=True, check=False)
    except OSError:  # (Windows runs no script of a shell)
        done = None
    if not done or done.returncode != 0:
        raise Refused("there is no audit: neither libring_audit.so.1 nor ./lamport_ring was found")
    return done.stdout.strip()


def found_in(words):
    found = re.fullmatch(r"fault: line (\d+): (.*)", words)
    if not found:
        raise Refused(f"the audit failed: {words}")
    return Found(int(found[1]), found[2], {})
