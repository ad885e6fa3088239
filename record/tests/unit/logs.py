#!/usr/bin/env python3
"""logs.py: tests record/convert on the logs in ../logs, and on arguments and logs that it refuses. The audit is that of compare.py. The last line is `N passed, M failed`."""
import contextlib
import importlib.machinery
import importlib.util
import io
import os
import subprocess
import sys

import compare
from counting import Counting

CONVERT, LOGS = f"{compare.HERE}/convert", f"{compare.HERE}/tests/logs"
LOADER = importlib.machinery.SourceFileLoader("convert", CONVERT)
convert = importlib.util.module_from_spec(importlib.util.spec_from_loader("convert", LOADER))
LOADER.exec_module(convert)
NO_OPERATION = "is not an operation with :process, :type, :f and :value, as JSON or EDN"
ANY = f"queue 0 {2**64 - 1}"
WHOLE = f"{ANY}|P put 1|C take|P stored|C item 1|C take|C empty|P put {2**64 - 1}|P full|P put 3|C take|C item 3|"
PLAIN = "queue|P put 1|C take|P stored|C item 1|"
# For each log its recording, or why it is refused; and for a recording its verdict.
WANTED = {
    "jepsen.edn": (WHOLE, "lawful"),
    "jepsen.jsonl": (WHOLE, "lawful"),
    "mark.jsonl": (WHOLE, "lawful"),
    "vector.edn": (PLAIN, "lawful"),
    "tagged.edn": (PLAIN, "lawful"),
    "array.json": (PLAIN, "lawful"),
    "colons.jsonl": (PLAIN, "lawful"),
    "closes.edn": ("queue|P put 1|P stored|P close|P closed|C take|C item 1|", "lawful"),
    "one_process.edn": ("queue|P put 1|P stored|C take|C item 1|", "lawful"),
    "lost.edn": ("queue|P put 1|P stored|C take|C empty|", "fault: line 5: empty, but item 1 was inside since line 3"),
    "two_producers.edn": ("line 3 has process 2, and process 0 puts too: a recording has one producer and one consumer", ""),
    "two_consumers.jsonl": ("line 3 has process 3, and process 0 takes too: a recording has one producer and one consumer", ""),
    "drain.edn": ("line 1 has the function drain, but only enqueue, dequeue and close are supported", ""),
    "within.edn": ("line 2 begins a call of process 0, but its call of line 1 has not ended", ""),
    "behind_info.edn": ("line 3 begins a call of process 0, but its call of line 1 has not ended", ""),
    "no_begin.edn": ("line 1 ends a dequeue of process 1, which has none under way", ""),
    "text.edn": ('line 1 enqueues "a", but an item must be a number below 2^64', ""),
    "nil_item.edn": ("line 2 dequeues nil, but an item must be a number below 2^64", ""),
    "close_fails.edn": ("line 2 has the type fail, which is not supported for close", ""),
    "other_line.edn": (f"line 2 {NO_OPERATION}", ""),
}
counts = Counting()
same = counts.same


def converted(words, log=""):
    """Runs record/convert; returns its status, its output and its standard error."""
    out, said, before = io.StringIO(), io.StringIO(), sys.stdin
    sys.stdin = io.TextIOWrapper(io.BytesIO(log if isinstance(log, bytes) else log.encode()))
    try:
        with contextlib.redirect_stdout(out), contextlib.redirect_stderr(said):
            status = convert.main(words)
    except Exception as error:  # pylint: disable=broad-except
        status = repr(error)
    sys.stdin = before
    return status, out.getvalue(), said.getvalue()


def main():
    same("each log is tested", sorted(os.listdir(LOGS)), sorted(WANTED))
    for name, (wanted, verdict) in WANTED.items():
        path = f"{LOGS}/{name}"
        text = wanted.replace("|", "\n")
        same(name, converted([path]), (0, text, "") if verdict else (1, "", f"convert: {wanted}\n"))
        if verdict:
            found = subprocess.run(compare.AUDIT, input=text, capture_output=True, text=True, check=False).stdout
            same(f"{name}: the audit", found.split("\n")[0], verdict)
    with open(f"{LOGS}/lost.edn", encoding="utf-8") as file:
        log = file.read()
    same("standard input, and a byte order mark", converted([], f"\ufeff{log}"), (0, "queue\nP put 1\nP stored\nC take\nC empty\n", ""))
    same("carriage returns", converted([], log.replace("\n", "\r\n"))[1].count("\n"), 5)
    same("a queue", converted(["--queue", "8", f"{LOGS}/jepsen.edn"])[1].split("\n")[0], "queue 8")
    same("a queue of two numbers", converted(["--queue", "2 8"], log)[1].split("\n")[0], "queue 2 8")
    done = subprocess.run([CONVERT], input=b"{}\n", capture_output=True, check=False)
    same("by itself", (done.returncode, done.stdout, done.stderr), (1, b"", f"convert: line 1 {NO_OPERATION}\n".encode()))
    same("an empty log", converted([]), (0, "queue\n", ""))
    same("help", [converted(["--help"])[::2], converted(["-h"])[1].startswith("record/convert")], [(0, ""), True])
    for words in (["a", "b"], ["--queue"]):
        same(f"the command line {words}", converted(words), (2, "", "usage: record/convert [--queue B] [LOG]\n"))
    for queue in ("nonsense", "0", "08", "8 8", "8 2", "1 2 3", "-1", " 8", "8\n", "8 ", "٣", f"{2**64}", f"1 {2**64}", "cut 8", "queue 8"):
        status, printed, said = converted(["--queue", queue], log)
        seen = status, printed, said.count("\n"), said.startswith(f"convert: --queue {ascii(queue)}: expected a number ")
        same(f"the queue {queue!r}", seen, (2, "", 1, True))
    for queue in ("", "1", f"{2**64 - 1}", "0 1", f"0 {2**64 - 1}"):
        same(f"the queue {queue!r}", converted(["--queue", queue], log)[:2], (0, f"queue {queue}".rstrip() + "\nP put 1\nP stored\nC take\nC empty\n"))
    for begin in ("[", '{"a":', '{"process":0,"type":"invoke","f":"enqueue","value":' + "["):
        same(f"nested deeply: {begin}", converted([], f"{log}{begin * 100_000}\n"), (1, "", f"convert: line 5 {NO_OPERATION}\n"))
    same("no text", converted([], log.encode() + b"\n\xff\n"), (1, "", "convert: line 6 is not valid UTF-8\n"))
    same("no file", converted([f"{LOGS}/none"]), (1, "", f"convert: {LOGS}/none: No such file or directory\n"))
    return counts.end()


if __name__ == "__main__":
    sys.exit(main())
