#!/usr/bin/env python3
"""compare.py COUNT SEED [JUDGE]: COUNT random small cases, judged by explorer/order.inc (JUDGE, a program built of judge.c) and by orders.py, which
searches all orders. Both have to agree whether each is fresh, strict, and handed over, and the line reported has to be one at fault. If
each call comes after those that ended before it began, fresh and strict have to be the verdict of the proved audit, by ring_audit.py.

Without JUDGE it is built here. The last line is `N passed, M failed`."""
import os
import random
import re
import subprocess
import sys
import tempfile
from collections import Counter

HERE = os.path.dirname(os.path.abspath(__file__))
sys.path[:0] = [HERE, os.path.join(HERE, "../../include/python"), os.path.join(HERE, "../../../tests")]
import cases
import orders
import ring_audit
import ring_calls
from counting import Counting

BUILD = "gcc -std=c11 -O2 -Wall -Wextra -Wpedantic -Werror"
BATCH = 2000
counts = Counting(most=10)
check = counts.check
# How often each end came in a run of each verdict, and each kind of words; and the verdicts.
ends, words, verdicts = Counter(), Counter(), Counter()


def line_of(told):
    return int(re.match(r"(?:fault|not strict|not handed over): line (\d+): ", told)[1])


def run_of(seed, number):
    return cases.Run(random.Random(f"{seed} {number}"))


def audit_of(run):
    audit = ring_audit.Audit(run.head, 100)
    for line in run.lines[1:]:
        _, _, side, word, *numbers = line.split(" ")
        audit.event(ring_calls.WORDS.index(f"{side} {word}"), [int(it) for it in numbers])
    return not audit.fault()


def pair_is_at_fault(case, told):
    """For a run that is fresh and not strict: whether the two calls named have no common order with what changes the queue."""
    pair = [int(it) for it in re.findall(r"line (\d+)", told)]
    wanted = [call for row in case.rows for call in row if call.lines[1] and call.lines[1] in (pair[0], pair[1])]
    return len(wanted) == 2 and not orders.has_order(case, lambda call: any(call is it for it in wanted))


def differs(run, told):
    """What is wrong with the judge's answers, or None. Counts the kinds that occurred."""
    case, (fresh, strict, handed, *by_client, _) = run.case(), told
    is_lawful = audit_of(run)
    if [by_client[0] == "fresh", by_client[1] == "strict"] != [is_lawful] * 2:
        return f"by client, by time {is_lawful}"
    if case.turn:
        verdicts["out of turn"] += 1
        return None if fresh == strict == f"fault: line {case.turn}: out of turn" else "out of turn"
    faults = orders.lines_at_fault(case)
    is_fresh, is_strict = orders.is_fresh(case), orders.is_strict(case)
    verdict = "strict" if is_strict else "fresh" if is_fresh else "fault"
    verdicts[verdict] += 1
    ends.update((verdict, "PC"[s], call.end or f"({call.begin} under way)") for s in (0, 1) for call in case.rows[s])
    for it in {fresh, strict, handed}:
        words[re.sub(r"\d+", "N", it)] += 1
    if not is_fresh == orders.is_fresh_one_by_one(case) == (not faults):
        return f"the definitions: {is_fresh}, {orders.is_fresh_one_by_one(case)}, {faults}"
    if is_strict > is_fresh or is_lawful > is_strict:
        return f"the definitions: fresh {is_fresh}, strict {is_strict}, by time {is_lawful}"
    if (fresh == "fresh") != is_fresh or (strict == "strict") != is_strict:
        return f"a verdict, which is {verdict}"
    if not is_fresh:
        return None if line_of(fresh) in faults and strict == fresh else f"the line, of {sorted(faults)}"
    if not is_strict and not pair_is_at_fault(case, strict):
        return "the pair"
    if (handed == "handed") != orders.are_handed(case):
        return "handed over"
    return None


def compare(judge, runs):
    text = "".join("\n".join(run.lines) + "\n\n" for run in runs)
    ran = subprocess.run([judge], input=text, capture_output=True, text=True, check=False)
    answers = ran.stdout.splitlines()
    check(ran.returncode == 0 and len(answers) == len(runs), "the judge answers each", f"{ran.returncode}, {len(answers)}: {ran.stderr}")
    for run, answer in zip(runs, answers):
        told = answer.split("\t")
        what = differs(run, told) if len(told) == 6 else "no answer"
        check(not what, "a case", "\n".join([str(what), answer, *run.lines]))


def compare_long(judge):
    """Of a run that is too long only a prefix is judged: a fault in it is reported, and one after it is not."""
    calls = [line for item in range(1, 5001) for line in (f"P put {item}", "P stored", "C take", f"C item {item}")]
    many = " ".join(map(str, range(1, 20001)))
    wrong = ["C take", "C item 9"]
    right = "fresh\tstrict\tnot handed over: line 5: "
    for lines, want in (
        (calls[:8000], right),
        (calls + wrong, right),
        ([*wrong, *calls], "fault: line 3: item 9, but item 1 of line 4 is next\t"),
        ([f"P put {many}", "P stored", *wrong], "fresh\tstrict\thanded\t"),
    ):
        text = "\n".join(["queue", *(f"1 0 {line}" for line in lines), "", ""])
        ran = subprocess.run([judge], input=text, capture_output=True, text=True, check=False)
        check(ran.stdout.startswith(want) and ran.stdout.endswith("\ttoo long\n") == (lines != calls[:8000]), "a long run", ran.stdout)


def tell(count):
    print(", ".join(f"{verdict} {verdicts[verdict]}" for verdict in ("fault", "fresh", "strict", "out of turn")))
    for side in "PC":
        kinds = sorted({end for _, s, end in ends if s == side})
        counts = (f"{end} {'/'.join(str(ends[verdict, side, end]) for verdict in ('fault', 'fresh', 'strict'))}" for end in kinds)
        print(f"{side}: {', '.join(counts)}")
    for it, times in sorted(words.items()):
        print(f"{times:8} {it}")
    if count >= BATCH:
        kinds = {(side, end) for _, side, end in ends}
        check(len(kinds) == 15 and all(ends[verdict, *kind] for verdict in ("fault", "strict") for kind in kinds), "each end in each verdict", ends)


def main(count, seed, judge=None):
    count = int(count)
    with tempfile.TemporaryDirectory() as room:
        if not judge:
            judge = f"{room}/judge"
            subprocess.run([*BUILD.split(" "), f"{HERE}/judge.c", "-o", judge], check=True)
        for first in range(0, count, BATCH):
            compare(judge, [run_of(seed, number) for number in range(first, min(first + BATCH, count))])
        compare_long(judge)
    tell(count)
    return counts.end()


if __name__ == "__main__":
    sys.exit(main(*sys.argv[1:]))
