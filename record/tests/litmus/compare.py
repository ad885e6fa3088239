#!/usr/bin/env python3
"""compare.py LITMUS AXIOMS COUNT SEED: checks that explore finds exactly the outcomes of litmus tests that the axioms permit, none missing and none too
many: for the named tests in named.txt, and for COUNT random ones. LITMUS is built from litmus.c and the explorer, AXIOMS from axioms.cpp. Half of the tests
use the rules of C++20, half those of C11 to C++17. The last line is `N passed, M failed`."""
import os
import random
import re
import subprocess
import sys
import time

HERE = os.path.dirname(os.path.abspath(__file__))
sys.path.insert(0, os.path.join(HERE, "../../../tests"))
from counting import Counting

# The orders of each kind of operation, by the style of a test.
STYLES = {
    "mixed": {"R": ("rlx", "acq", "sco"), "W": ("rlx", "rel", "sco"), "U": ("rlx", "acq", "rel", "arl", "sco"), "F": ("acq", "rel", "arl", "sco")},
    "sc": {"R": ("rlx", "sco", "sco"), "W": ("rlx", "sco", "sco"), "U": ("rlx", "sco"), "F": ("sco",)},
    "weak": {"R": ("rlx", "rlx", "acq"), "W": ("rlx", "rlx", "rel"), "U": ("rlx", "acq", "rel", "arl"), "F": ("acq", "rel", "sco")},
    "fences": {"R": ("rlx",), "W": ("rlx",), "U": ("rlx",), "F": ("acq", "rel", "sco")},
}


class Judge:
    """A program that reads a test from a line and prints its outcomes."""

    def __init__(self, command, **more):
        self.process = subprocess.Popen(
            command, stdin=subprocess.PIPE, stdout=subprocess.PIPE, stderr=subprocess.DEVNULL, text=True, env={**os.environ, **more}
        )

    def outcomes(self, test):
        self.process.stdin.write(f"{test}\n")
        self.process.stdin.flush()
        found, rest = set(), []
        for line in self.process.stdout:
            if line == ".\n":
                break
            if line.startswith("outcome:"):
                found.add(re.sub(r" \(\d+\)$", "", line.rstrip("\n")))
            elif not line.startswith(("reached", "never", "This holds")):
                rest.append(line)
        return found, "".join(rest)


def random_test(dice):
    style, places, value, sides = dice.choice(list(STYLES)), dice.choice(("xy", "xy", "xyz", "x")), 0, []
    orders = STYLES[style]
    for _ in range(2):
        words = []
        for _ in range(dice.choice((2, 3, 3, 4, 4))):
            kind, at = dice.choices("WRXACF", (8, 8, 1, 1, 1, 4 if style == "fences" else 2))[0], dice.choice(places)
            value += kind in "WXC"
            words.append(
                {
                    "W": lambda: f"W{at}{value}{dice.choice(orders['W'])}",
                    "R": lambda: f"R{at}{dice.choice(orders['R'])}",
                    "X": lambda: f"X{at}{value}{dice.choice(orders['U'])}",
                    "A": lambda: f"A{at}1{dice.choice(orders['U'])}",
                    "C": lambda: f"C{at}{dice.randint(0, min(value, 3))}{value}{dice.choice(orders['U'])}{dice.choice(orders['R'])}",
                    "F": lambda: f"F{dice.choice(orders['F'])}",
                }[kind]()
            )
        sides.append(" ".join(words))
    return " | ".join(sides)


def named_tests():
    with open(f"{HERE}/named.txt", encoding="ascii") as file:
        return [[part.strip() for part in line.split(";")] for line in file if line.strip() and not line.startswith("#")]


def has(outcomes, weak):
    """Whether some outcome matches the weak one: the first values of P, C and `end`."""
    wanted = re.findall(r"(P|C|end)((?: \d+)+)", weak)
    return any(all(re.search(rf" {row}{values}(?: |$)", outcome) for row, values in wanted) for outcome in outcomes)


def main(litmus, axioms, count, seed):
    dice, counts, found, began = random.Random(seed), Counting(most=10), 0, time.monotonic()
    # (the bound is above the choices of any of these tests)
    pairs = {rules: (Judge([litmus], EXPLORE_BOUND="24", EXPLORE_SECONDS="120", EXPLORE_SEQUENCES=rules), Judge([axioms, rules])) for rules in ("20", "11")}
    tests = [(name, test, weak, known, rules) for name, test, weak, known in named_tests() for rules in pairs]
    tests += [("", random_test(dice), "", "", dice.choice(("20", "11"))) for _ in range(count)]
    for name, test, weak, known, rules in tests:
        (explored, printed), (permitted, _) = (judge.outcomes(test) for judge in pairs[rules])
        good = explored == permitted and "not all" not in printed and bool(permitted)
        if name:
            # (`C++20 allows, C11 forbids`, or the other way round; what C++20 allows by no axiom alone is not counted)
            is_known = known in ("allowed", "forbidden") or "RC11" in known or rules == "20"
            wanted = known == "allowed" or (known.startswith("C++20 allows") and "RC11" not in known and rules == "20")
            good = good and (not is_known or has(permitted, weak) == wanted)
        found += len(permitted)
        counts.check(
            good, f"{name} {rules}: {test}", f"missing {sorted(permitted - explored)[:3]}, too many {sorted(explored - permitted)[:3]} {printed[:200]}"
        )
    print(f"{len(named_tests())} named tests and {count} random ones, {found} outcomes, {time.monotonic() - began:.1f} s")
    return counts.end()


if __name__ == "__main__":
    sys.exit(main(sys.argv[1], sys.argv[2], int(sys.argv[3]), int(sys.argv[4])))
