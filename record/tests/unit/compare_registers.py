#!/usr/bin/env python3
"""compare_registers.py COUNT SEED JUDGE..: what each JUDGE, a program built from register_unit.c, finds in recorded registers in process: the class
and the lines have to be those that `audit --register` prints, with no reason.

The recordings are those of ../examples/registers, whose verdicts are beside them, and COUNT random ones by ../tests/registers, which computes
from the definitions what must be printed. Invalid ones are left out, since no recorder writes them. The last line is
`N passed, M failed`."""
import glob
import importlib.machinery
import importlib.util
import os
import random
import re
import shlex
import subprocess
import sys
import tempfile

TOP = os.path.dirname(os.path.dirname(os.path.dirname(os.path.dirname(os.path.abspath(__file__)))))
sys.path.insert(0, f"{TOP}/tests")
from counting import Counting

loader = importlib.machinery.SourceFileLoader("registers", f"{TOP}/tests/registers")
registers = importlib.util.module_from_spec(importlib.util.spec_from_loader("registers", loader))
loader.exec_module(registers)


def without_reasons(printed):
    return re.sub(r"(?m)^(not [^:\n]*: line \d+): .*$", r"\1", printed)


def cases(count, seed):
    """Recordings, each with the expected output."""
    for verdict in sorted(glob.glob(f"{TOP}/examples/registers/*.verdict")):
        with open(verdict, encoding="ascii") as told, open(f"{verdict.removesuffix('verdict')}reg", encoding="ascii", newline="") as file:
            yield file.read(), told.read()
    rng = random.Random(seed)
    for _ in range(count):
        text = registers.made(rng)
        yield text, registers.expected(text)[1]


def main(count, seed, *judges):
    counts = Counting(most=3)
    there = [(text, without_reasons(told)) for text, told in cases(int(count), seed) if registers.parsed(text)[-1] is None]
    with tempfile.TemporaryDirectory() as room:
        for at, (text, _) in enumerate(there):
            with open(f"{room}/{at}", "w", encoding="ascii") as file:
                file.write(text)
        for judge in judges:
            ran = subprocess.run([*shlex.split(judge), *(str(at) for at in range(len(there)))], cwd=room, capture_output=True, text=True, check=False)
            found = re.split(r"(?<=\n)\n", ran.stdout)[:-1]
            if ran.returncode != 0 or len(found) != len(there):
                counts.check(False, judge, f"status {ran.returncode} after {len(found)} of {len(there)} recordings: {ran.stderr[-1000:]}")
                continue
            for (text, told), it in zip(there, found):
                counts.check(it == told, f"{judge}: of\n{text}it finds\n{it}and not\n{told}")
    return counts.end()


if __name__ == "__main__":
    sys.exit(main(*sys.argv[1:]))
