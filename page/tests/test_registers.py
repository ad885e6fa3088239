"""Tests of what the page's module finds in recordings of registers, for page/test: those of tests/registers.mjs, run by node. Each takes the page, a `same`
that compares and a folder."""
import os
import re
import shutil
import subprocess

from browser import PAGE, counts


def test_module(_, same, __):
    """The verdicts of examples/registers, and those of the program on random recordings."""
    if not shutil.which("node"):
        return print("skipped, since node is not on the PATH: recordings of registers, by the module")
    said = subprocess.run(["node", os.path.join(PAGE, "tests", "registers.mjs")], capture_output=True, text=True, check=False)
    passed, failed = map(int, re.search(r"(\d+) passed, (\d+) failed\n$", said.stdout).groups())
    counts.add(passed, 0)
    same("recordings of registers, by the module", [failed, said.stdout if failed else ""], [0, ""])


TESTS = [test_module]
