"""Tests of the exercises for a class, for page/test: those of tests/exercises.mjs and tests/check.mjs, run by node. Each takes the page, a `same` that
compares and a folder."""
import os
import re
import shutil
import subprocess

from browser import PAGE, counts


def try_by_node(same, name):
    if not shutil.which("node"):
        return print(f"skipped, since node is not on the PATH: {name}")
    said = subprocess.run(["node", os.path.join(PAGE, "tests", name)], capture_output=True, text=True, check=False).stdout
    passed, failed = map(int, re.search(r"(\d+) passed, (\d+) failed\n$", said).groups())
    counts.add(passed, 0)
    same(name, [failed, said if failed else ""], [0, ""])


def test_exercises(_, same, __):
    """A teacher's file, the judgement of a construction, and the codes of hand-ins."""
    try_by_node(same, "exercises.mjs")


def test_check(_, same, __):
    """page/check: the shipped exercises, a class of 60, malicious hand-ins."""
    try_by_node(same, "check.mjs")


TESTS = [test_exercises, test_check]
