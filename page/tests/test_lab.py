"""Tests of the explorer of register constructions, for page/test: those of tests/lab.mjs, run by node, and page/lab as a user types it. Each takes the page, a
`same` that compares and a folder."""
import os
import re
import shutil
import subprocess

from browser import PAGE, counts

UP = ["page/lab", "page/constructions/unary_up.js", "--writes", "3", "--reads", "2"]


def test_explorer(_, same, __):
    """Each construction, also with nothing merged, and checked by the proved audit."""
    if not shutil.which("node"):
        return print("skipped, since node is not on the PATH: the explorer")
    said = subprocess.run(["node", os.path.join(PAGE, "tests", "lab.mjs")], capture_output=True, text=True, check=False).stdout
    passed, failed = map(int, re.search(r"(\d+) passed, (\d+) failed\n$", said).groups())
    counts.add(passed, 0)
    same("the explorer", [failed, said if failed else ""], [0, ""])


def test_command(_, same, folder):
    """page/lab prints the class, the bound and the shortest recordings; for a file that is not a construction it says what is missing."""
    if not shutil.which("node"):
        return
    top = os.path.dirname(PAGE)
    said = subprocess.run(UP, cwd=top, capture_output=True, text=True, check=False)
    lines = said.stdout.split("\n")
    same(
        "its class and bound",
        [said.returncode, lines[0], re.sub(r"[\d.]+ s\.", "N s.", lines[1])],
        [0, "safe", "up to 3 writes and 2 reads: 7.8e+7 histories in 3758 states, N s. No larger bound is promised."],
    )
    same("its histories", [line for line in lines if line.startswith("not ")], ["not atomic, in 9 steps:", "not regular, in 13 steps:"])
    for text, words in (("({values: 2})", "page/lab: registers: those that it is built of, by their names\n"), ("({values: ", "page/lab: ")):
        path = os.path.join(folder, "none.js")
        with open(path, "w", encoding="ascii") as file:
            file.write(text)
        said = subprocess.run([UP[0], path], cwd=top, capture_output=True, text=True, check=False)
        same(f"of {text}", [said.returncode, said.stderr.startswith(words)], [2, True])


TESTS = [test_explorer, test_command]
