"""explore_parts.py: for record/explore: runs a test in several processes, each of which makes a part of the executions, and writes a JUnit report.

Each part learns from its executions which memory both sides touch. If one part has learned more than the others, all parts are repeated with the
combined knowledge, since a side may then be preempted at more places: so the parts together make every execution exactly once."""
import json
import os
import subprocess
import sys
import time
from xml.etree import ElementTree

SUMS = ("executions", "older", "cut", "full", "empty", "nothing", "told", "overlapped")
GREATEST = ("status", "level", "surely_inside", "perhaps_inside", "stored", "taken")


def known_of(path):
    try:
        with open(path, encoding="ascii") as file:
            return frozenset(file)
    except OSError:
        return frozenset()


class Part:
    """The Kth of N parts, running: its output goes to a file."""

    def __init__(self, program, env, room, number, parts):
        self.report, self.known, self.printed = (f"{room}/{name}.{number}" for name in ("report", "known", "printed"))
        env = {**env, "EXPLORE_REPORT": self.report, "EXPLORE_KNOWN": self.known}
        if parts > 1:
            env["EXPLORE_PART"] = f"{number}/{parts}"
        with open(self.printed, "wb") as file:
            self.process = subprocess.Popen([program], env=env, stdout=file, stderr=subprocess.STDOUT)

    def text(self):
        with open(self.printed, encoding="utf-8", errors="replace") as file:
            return file.read()

    def contents(self):
        """The contents of its report; empty if it has written none, as after a crash."""
        try:
            with open(self.report, encoding="utf-8") as file:
                return json.load(file)
        except (OSError, ValueError):
            return {}


def run_once(program, env, room, parts):
    """Runs all parts, and stops them as soon as one has found something: returns that one, or None, and all of them."""
    all_parts = [Part(program, env, room, number, parts) for number in range(1, parts + 1)]
    found, waiting = None, list(all_parts)
    while waiting and not found:
        waiting = [part for part in waiting if part.process.poll() is None]
        found = next((part for part in all_parts if part.process.poll() not in (None, 0)), None)
        time.sleep(0.01)
    for part in waiting:
        part.process.terminate()
    for part in waiting:
        part.process.wait()
    return found, all_parts


def union(all_parts):
    """The union of the memory that the parts know as shared, if they differ; else empty."""
    known = [known_of(part.known) for part in all_parts]
    merged = {}
    for line in (line for one in known for line in one):
        region, at, *masks = line.split()
        old = merged.setdefault((region, at), [0] * 4)
        merged[(region, at)] = [a | int(mask, 16) for a, mask in zip(old, masks)]
    lines = frozenset(f"{region} {at} {' '.join(f'{mask:x}' for mask in masks)}\n" for (region, at), masks in merged.items())
    return lines if any(one != lines for one in known) else frozenset()


def merge(all_parts, seconds):
    reports = [part.contents() for part in all_parts]
    whole = {name: sum(one.get(name, 0) for one in reports) for name in SUMS}
    whole.update({name: max(one.get(name, 0) for one in reports) for name in GREATEST})
    whole.update(seconds=seconds, whole=all(one.get("whole") for one in reports), closes=any(one.get("closes") for one in reports))
    return whole


def never_reached(whole):
    never = [name for name in ("full", "empty", "told", "overlapped") if not whole[name] and (name != "told" or whole["closes"])]
    if whole["stored"] > whole["taken"]:
        never.append(f"items stored and never taken: {whole['stored'] - whole['taken']:,}")
    return never


def print_merged(whole, parts, last):
    """Prints the result in the words of the test itself."""
    print(f"{whole['executions']:,} executions within a bound of {whole['level']}, in {parts} parts, {whole['seconds']:.2f} s: all lawful")
    if not whole["whole"]:
        print("not all: the time ran out")
    if whole["cut"]:
        print(f"{whole['cut']:,} of them were cut")
    print(
        f"reached: full {whole['full']:,}, empty {whole['empty']:,}, no reason given {whole['nothing']:,}, told {whole['told']:,}, overlapped "
        f"{whole['overlapped']:,}, inside {whole['surely_inside']} {whole['perhaps_inside']}, older values in {whole['older']:,}"
    )
    never = never_reached(whole)
    if never:
        print(f"never reached: {', '.join(never)}")
    print(last if not whole["whole"] else last.replace("this part of the executions", "this test"))


def write_junit(path, name, status, text, seconds):
    suite = ElementTree.Element(
        "testsuite", name="explore", tests="1", failures=str(int(status in (3, 4))), errors=str(int(status not in (0, 3, 4))), time=f"{seconds:.3f}"
    )
    case = ElementTree.SubElement(suite, "testcase", classname="explore", name=name, time=f"{seconds:.3f}")
    if status != 0:
        lines = [line for line in text.split("\n") if line]
        words = next(
            (line for line in lines if line.startswith(("fault", "data race", "use after", "hangs", "waits", "both wait", "crash"))), lines[0] if lines else ""
        )
        ElementTree.SubElement(case, "failure" if status in (3, 4) else "error", message=words).text = text
    else:
        ElementTree.SubElement(case, "system-out").text = text
    try:
        ElementTree.ElementTree(suite).write(path, encoding="utf-8", xml_declaration=True)
    except OSError as error:
        print(f"explore: {path}: {error.strerror}", file=sys.stderr)
        return False
    return True


def run(program, name, env, room, parts, junit):
    """Runs the test in this many parts, prints the findings as a single test would, and returns the status."""
    began = time.monotonic()
    while True:
        found, all_parts = run_once(program, env, room, parts)
        known = frozenset() if found or parts == 1 else union(all_parts)
        if not known:
            break
        for part in all_parts:
            with open(part.known, "w", encoding="ascii") as file:
                file.writelines(sorted(known))
    seconds = time.monotonic() - began
    status = found.process.returncode if found else 0
    if status < 0:
        print(f"explore: the test was killed by signal {-status}", file=sys.stderr)
        status = 2
    text = (found or all_parts[0]).text()
    if found or parts == 1:
        sys.stdout.write(text)
    else:
        print_merged(merge(all_parts, seconds), parts, text.rstrip("\n").split("\n")[-1])
    if junit and not write_junit(junit, os.path.basename(name), status, text, seconds):
        return 2
    return status
