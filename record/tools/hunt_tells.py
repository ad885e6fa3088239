"""hunt_tells.py: the results of record/hunt: as text, as JSON, and as JUnit XML."""
import dataclasses
import json
import re
import shlex
import shutil
import subprocess
from xml.etree import ElementTree

# What the lawful runs may reach, by the lines of their reports. `nothing` is reported only if it was reached, since a hunt cannot know whether the queue has such ends.
REACHED = ("full", "empty", "nothing", "told", "overlapped")
NAMES = {"nothing": "no reason given"}
# The number of lines of a small recording that are printed.
PRINTED = 30


def last_lines(text, most):
    return [line for line in text.splitlines() if line.strip()][-most:]


def text_of(path):
    with open(path, encoding="utf-8") as file:
        return file.read()


def told(hunt):
    """The findings as lines of text."""
    rests, never = hunt.rests.counts()[1], hunt.never_reached()
    yield f"{hunt.runs:,} runs in {hunt.took:.1f} s, {hunt.lawful:,} lawful, {rests:,} rests"
    if hunt.lawful:
        sums = ", ".join(f"{NAMES.get(word, word)} {hunt.reached[word]:,}" for word in REACHED if word in hunt.can_reach or hunt.reached[word])
        yield f"lawful runs reached: {sums}, inside {hunt.inside[0]:,} {hunt.inside[1]:,}"
    if never:
        yield f"never reached: {', '.join(never)}"
    if "overlapped" in never:
        yield "(no call overlapped one of the other side: let both threads wait for each other first, make more calls, leave two processors free)"
    if hunt.reached["nothing"] and {"full", "empty"} & set(never):
        yield "(calls that ended with no reason given are judged less strictly: if a call knows that the queue was full or empty, record it so)"
    if not hunt.rests.lacks and not rests and any(way.rests for way in hunt.ways[: hunt.runs]):
        yield "(no thread was paused: the runs are too short, or COMMAND has handlers for all signals)"
    if hunt.cut:
        yield f"(in {hunt.cut:,} of them a log was full, so their ends are missing: give the recorder larger logs)"
    for number, kind in enumerate(hunt.kinds.values(), 1):
        yield from ("", f"{number}. {kind.words}")
        yield from (f"   {line}" for line in lines_of(kind, hunt.runs))


def lines_of(kind, runs):
    """The lines for a kind of finding."""
    if kind.lawful_as:
        yield f"as `{kind.lawful_as}` the whole recording is lawful: is that what the queue promises? If not, the fault is one"
    yield f"in {kind.runs:,} of {runs:,} runs, first in run {kind.first_run:,} after {kind.seconds:,} s, by {kind.way}"
    yield from kind.stands
    if kind.stderr:
        yield from (f"it printed: {line}" for line in said_of(text_of(kind.stderr)))
    yield from (file for file in (kind.stderr, kind.recording) if file)
    if kind.small:
        yield f"{kind.small}, {kind.small_lines:,} lines:"
        lines = text_of(kind.small).splitlines()
        yield from (f"    {line}" for line in lines[:PRINTED])
        if len(lines) > PRINTED:
            yield "    .."
        yield from (f"({line})" for line in kind.small_remarks)
    elif kind.sort == "fault":
        yield f"(not shrunk yet: run record/shrink {kind.recording})"


# What rests.c prints for a thread: a call that it is in.
STANDS = re.compile(r"(?m)^rests: thread (\d+) is at (\S+) \+0x([0-9a-f]+)\n")


def place_of(path, offset):
    """A call in words: its function, and file and line if the program was built with -g; empty if it cannot be found."""
    if not shutil.which("addr2line"):
        return f"{path} +{offset:#x}"
    # (the address is the one after the call)
    done = subprocess.run(["addr2line", "-f", "-C", "-e", path, hex(offset - 1)], capture_output=True, text=True, check=False)
    function, place = (done.stdout.split("\n") + ["", ""])[:2]
    return "" if function in ("", "??") else function if place.startswith("??") else f"{function} ({place.rsplit('/', 1)[-1].split(' ')[0]})"


def stands_of(said):
    """From the standard error of a run that hung: where each thread was, one line each, with the calls of the program from the innermost; and the rest."""
    threads = {}
    for thread, path, offset in STANDS.findall(said):
        calls = threads.setdefault(thread, [])
        if "/libc." not in path and "/rests-" not in path and len(calls) < 8:
            calls += [words] if (words := place_of(path, int(offset, 16))) else []
    return [f"thread {number} is in {', called by '.join(calls)}" for number, calls in enumerate(threads.values(), 1) if calls], STANDS.sub("", said)


def said_of(text):
    """The last lines of a run's standard error, preceded by the first fault in it, as a test that judges in process prints it."""
    last = last_lines(text, 3)
    fault = next((line for line in text.splitlines() if line.startswith("fault:")), None)
    return last if fault is None or fault in last else [fault, *last]


def write_json(hunt, file):
    """Writes the findings as a JSON object."""
    result = {
        "command": hunt.command,
        "status": hunt.status(),
        "runs": hunt.runs,
        "lawful": hunt.lawful,
        "cut": hunt.cut,
        "seconds": round(hunt.took, 2),
        "rests": hunt.rests.counts()[1],
        "without_rests": hunt.rests.lacks,
        "ways": [str(way) for way in hunt.ways],
        "reached": {**{word: hunt.reached[word] for word in REACHED}, "inside": hunt.inside},
        "never_reached": hunt.never_reached(),
        "found": [dataclasses.asdict(kind) for kind in hunt.kinds.values()],
    }
    json.dump(result, file, indent=1)
    file.write("\n")


def write_junit(hunt, file):
    """Writes a failed test for each kind of finding; if there is none, one that passed."""
    faults = sum(kind.sort == "fault" for kind in hunt.kinds.values())
    numbers = {"tests": len(hunt.kinds) or 1, "failures": faults, "errors": len(hunt.kinds) - faults, "time": f"{hunt.took:.1f}"}
    suite = ElementTree.Element("testsuite", {name: str(number) for name, number in numbers.items()}, name=printable(f"hunt {shlex.join(hunt.command)}"))
    for kind in hunt.kinds.values():
        case = ElementTree.SubElement(suite, "testcase", classname="hunt", name=printable(kind.title))
        found = ElementTree.SubElement(case, "failure" if kind.sort == "fault" else "error", message=printable(kind.words))
        found.text = printable("\n".join(lines_of(kind, hunt.runs)))
    if not hunt.kinds:
        ElementTree.SubElement(suite, "testcase", classname="hunt", name=f"{hunt.runs} runs are lawful")
    file.write(ElementTree.tostring(suite, encoding="unicode") + "\n")


def printable(text):
    """A text without characters that XML does not allow."""
    return re.sub(r"[^\t\n\r\x20-\ud7ff\ue000-\ufffd\U00010000-\U0010ffff]", "?", text)
