"""Tests what record/explore finds with older values and the other choices, for record/test: the queues of broken/orders.h, correct and with 15 bugs; the
weakest orders of six of them; a test that draws; parts of all executions; and conditions that only gcc would make racy."""
import concurrent.futures
import json
import os
import re
import shlex
from xml.etree import ElementTree

# The status and the output for each bug of broken/orders.h.
BUGS = (
    (3, "item 0 was not inside"),
    (3, "item 0 was not inside"),
    (3, "item 0 was not inside"),
    (3, "item 0 was not inside"),
    (3, "item 0 was not inside"),
    (3, "item 0 was not inside"),
    (3, "item 0 was not inside"),
    (3, "closed, but item 1 of line 2 is inside"),
    (3, "closed, but item 1 of line 2 is inside"),
    (3, "data race: .* at (full|slot) "),
    (4, "waits forever: the producer is over, the consumer waits at orders.h:"),
    (4, "waits forever: the producer is over, the consumer waits at orders.h:"),
    (3, "item 1 comes again|item 0 was not inside"),
    (3, "full, but at most 0 inside"),
    (3, "empty, but item 1 was inside"),
)
# The bug that a sequentially consistent execution shows, without spurious wake-ups or failures.
OF_LOGIC = 12
FORMS = range(1, 12)
# The orders found in textbooks, by form: for each a line of the text, its kind, and the weakest order that suffices.
TEXTBOOK = {
    1: (
        ("LOAD(head, acquire) == CAPACITY", "load", None),
        ("STORE_BUT(1, tail", "store", "release"),
        ("LOAD_BUT(2, tail", "load", "acquire"),
        ("STORE(head, h + 1, release)", "store", "release"),
        ("const uint64_t t = LOAD(tail", "load", "relaxed"),
    ),
    2: (("STORE_BUT(3", "store", "release"), ("LOAD_BUT(4", "load", "acquire")),
    4: (("LOAD_BUT(7, tail", "load", "acquire"), ("STORE(tail, t + 1, release)", "store", "release")),
    10: (("STORE(node[last].next", "store", "release"), ("LOAD(node[first].next", "load", "acquire")),
    11: (
        ("STORE(number, n + 2, release)", "store", "release"),
        ("const uint64_t n = LOAD(number, acquire)", "load", "acquire"),
        ("STORE(taken, n, release)", "store", "release"),
    ),
    7: (("if (BUG != 11) atomic_thread_fence", "fence", "seq_cst"), ("atomic_thread_fence(memory_order_seq_cst);\n        if (h ==", "fence", "seq_cst")),
}


class Orders:
    def __init__(self, check, run, here):
        self.check, self.run, self.here = check, run, here

    def explore(self, words, options="", **limits):
        env = " ".join(f"EXPLORE_{name}={shlex.quote(str(value))}" for name, value in limits.items())
        status, out, said = self.run(f"{env} {shlex.quote(self.here)}/explore {options} {words}")
        return status, out.decode(errors="replace") + said

    def called(self, program):
        status, out, said = self.run(program)
        return status, out.decode(errors="replace") + said

    def bugs(self):
        """Each is found within the default bound, and its schedule shows it again; no execution that is sequentially consistent shows those of orders."""
        for bug, (want, words) in enumerate(BUGS, 1):
            program = f"$ROOM/orders_{bug}"
            status, printed = self.explore(f"broken/orders.c -- -DBUG={bug} -Wall -Wextra -Werror", f"-o {program}")
            took = re.search(r"(?:after |bound of 3, )(\d+\.\d\d) s", printed)
            self.check(f"orders: bug {bug}", status == want and re.search(words, printed) and took and float(took[1]) < 10, (status, printed[-2000:]))
            print(f"explore: bug {bug} of orders.h: {next((line for line in printed.split(chr(10)) if 'execution' in line), '')}", flush=True)
            schedule = re.search(r"(?m)^schedule: (.*)$", printed)
            status, out, said = self.run(f"EXPLORE_SCHEDULE={shlex.quote(schedule[1] if schedule else '')} {program}")
            self.check(f"orders: bug {bug}: again", status == want and re.search(words, out.decode() + said), (status, out[-1000:], said))
            status, out, said = self.run(f"EXPLORE_OLDER=0 EXPLORE_FAILS=0 EXPLORE_WAKES=0 EXPLORE_HANDED=0 {program}")
            self.check(f"orders: bug {bug}: sequentially consistent", (status == 0) == (bug != OF_LOGIC), (status, out[-1000:], said))

    def forms(self):
        for form in FORMS:
            status, printed = self.explore(f"broken/orders.c -- -DBUG=0 -DFORM={form} -Wall -Wextra -Werror")
            good = status == 0 and re.match(r"[\d,]{3,} executions within a bound of 3, .* all lawful\n", printed) and "no data race was seen." in printed
            self.check(f"orders: form {form}", good, (status, printed))

    def weakest(self):
        """The weakest orders are those in textbooks, and are found within five seconds."""
        with open(f"{self.here}/broken/orders.h", encoding="ascii") as file:
            text = file.read()
        for form, wanted in TEXTBOOK.items():
            name = next(name for name, number in re.findall(r"#define (\w+) (\d+)\n", text) if number == str(form))
            section = text.index(f"#if FORM == {name}\n")
            status, printed = self.explore(f"broken/orders.c -- -DFORM={form}", "--orders")
            took = re.search(r"(?m)^\d+ explorations, (\d+\.\d) s$", printed)
            self.check(f"orders: weakest of form {form}", status == 0 and took and float(took[1]) < 5, (status, printed))
            found = dict(re.findall(r"(?m)^  (orders\.h:\d+ +\w+) (\w+)", printed.split("all lowered together")[-1]))
            for line, kind, order in wanted:
                at = text[: text.index(line, section)].count("\n") + 1
                got = next((value for key, value in found.items() if key.split() == [f"orders.h:{at}", kind]), None)
                self.check(f"orders: weakest of form {form}, line {at}", got == order if order else got in ("relaxed", "acquire"), (got, printed))
        status, printed = self.explore("broken/orders.c -- -DBUG=1", "--orders")
        good = status == 3 and printed.startswith("the orders of the text do not suffice: fault: ") and "seq_cst everywhere does" in printed
        self.check("orders: weakest of a bug", good and re.search(r"store release \(relaxed in the text\)", printed), (status, printed))

    def draws(self):
        """A test that draws needs no seed."""
        status, printed = self.explore("tests/draws.c", "-o $ROOM/draws")
        self.check("explore: draws", status == 0 and " all lawful\n" in printed, (status, printed))
        status, out, _ = self.run("$ROOM/draws bug")
        printed = out.decode()
        good = (
            status == 3 and re.search(r"(?m)^found in execution [\d,]+, with (\d preemptions?, )?2 draws, after", printed) and " draws 2 at draws.c:" in printed
        )
        self.check("explore: draws, a bug", good, (status, printed))
        schedule = re.search(r"(?m)^schedule: (.*)$", printed)[1]
        status, out, _ = self.run(f"EXPLORE_SCHEDULE={shlex.quote(schedule)} $ROOM/draws bug")
        self.check("explore: draws, again", status == 3 and "draws 2  (draws.c:" in out.decode(), (status, out))
        status, out, _ = self.run("EXPLORE_DRAWS=1 $ROOM/draws bug")
        self.check("explore: at most one draw", status == 0, (status, out))

    def parts(self):
        """The parts together make every execution exactly once; several processes print the same."""
        room = os.environ["ROOM"]
        self.explore("broken/orders.c -- -DFORM=7", "-o $ROOM/parts")
        for bound in (2, 3):
            _, whole, _ = self.run(f"EXPLORE_BOUND={bound} EXPLORE_REPORT=$ROOM/whole.json EXPLORE_DUMP=$ROOM/whole.txt $ROOM/parts")
            reports, texts, sums = [], [], set()
            for part in range(1, 6):
                _, out, _ = self.run(f"EXPLORE_BOUND={bound} EXPLORE_PART={part}/5 EXPLORE_REPORT=$ROOM/part.json EXPLORE_DUMP=$ROOM/part.txt $ROOM/parts")
                sums.update(re.findall(r"have the checksum (\w+) ", out.decode()))
                with open(f"{room}/part.json", encoding="utf-8") as file, open(f"{room}/part.txt", encoding="ascii") as dump:
                    reports.append(json.load(file))
                    texts += dump.read().split("\n\n")[:-1]
            with open(f"{room}/whole.json", encoding="utf-8") as file, open(f"{room}/whole.txt", encoding="ascii") as dump:
                report, all_texts = json.load(file), dump.read().split("\n\n")[:-1]
            same = all(sum(part[name] for part in reports) == report[name] for name in ("executions", "older", "empty", "overlapped"))
            self.check(f"explore: five parts within {bound}", same and sorted(texts) == sorted(all_texts) and len(sums) == 1, (reports, report, sums, whole))
        status, printed = self.explore("broken/orders.c -- -DFORM=7", "--jobs 3 --junit $ROOM/junit.xml")
        good = status == 0 and re.match(rf"{report['executions']:,} executions within a bound of 3, in 3 parts, .* all lawful\n", printed)
        suite = ElementTree.parse(f"{room}/junit.xml").getroot()
        self.check("explore --jobs", good and suite.attrib["failures"] == "0", (status, printed, report))
        status, printed = self.explore("broken/orders.c -- -DBUG=11", "--jobs 3 --junit $ROOM/junit.xml")
        suite = ElementTree.parse(f"{room}/junit.xml").getroot()
        good = status == 4 and "waits forever: " in printed and suite.attrib["failures"] == "1"
        self.check("explore --jobs of a bug", good and "waits forever: " in suite.find("testcase/failure").attrib["message"], (status, printed))

    def options(self):
        """One order for both sides; delayed loads; files with their folders; places accessed with several sizes; wrong arguments."""
        status, printed = self.explore("broken/orders.c -- -DFORM=1", "--strict")
        good = status == 3 and re.match(r"not strict: line \d+: empty, and line \d+: full: no order has both, ", printed)
        self.check("explore --strict of a ring by acquire and release", good, (status, printed))
        status, printed = self.explore("broken/orders.c -- -DFORM=1", "--strict", OLDER=0)
        self.check("explore --strict, sequentially consistent", status == 0, (status, printed))
        status, printed = self.explore("tests/late.c", "--late")
        good = status == 0 and re.search(
            r"(?m)^perhaps delayed: the consumer's load of slot(\+8)? \(late.c:\d+\) may find the producer's later store \(late.c:\d+\), ", printed
        )
        self.check("explore --late", good and re.search(r"(?m)^schedule: P", printed), (status, printed))
        status, printed = self.explore("tests/late.c", "")
        self.check("explore without --late", status == 0 and "perhaps delayed" not in printed, (status, printed))
        status, printed = self.explore("tests/late.c -- -DSIZES", "")
        self.check(
            "explore: several sizes", status == 0 and re.search(r"(?m)^of (slot\S* ?)+,?.* not all older values are tried: ", printed), (status, printed)
        )
        status, printed = self.explore("broken/orders.c -- -DBUG=1", "--paths")
        self.check("explore --paths", status == 3 and f" finds at {self.here}/broken/orders.h:" in printed, (status, printed))
        status, printed = self.explore("broken/orders.c -- -DBUG=14", "", SCHEDULE="P14 C P4:fail C9:old2")
        good = status == 3 and "C9:old2 is not a choice of this test" in printed and "P4:fail is no" not in printed
        self.check("explore: a choice of a schedule that is none", good, (status, printed))
        for standard, want in ((17, 0), (20, 3)):
            for words, options in (("", "-o $ROOM/sequences "), ("$ROOM/sequences", "")):
                status, printed = self.explore(f"tests/sequences.cpp -- -std=c++{standard} -Wall -Wextra -Werror", options) if options else self.called(words)
                self.check(f"explore: release sequences of C++{standard}", status == want and ("data race: " in printed) == (want == 3), (status, printed))
        status, printed = self.explore("broken/orders.c -- -DFORM=7", "--orders")
        self.check("explore --orders: never reached", status == 0 and "\nnever reached: full, empty\n" in printed, (status, printed))
        status, printed = self.explore("broken/orders.c -- -DFORM=7", "--part 1/4")
        self.check("explore --part", status == 0 and "This holds of this part of the executions, " in printed, (status, printed))
        status, printed = self.explore("broken/orders.c -- -DFORM=7", "--jobs 4")
        self.check("explore --jobs: what it means", status == 0 and "This holds of this test, " in printed, (status, printed))
        for words, wanted in (
            ("--jobs 0 x.c", "--jobs needs a whole number from 1"),
            ("--bound x x.c", "invalid int value: 'x'"),
            ("--what x.c", "--what"),
            ("--jobs 2 --part 1/2 x.c", "it cannot be combined with --part"),
            ("--orders --jobs 2 x.c", "--orders cannot be combined with --jobs"),
            ("--junit /nowhere/x.xml tests/late.c", "explore: /nowhere/x.xml: No such file or directory"),
        ):
            status, printed = self.explore(words)
            self.check(f"explore {words}", status == 2 and wanted in printed, (status, printed))

    def guards(self):
        """Seven ways of writing a condition are lawful, with gcc and with clang."""
        for compiler in ("gcc", "clang"):
            if self.run(f"command -v {compiler}")[0] != 0:
                print(f"missing: guards by {compiler}: apt-get install {compiler}", flush=True)
                continue
            ways = [(guard, level) for guard in range(1, 8) for level in ("-O0", "-O1", "-O2")]
            commands = [f"CC={compiler} {shlex.quote(self.here)}/explore tests/guards.c -- {level} -DGUARD={guard} -Wall -Wextra" for guard, level in ways]
            with concurrent.futures.ThreadPoolExecutor(os.cpu_count()) as side_by_side:
                for (guard, level), (status, out, said) in zip(ways, side_by_side.map(self.run, commands)):
                    good = status == 0 and b" all lawful\n" in out and b"no data race was seen." in out
                    self.check(f"explore: guard {guard} by {compiler} {level}", good, (status, out, said))


def try_all(check, run, here):
    it = Orders(check, run, here)
    for attempt in (it.bugs, it.forms, it.weakest, it.draws, it.parts, it.options, it.guards):
        attempt()
