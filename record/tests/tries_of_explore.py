"""Tests record/explore for record/test, which passes its own check, run and verdict_of."""
import os
import random
import re
import shlex

import programs

# Small tests of explore_test.c: the lawful ones, and for the others the status and the output.
LAWFUL = (
    "mutex",
    "c11_mutex",
    "condition",
    "c11_condition",
    "spinlock",
    "yieldlock",
    "sleeplock",
    "semaphore",
    "list",
    "fences",
    "wide",
    "large",
    "pair",
    "timed",
    "lost_timed",
    "bell",
)
ALLOCATES = ("list",)
FOUND = (
    ("no_lock", 3, r"^fault: line 4: item 0 was not inside; item 1 of line 2 is next\n(.|\n)*^data race: the consumer reads 8 bytes at tail "),
    (
        "no_fence",
        3,
        r"all lawful\n(.|\n)*^data race: the consumer reads 8 bytes at slot \(explore_test.c:\d+\), " r"which the producer wrote \(explore_test.c:\d+\) with",
    ),
    (
        "early_free",
        3,
        r"^use after free: the consumer reads atomically 8 bytes at block 1\+8 \(explore_test.c:\d+\), which the consumer freed \(explore_test.c:\d+\)\n",
    ),
    ("early_free", 3, r"^use after free: the consumer frees block \d \(explore_test.c:\d+\), which the consumer freed \(explore_test.c:\d+\)\n"),
    ("early_free", 3, r"^use after free: the producer writes atomically 8 bytes at block 1\+8 \(explore_test.c:\d+\), which the consumer freed \("),
    ("lost_wide", 3, r"^fault: line 4: item \d+ was not inside; item 1111 "),
    ("lost_condition", 4, r"^waits forever: the producer is over, the consumer waits at explore_test.c:\d+\n"),
    ("lost_c11_condition", 4, r"^waits forever: the producer is over, the consumer waits at explore_test.c:\d+\n"),
    (
        "two_locks",
        4,
        r"^both wait forever: the producer waits at explore_test.c:\d+, the consumer waits at explore_test.c:\d+\n"
        r" +1  queue 2\n +2  P put 1\n +3  C take\n",
    ),
    ("spins", 4, r"^hangs: the producer is over, the consumer goes on at explore_test.c:\d+\n"),
    ("yields", 4, r"^hangs: the producer goes on at explore_test.c:\d+, the consumer goes on at explore_test.c:\d+\n"),
    ("loops", 4, r"^hangs: the producer goes on at explore_test.c:\d+, the consumer is over\n"),
    ("crashes", 4, r"^crash: Segmentation fault, in the consumer\n(.|\n)*    the producer stops before explore_test.c:\d+\n"),
    ("asserts", 4, r"^crash: Aborted, in the consumer\n"),
    ("wrong_side", 2, r"explore: the producer's function records a call of the consumer\n"),
    ("not_the_same", 2, r"explore: the test is not deterministic: "),
    ("apart", 2, r"explore: no memory that both sides touch was seen: "),
    ("no_head", 2, r'^explore: "queue 02" is not a first line of a recording, such as "queue 2"\n'),
)
# The same for explore_test.cpp.
CPP_LAWFUL = ("queue", "wait", "throws")
CPP_FOUND = (("lost", 4, r"^waits forever: the producer is over, the consumer waits at explore_test.cpp:\d+\n"),)
# The same for explore_rings.c.
RINGS_LAWFUL = ("ring", "place", "spin_both", "spin_box", "guard_and", "guard_or", "guard_choice")
RINGS_FOUND = (
    ("spin_put", 4, r"^hangs: the producer goes on at explore_rings.c:\d+, the consumer is over\n"),
    ("no_end", 3, r"^fault: line 7: out of turn\nP put 4 begins before put 3 of line 6 has ended: is an end missing, such as full\?\n"),
    ("put_none", 2, r"^refused: calls line \d+ is not a line of the format\na put must have at least one item\n"),
    ("no_begin", 3, r"^fault: line \d+: out of turn\nthe consumer has no call that this ends: is a start missing, such as take\?\n"),
    ("bug_ring", 3, r"^fault: line 4: item 0 was not inside; item 1 of line 2 is next\n"),
    ("spin_full", 4, r"^hangs: the producer goes on at explore_rings.c:\d+, the consumer is over\n"),
)
# A reset that does not restore everything, or a program that is not a test: status 2, only these words, and no fault.
NOT_THE_SAME = "explore: the test is not deterministic: the same schedule gave another run; reset must restore everything that the sides change\n"
THREAD = "explore: the test starts a thread, but its two sides must be functions that explore() calls\n"
NO_CALL = "explore: no call was recorded: do the two functions record their calls, with the functions of ring_calls.h?\n"
REFUSED = (
    *((f"{bug}reset_{way}", NOT_THE_SAME) for bug in ("", "bug_") for way in ("nothing", "once", "but_head", "but_tail")),
    ("later_fault", NOT_THE_SAME),
    ("later_hang", NOT_THE_SAME),
    ("later_race", NOT_THE_SAME),
    ("later_crash", NOT_THE_SAME),
    ("posix_thread", THREAD),
    ("c11_thread", THREAD),
    ("runs_thread", THREAD),
    ("", "explore: the test does not call explore()\n"),
    ("leaves", "explore: the test ended the program within explore()\n"),
    ("head", 'explore: "queu 2" is not a first line of a recording, such as "queue 2"\n'),
)
# The finding for each bug of twelve.h.
TWELVE = (
    "data race: the consumer reads 8 bytes at q .twelve.h:",
    "item 0 was not inside",
    "full, but at most 1 inside",
    "stored, but at least 3 inside",
    "item 5, but item 1 of line 2",
    "item 5, but item 1 of line 2",
    "closed, but item 2 was inside",
    "waits forever: the producer is over, the consumer waits at twelve.h:",
    "full, but at most 1 inside",
    "stored, but at least 4 inside",
    "empty, but item 2 was inside",
    "item 3 comes again",
    "item 1000003 was not inside",
)
FORMS = range(1, 8)
# Puts, preemptions and a seed that show a bug of ring.hpp; 10, 2 and 1 by default.
RING = {6: (300, 0, 1), 7: (20, 1, 8), 8: (20, 0, 86), 15: (20, 1, 8), 16: (20, 1, 15), 17: (20, 0, 86), 18: (20, 1, 1)}
ENDS = r"put|close|take|stored|some|full|short|nothing|closed|item|empty"


class Tries:
    def __init__(self, check, run, verdict_of):
        self.check, self.run, self.verdict_of = check, run, verdict_of

    def explore(self, command, **options):
        """Runs a test with these limits; returns its status and its whole output."""
        env = " ".join(f"EXPLORE_{name}={shlex.quote(str(value))}" for name, value in options.items())
        status, out, said = self.run(f"{env} {command}")
        return status, out.decode(errors="replace") + said

    def kept(self):
        with open(f"{os.environ['ROOM']}/kept.calls", encoding="ascii") as file:
            return file.read()

    def is_played_again(self, command, printed, **options):
        """The printed schedule, replayed, gives the same words and the same recording."""
        before = self.kept()
        schedule = re.search(r"(?m)^schedule: (.*)$", printed)[1]
        _, again = self.explore(command, KEEP=f"{os.environ['ROOM']}/kept.calls", SCHEDULE=schedule, **options)
        words = printed.split(":" if printed.startswith("hangs: ") else "\n")[0]
        return self.kept() == before and any(line.startswith(words) for line in again.split("\n"))

    def ways(self, name, lawful=LAWFUL, found=FOUND):
        """Correct tests are lawful in more than one execution; faults are found, and their schedules can be replayed."""
        for way in lawful:
            status, printed = self.explore(f"$ROOM/{name} {way}")
            count = re.match(r"([\d,]+) executions within a bound of 3, \d+\.\d\d s: all lawful\nreached: ", printed)
            good = status == 0 and count and int(count[1].replace(",", "")) > 1 and printed.endswith("no data race was seen.\n")
            self.check(f"{name} {way}", good, (status, printed))
        for way, want, words in found:
            if way in ("lost_wide", "early_free") and "sanitized" in name:
                continue  # its memcpy and its free are the sanitizer's
            status, printed = self.explore(f"$ROOM/{name} {way}", KEEP=f"{os.environ['ROOM']}/kept.calls")
            self.check(f"{name} {way}", status == want and re.search(words, printed, re.M), (status, printed[-2000:]))
            if status in (3, 4) and "sanitized" not in name and printed.startswith(("fault", "wait", "both", "hang", "crash")):
                self.check(f"{name} {way}: again", self.is_played_again(f"$ROOM/{name} {way}", printed), printed)

    def refused(self):
        for way, words in REFUSED:
            status, printed = self.explore(f"$ROOM/explore_rings {way}")
            self.check(f"explore_rings {way}", status == 2 and printed == words, (status, printed))

    def steps(self):
        """A replayed schedule shows what each access does, its order, and what a pointer points to."""
        for way, schedule, wanted in (
            (
                "explore_rings place",
                "P4 C",
                (
                    "stores place = slot+8 (release)  (",
                    "compares place: had slot+8, failed (relaxed)  (",
                    "compares place: had slot+8, wrote 0 (acquire)  (",
                    "reads slot+8 = 1  (",
                    "compares box: had 0, failed (seq_cst)  (",
                    "exchanges box: 0 -> 7 (acquire)  (",
                    "adds to box: 7 -> 10 (relaxed)  (",
                    "\nlawful\n",
                ),
            ),
            (
                "explore_rings place",
                "C5 P",
                (
                    "compares place: had 0, failed (relaxed)  (",
                    "adds to box: 0 -> 3 (relaxed)  (",
                    "compares box: had 3, wrote 4 (seq_cst)  (",
                    "exchanges box: 4 -> 7 (acquire)  (",
                ),
            ),
            (
                "explore_test list",
                "P11 C",
                (
                    "allocates block 2, 16 bytes  (",
                    "stores block 1+8 = block 2 (release)  (",
                    "reads block 2 = 1  (",
                    "frees block 1  (",
                    "stores block 2+8 = block 3 (release)  (",
                    "allocates block 1, 16 bytes  (",
                    "\nlawful\n",
                ),
            ),
        ):
            status, printed = self.explore(f"$ROOM/{way}", SCHEDULE=schedule)
            self.check(f"explore: the steps of {way}, {schedule}", status == 0 and all(words in printed for words in wanted), (status, printed))
        status, printed = self.explore("$ROOM/explore_rings ring")
        self.check("explore: never reached", "never reached" not in printed and "no reason given 0, told 0" in printed, (status, printed))
        status, printed = self.explore("$ROOM/explore_rings spin_both")
        self.check("explore: never reached", "\nnever reached: full, empty\n" in printed, (status, printed))
        status, printed = self.explore("$ROOM/explore_rings silent")
        self.check("explore: no call", status == 0 and " all lawful\n" in printed and printed.endswith(f"\n{NO_CALL}"), (status, printed))
        status, printed = self.explore("$ROOM/explore_rings races")
        self.check("explore: two races", status == 3 and len(re.findall(r"(?m)^data race: .*\nschedule: ", printed)) == 2, (status, printed))

    def limits(self):
        test = "$ROOM/explore_test"
        status, printed = self.explore(f"{test} twice", OLDER=0)
        self.check("explore twice", status == 0 and re.findall(r"(?m)^(\d+) exec", printed) == ["130", "268"], (status, printed))
        for way, options, want, words in (
            ("spin_long", {"BOUND": 0}, 0, "2 executions within a bound of 0, "),
            ("no_fence", {"RACES": 0}, 0, "data races were not checked."),
            ("counts", {"BOUND": 0}, 0, "2 of them were cut, after 10,000 steps "),
            ("counts", {"BOUND": 0, "STEPS": 50000}, 0, "2 executions within a bound of 0, "),
            ("condition", {"SECONDS": 0, "BOUND": 8}, 0, "\nnot all: the time ran out at those with "),
            ("mutex", {"HELP": 1}, 0, "EXPLORE_SCHEDULE="),
            ("mutex", {"BOUND": 25}, 2, "EXPLORE_BOUND is not a number up to 24\n"),
            ("mutex", {"WAKES": "x"}, 2, "EXPLORE_WAKES is not a number up to 24\n"),
            ("mutex", {"PART": "5/4"}, 2, "EXPLORE_PART must look like `1/4`\n"),
            ("mutex", {"SCHEDULE": "P C1:olds"}, 2, "EXPLORE_SCHEDULE must look like "),
            ("mutex", {"STEPS": "x"}, 2, "EXPLORE_STEPS is not a valid number\n"),
            ("mutex", {"RACES": 2}, 2, "EXPLORE_RACES must be 0 or 1\n"),
            ("mutex", {"SCHEDULE": "P1C"}, 2, "EXPLORE_SCHEDULE must look like "),
            ("mutex", {"SCHEDULE": "P999 C"}, 2, "explore: the schedule does not fit this test\n"),
            ("mutex", {"SCHEDULE": "C"}, 0, "\nlawful\n"),
            ("mutex", {"DUMP": "/nowhere/at/all"}, 2, "EXPLORE_DUMP: the file cannot be written\n"),
        ):
            status, printed = self.explore(f"$ROOM/explore_rings {way}" if way.startswith("spin_") else f"{test} {way}", **options)
            self.check(f"explore {way} {options}", status == want and words in printed, (status, printed))

    def verdicts(self):
        """All recordings of a test are judged as the audit judges them, lawful ones and others."""
        dump = f"{os.environ['ROOM']}/dump"
        self.explore("$ROOM/explore_test no_lock", BOUND=4, OLDER=0, DUMP=dump)
        with open(dump, encoding="ascii") as file:
            texts = sorted(set(file.read().split("\n\n")[:-1]))
        seen = {"lawful": 0, "fault:": 0}
        for text in texts:
            at = re.search(r"(?m)^(lawful|fault: )", text).start()
            verdict = self.verdict_of(text[:at].encode())
            seen[verdict.split(" ")[0]] += 1
            self.check("explore: the audit of a recording", verdict == text[at:].split("\n")[0], (text, verdict))
        self.check("explore: recordings of both kinds", len(texts) > 200 and min(seen.values()) > 20, seen)
        print(f"explore: {len(texts)} recordings judged as by the audit: {seen}", flush=True)

    def none_is_missed(self, way, preemptions, tried):
        """How many of the random schedules, in which a side may stop at any access, have no tried execution with the same calls in an
        order that is at least as strict."""
        dump, draw, missed, played = f"{os.environ['ROOM']}/dump", random.Random(f"{way} {preemptions}"), 0, 0
        self.explore(f"$ROOM/explore_test {way}", BOUND=tried, OLDER=0, WAKES=0, DUMP=dump)
        orders = {}
        with open(dump, encoding="ascii") as file:
            for text in file.read().split("\n\n")[:-1]:
                calls, order = order_of(text.split("\n"))
                orders.setdefault(calls, set()).add(order)
        while played < 40:
            sides = draw.choice((("P", "C"), ("C", "P")))
            most = draw.choice((2, 4, 8, 16))
            stretches = [f"{sides[i % 2]}{draw.randint(1, most)}" for i in range(draw.randint(1, preemptions))]
            status, printed = self.explore(f"$ROOM/explore_test {way}", SCHEDULE=" ".join([*stretches, sides[len(stretches) % 2]]))
            if status != 2:
                played += 1
                calls, order = order_of([line.strip() for line in printed.split("\n") if line.startswith("    ")])
                missed += not any(order <= other for other in orders.get(calls, ()))
        return missed

    def soundness(self):
        for way in ("mutex", "fences", "no_lock", "list", "semaphore", "condition"):
            missed = self.none_is_missed(way, 3, 3)
            self.check(f"explore: none is missed of {way}", missed == 0, missed)
        missed = self.none_is_missed("no_lock", 3, 0)
        self.check("explore: too few preemptions do miss some", missed > 0, missed)

    def twelve(self):
        """Each bug is found within a second, and its schedule can be replayed; each form is correct."""
        for bug, words in enumerate(TWELVE, 1):
            name = f"twelve_{bug}"
            status, _, said = self.run(programs.explored(name, "gcc -std=gnu11", "broken/twelve.c", f"-DEXPLORED -DBUG={bug}"))
            self.check(f"{name}: is built", status == 0, said)
            status, printed = self.explore(f"$ROOM/{name}", KEEP=f"{os.environ['ROOM']}/kept.calls")
            took = re.search(r"(?:after |bound of 3, )(\d+\.\d\d) s", printed)
            good = status == (4 if bug == 8 else 3) and re.search(words, printed) and took and float(took[1]) < 1
            self.check(f"explore: bug {bug}", good, (status, printed))
            line = next((line for line in printed.split("\n") if "execution" in line), "")
            print(f"explore: bug {bug} of twelve.h: {words}: {line}", flush=True)
            if bug != 1:
                self.check(f"explore: bug {bug}: again", self.is_played_again(f"$ROOM/{name}", printed), printed)
        for form in FORMS:
            name = f"form_{form}"
            status, _, said = self.run(programs.explored(name, "gcc -std=gnu11", "broken/twelve.c", f"-DEXPLORED -DBUG=0 -DFORM={form}"))
            status, printed = self.explore(f"$ROOM/{name}")
            good = status == 0 and re.match(r"[\d,]{3,} executions within a bound of 3, ", printed) and " all lawful\n" in printed
            self.check(f"explore: form {form}", good and "no data race was seen." in printed, (status, printed, said))

    def weakened(self, here):
        """Each memory order of a correct queue that is made relaxed is reported as a data race, and as nothing else."""
        room = os.environ["ROOM"]
        with open(f"{here}/broken/twelve.h", encoding="ascii") as file:
            header = file.read()
        with open(f"{here}/broken/twelve.c", encoding="ascii") as file, open(f"{room}/twelve.c", "w", encoding="ascii") as copy:
            copy.write(file.read().replace('"../include/', '"'))
        for strong, weak in (
            ("inside = (count)(tail - ACQUIRE(q->head))", "inside = (count)(tail - LOAD(q->head))"),
            ("if (head == ACQUIRE(q->tail)) return false;", "if (head == LOAD(q->tail)) return false;"),
            ("RELEASE(q->head, (count)(head + 1));", "atomic_store_explicit(&q->head, (count)(head + 1), memory_order_relaxed);"),
            ("else if (BUG != 2) RELEASE(q->tail, (count)(tail + 1));", "else atomic_store_explicit(&q->tail, tail + 1, memory_order_relaxed);"),
        ):
            with open(f"{room}/twelve.h", "w", encoding="ascii") as file:
                file.write(header.replace(strong, weak, 1))
            status, _, said = self.run(programs.explored("weakened", "gcc -std=gnu11", "$ROOM/twelve.c", "-DEXPLORED -DBUG=0 -DFORM=1"))
            status, printed = self.explore("$ROOM/weakened")
            good = strong in header and status == 3 and " all lawful\n" in printed and len(re.findall(r"(?m)^data race: .*twelve.h", printed)) == 1
            self.check(f"explore: {weak}", good, (status, printed, said))

    def ring(self, name):
        """The ring of 20 bugs, in C++."""
        for bug in range(21):
            puts, preemptions, seed = RING.get(bug, (10, 2, 1))
            seed = seed * 7919 * 104729 + 12345 if bug in RING else seed
            status, printed = self.explore(f"$ROOM/{name} {bug} {puts} {seed}", BOUND=preemptions, OLDER=0)
            good = status == 3 and printed.startswith("fault: line ") if bug else status == 0 and " all lawful\n" in printed
            self.check(f"{name}: bug {bug}", good, (status, printed[-2000:]))

    def in_two_files(self, here):
        """The same, with the ring in a file of its own."""
        room = os.environ["ROOM"]
        with open(f"{room}/my_ring.h", encoding="utf-8") as ring, open(f"{room}/my_ring.c", "w", encoding="utf-8") as file:
            file.write(ring.read().replace("static ", ""))
        with open(f"{room}/my_explore.c", encoding="utf-8") as test, open(f"{room}/my_two.c", "w", encoding="utf-8") as file:
            names = "#include <stdbool.h>\nbool my_put(uint64_t), my_take(uint64_t *);\nextern uint64_t slot[2];\nextern _Atomic uint64_t head, tail;"
            file.write(test.read().replace('#include "my_ring.h"', names))
        status, out, said = self.run(f"cd $ROOM && {shlex.quote(here)}/explore my_two.c my_ring.c")
        good = status == 3 and b"\nfound in execution 4, with 1 preemption, " in out and b" (my_ring.c:20), which the producer wrote (my_ring.c:13) with" in out
        self.check("explore of two files", good, (status, out, said))

    def readme(self, here):
        """The test in README.md is explored by the two commands there and by ./explore."""
        room = os.environ["ROOM"]
        with open(f"{here}/README.md", encoding="utf-8") as file:
            section = file.read().split("## Every execution of a small test")[1].split("\n## ")[0]
        with open(f"{here}/my_ring.h", encoding="utf-8") as ring, open(f"{room}/my_ring.h", "w", encoding="utf-8") as file:
            file.write(ring.read())
        with open(f"{room}/my_explore.c", "w", encoding="utf-8") as file:
            file.write(re.search(r"(?s)```c\n(.*?)```", section)[1])
        want = re.search(r"(?m)^    (fault: .*)$", section)[1]
        command = next(line.strip() for line in section.split("\n") if line.startswith("    gcc -fsanitize=thread"))
        rest = next(line.strip() for line in section.split("\n") if line.startswith("    gcc -O2 "))
        whole = f"cd $ROOM && {command} && {rest}".replace("record", shlex.quote(here)).replace("dist/", "$LIBRARY/")
        for each in (whole, f"cd $ROOM && {shlex.quote(here)}/explore my_explore.c"):
            status, out, said = self.run(each)
            printed = out.decode()
            self.check(f"explore of the README: {each}", status == 3 and printed.split("\n")[0] == want, (status, printed, said))
            lines = [line[4:] for line in section.split("\n") if re.match(r"    (  |> ) +\d+  |        the producer ", line)]
            self.check("explore of the README: its lines", lines and all(line in printed for line in lines), (lines, printed))
        self.in_two_files(here)
        status, _, said = self.run(f"cd $ROOM && (echo '#include \"ring_calls.h\"' && cat my_explore.c) > my_late.c && {shlex.quote(here)}/explore my_late.c")
        self.check("explore of a test that includes ring_calls.h first", status != 0 and "explore.h has to be included before ring_calls.h" in said, said)
        status, _, said = self.run(whole.replace("-fsanitize=thread ", ""))
        self.check("explore of what is not instrumented", status == 2 and "explore: the test was not compiled with -fsanitize=thread\n" in said, said)
        status, _, said = self.run(f"{shlex.quote(here)}/explore")
        self.check("explore without words", status == 2 and "record/explore my_explore.c" in said, said)
        status, _, said = self.run(f"{shlex.quote(here)}/explore nowhere.c")
        self.check("explore of no file", status == 2 and "explore: this command failed with status 1: gcc " in said, said)


def order_of(lines):
    """The calls of each side in these lines, and which calls of the two sides follow one another."""
    calls = {"P": [], "C": []}
    for at, line in enumerate(lines):
        if not re.match(rf"[PC] ({ENDS})( |$)", line):
            continue
        if line.split(" ")[1] in ("put", "close", "take"):
            calls[line[0]].append([line, None, at, len(lines)])
        else:
            calls[line[0]][-1][1:] = [line, calls[line[0]][-1][2], at]
    order = frozenset(
        (side, i, j) for side, other in ("PC", "CP") for i, one in enumerate(calls[side]) for j, next_one in enumerate(calls[other]) if one[3] < next_one[2]
    )
    return tuple(tuple((begin, end) for begin, end, _, _ in calls[side]) for side in "PC"), order


def try_all(tries, here):
    tries.ways("explore_test")
    tries.ways("explore_test_cpp", CPP_LAWFUL, CPP_FOUND)
    tries.ways("explore_rings", RINGS_LAWFUL, RINGS_FOUND)
    tries.ways("explore_test_sanitized", [way for way in LAWFUL if way not in ALLOCATES])
    tries.refused()
    tries.steps()
    tries.limits()
    tries.verdicts()
    tries.soundness()
    tries.twelve()
    tries.weakened(here)
    tries.ring("ring_explored")
    tries.readme(here)


def try_real(tries):
    for queue in ("boost", "boost_several", "moodycamel", "moodycamel_enqueue", "moodycamel_blocking"):
        status, printed = tries.explore(f"$ROOM/explored {queue}")
        print(f"explore of {queue}: {printed.split(chr(10))[0]}", flush=True)
        good = status == 0 and re.match(r"[\d,]{3,} executions within a bound of 3, .* all lawful\n", printed)
        good = good and printed.endswith("no data race was seen.\n")
        tries.check(f"explore of {queue}", good and " overlapped 0" not in printed, (status, printed))


def try_clang(tries):
    tries.ways("explore_test_clang")
    tries.ways("explore_test_cpp_clang", CPP_LAWFUL, CPP_FOUND)
    tries.ring("ring_explored_clang")
