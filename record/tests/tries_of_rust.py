"""Tests record/explore on tests in Rust for record/test, which passes its own check and run."""
import os
import re
import shlex

# The tests in rust/, which are correct, and what is reported for each with --cfg bug.
RACE = r"(?m)^data race: the consumer reads 8 bytes at block 1(\+\d+)? \({0}.rs:{1}\), which the producer wrote \({0}.rs:{2}\) with nothing in between that orders them$"
FREED = r"(?m)^use after free: the {} 8 bytes at block \d \(nodes.rs:\d+\), which the consumer freed \(nodes.rs:{}\)$"
BUGS = (
    ("ring", RACE, ("*self.slots[head", "*self.slots[tail")),
    (
        "atomic_slots",
        r"^fault: line \d+: item 0 was not inside; item 1 of line 2 is next\n(.|\n)* finds at atomic_slots.rs:{1} an older value, ",
        ("self.slots[head",),
    ),
    ("cached", RACE, ("self.ring.slot(head).read()", "self.ring.slot(tail).write(item)")),
    ("nodes", FREED.format("consumer reads atomically", "{1}"), ("drop(unsafe",)),
    ("nodes", FREED.format("producer writes atomically", "{1}"), ("drop(unsafe",)),
)
# The parts of std, by the ways of of_std.rs: the status, and what is reported.
LAWFUL = r"^[\d,]+ executions within a bound of \d, .*: all lawful$"
NOT_SEEN = (
    r"^explore: of_std.rs:\d+: the {} calls std::.*{}\w*, which Rust's std has already compiled: its accesses are not seen, so this test cannot be explored$"
)
THREAD = r"^explore: the test starts a thread, but its two sides must be functions that explore\(\) calls$"
OF_STD = (
    *((way, 0, LAWFUL) for way in ("mutex", "condvar", "wait_timeout", "park", "drops_ends", "mpsc", "mpsc_sync", "rests", "thread_local", "prints")),
    ("forgets", 4, r"^waits forever: the producer is over, the consumer waits at of_std.rs:\d+$"),
    ("parks_late", 4, r"^waits forever: the producer is over, the consumer waits at of_std.rs:\d+$"),
    ("panics", 4, r"here it is(.|\n)*^crash: Aborted, in the consumer$"),
    ("barrier", 2, NOT_SEEN.format("producer", "Barrier::wait")),
    ("once", 2, NOT_SEEN.format("producer", "Once::call")),
    ("rwlock", 2, NOT_SEEN.format("consumer", "RwLock::write_contended")),
    ("spawns", 2, THREAD),
    ("scope", 2, THREAD),
)
# (before Rust 1.67 a channel waits in std's own code)
MPSC_WAITS = (0, LAWFUL), (2, NOT_SEEN.format("producer", "WaitToken::wait"))
OF_CRATES = ("array_queue", "seg_queue", "concurrent_queue", "crossbeam_channel", "futures_channel")
# What cannot be built: variables, arguments, the message.
REFUSED = (
    (
        "RUSTC=no_rustc",
        "rust/ring.rs",
        "no_rustc: No such file or directory: a test in Rust needs rustc 1.63 or newer (Debian: apt-get install rustc); set RUSTC=.. for another one",
    ),
    ("RUSTC=$ROOM/old_rustc", "rust/ring.rs", "rustc 1.48 is too old: a test in Rust needs 1.63 or newer; set RUSTC=.. for another one"),
    ("RUSTC=$ROOM/other_rustc", "rust/ring.rs", "$ROOM/other_rustc makes programs for aarch64-apple-darwin: explore needs x86_64-unknown-linux-gnu"),
    ("CC=no_cc", "rust/ring.rs", "no_cc: not found, but it is needed to link a test in Rust (Debian: apt-get install gcc); set CC=.. for another one"),
    ("LIBRARY=/nowhere", "rust/ring.rs", "/nowhere/libring_audit.a: no such file; set LIBRARY=FOLDER for another folder"),
    ("", "nowhere.rs", "nowhere.rs: no such file"),
    ("", "rust/ring.rs queue=nowhere/src/lib.rs:std", "nowhere/src/lib.rs: no such file or folder"),
    (
        "",
        "rust/ring.rs rust/nodes.rs",
        "rust/nodes.rs: give a crate as NAME=rust/nodes.rs, or by its folder; a module of the test is named only in the test, as `mod nodes;`",
    ),
    ("", "rust/ring.rs rust", "rust: no Cargo.toml: give NAME=FILE for a crate without one"),
    ("", "explore_test.c rust/ring.rs", "explore_test.c: give the test in Rust first, then the crates that it needs"),
)


class TriesOfRust:
    def __init__(self, tries, here):
        self.check, self.run, self.here = tries.check, tries.run, here
        self.explore_it = f"{shlex.quote(here)}/explore"

    def explore(self, command, folder="."):
        """Runs a command in this folder of tests/; returns its status and its whole output."""
        status, out, said = self.run(f"cd {shlex.quote(self.here)}/tests/{folder} && {command}")
        return status, said + out.decode(errors="replace")

    def line(self, name, text):
        """The number of the first line of the test that has this text."""
        with open(f"{self.here}/tests/rust/{name}.rs", encoding="utf-8") as file:
            return next(number for number, line in enumerate(file, 1) if text in line)

    def own_queues(self):
        """The correct form of each is lawful; its bug is reported at the lines of the test."""
        for name in sorted({name for name, _, _ in BUGS}):
            # (`whole` explores the correct ring)
            if name != "ring":
                status, printed = self.explore(f"{self.explore_it} {name}.rs", "rust")
                good = status == 0 and re.search(LAWFUL, printed, re.M) and printed.endswith("no data race was seen.\n")
                self.check(f"explore of {name}.rs", good, (status, printed))
            status, printed = self.explore(f"{self.explore_it} {name}.rs -- --cfg bug", "rust")
            for words in (words.format(name, *(self.line(name, text) for text in texts)) for other, words, texts in BUGS if other == name):
                self.check(f"explore of {name}.rs with its bug", status == 3 and re.search(words, printed), (words, status, printed))

    def whole(self):
        """As a user calls it: with an explorer of its own."""
        status, printed = self.explore(f"{self.explore_it} -o $ROOM/ring_of_rust ring.rs && $ROOM/ring_of_rust", "rust")
        good = status == 0 and len(re.findall(LAWFUL, printed, re.M)) == 2 and printed.endswith("no data race was seen.\n")
        self.check("explore -o of ring.rs", good, (status, printed))

    def of_std(self):
        for way, want, words in OF_STD:
            status, printed = self.explore(f"$ROOM/of_std {way}")
            self.check(f"explore of std: {way}", status == want and re.search(words, printed, re.M), (status, printed[-2000:]))
        status, printed = self.explore("$ROOM/of_std twice")
        self.check("explore of std: twice", status == 0 and len(re.findall(LAWFUL, printed, re.M)) == 2, (status, printed))
        status, printed = self.explore("EXPLORE_BOUND=2 $ROOM/of_std mpsc_waits")
        self.check(
            "explore of std: mpsc_waits", any(status == want and re.search(words, printed, re.M) for want, words in MPSC_WAITS), (status, printed[-2000:])
        )

    def of_crates(self):
        for queue in OF_CRATES:
            status, printed = self.explore(f"EXPLORE_BOUND=2 $ROOM/of_crates {queue}")
            print(f"explore of {queue}: {printed.split(chr(10))[0]}", flush=True)
            good = status == 0 and re.search(LAWFUL, printed, re.M) and " overlapped 0" not in printed and printed.endswith("no data race was seen.\n")
            self.check(f"explore of {queue}", good, (status, printed))
        status, printed = self.explore("EXPLORE_SCHEDULE=P $ROOM/of_crates array_queue")
        good = status == 0 and re.search(r"^ +P put 1\n +loads block 1 = 0 \(acquire\)  \(array_queue.rs:\d+\)\n", printed) and "array_queue.rs" in printed
        self.check("explore of array_queue: the lines of its crate", good, (status, printed))

    def crates_by_file(self):
        """A crate given as a file, with a feature, and one that needs it; the test uses the first one's queue."""
        room = os.environ["ROOM"]
        os.makedirs(f"{room}/crates_of_rust", exist_ok=True)
        with open(f"{self.here}/tests/rust/ring.rs", encoding="utf-8") as file:
            ring, main = re.sub(r"use explore::explore;\n|cfg!\(bug\)", lambda it: "" if "use" in it[0] else 'cfg!(feature = "bug")', file.read()).split(
                "fn main()"
            )
        ring = re.sub(r"(?m)^(    )?(struct Ring|fn \w+\()", r"\1pub \2", ring)
        for name, text in (("a_ring", ring), ("a_queue", "pub use a_ring::*;\n"), ("test", f"use explore::explore;\nuse a_queue::make;\nfn main(){main}")):
            with open(f"{room}/crates_of_rust/{name}.rs", "w", encoding="utf-8") as file:
                file.write(text)
        for feature, want in (("", 0), (":bug", 3)):
            status, printed = self.explore(f"cd $ROOM/crates_of_rust && {self.explore_it} test.rs a_ring=a_ring.rs{feature} a-queue=a_queue.rs")
            good = status == want and (" (a_ring.rs:" in printed) == (want == 3)
            self.check(f"explore of crates as files, {feature or 'no feature'}", good, (status, printed))

    def kinds(self):
        """Each kind of event is recorded as by ring_calls.rs, and the logs have the methods of ring_calls.rs."""
        sides = []
        for command in (
            "EXPLORE_BOUND=0 EXPLORE_DUMP=$ROOM/kinds_explored " + self.explore_it + " kinds.rs > $ROOM/none; sed '/^$/,$d' $ROOM/kinds_explored",
            "rustc --edition 2021 --cfg plain kinds.rs -o $ROOM/kinds_plain && $ROOM/kinds_plain",
        ):
            status, printed = self.explore(command, "rust")
            sides.append([[line for line in printed.split("\n") if line.startswith(side)] for side in ("P ", "C ")])
        self.check("explore of kinds.rs", sides[0] == sides[1] and len(sides[0][0]) == 22 and len(sides[0][1]) == 18, sides)
        methods = []
        for name in ("ring_calls", "explore"):
            with open(f"{self.here}/include/rust/{name}.rs", encoding="utf-8") as file:
                logs = re.findall(r"(?ms)^impl<'a> (PutLog|TakeLog)<'a> \{\n(.*?)^\}", file.read())
            methods.append(
                [
                    (log, sorted(method.replace("_clock", "clock").replace("_words", "words") for method in re.findall(r"pub (fn \w+\(.*?\))", body)))
                    for log, body in logs
                ]
            )
        self.check("explore.rs: the methods of ring_calls.rs", methods[0] == methods[1] and len(methods[0]) == 2, methods)

    def refused(self):
        room = os.environ["ROOM"]
        for name, words in (("old_rustc", "release: 1.48.0\\nhost: x86_64-unknown-linux-gnu"), ("other_rustc", "release: 1.90.0\\nhost: aarch64-apple-darwin")):
            with open(f"{room}/{name}", "w", encoding="ascii") as file:
                file.write(f"#!/bin/sh\nprintf '{words}\\n'\n")
            os.chmod(f"{room}/{name}", 0o755)
        for variables, words, said in REFUSED:
            status, printed = self.explore(f"env {variables} {self.explore_it} {words}")
            self.check(f"explore {variables} {words}", status == 2 and printed == f"explore: {said.replace('$ROOM', room)}\n", (status, printed))


def try_all(tries, here):
    of_rust = TriesOfRust(tries, here)
    of_rust.whole()
    of_rust.own_queues()
    of_rust.of_std()
    of_rust.of_crates()
    of_rust.crates_by_file()
    of_rust.kinds()
    of_rust.refused()
