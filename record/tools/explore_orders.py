"""explore_orders.py: for record/explore --orders: finds for each atomic access and fence of a test the weakest memory order with which nothing goes wrong.

The test is compiled once: the explorer sees each order when the code runs, and replaces it (EXPLORE_ORDERS). First each order is lowered
alone, and then all of them together: one after the other, each as far as possible given those lowered before it, so that in
the end none can be lowered further. What can go wrong is a fault, a hang, a crash, a data race, a use after free, or a load that may be delayed
(EXPLORE_LATE), as on hardware other than x86. Weaker orders permit more executions, so a result for some orders carries over to weaker or
stronger ones, which are not explored again."""
import collections
import json
import os
import re
import subprocess
import sys
import time

import explore_parts

# The orders as weak as this one or weaker.
WEAKER = {
    "relaxed": {"relaxed"},
    "acquire": {"relaxed", "acquire"},
    "release": {"relaxed", "release"},
    "acq_rel": {"relaxed", "acquire", "release", "acq_rel"},
    "seq_cst": {"relaxed", "acquire", "release", "acq_rel", "seq_cst"},
}
# The orders that an access of a kind may have, weakest first. A relaxed fence is no fence.
ORDERS = {
    "load": ("relaxed", "acquire", "seq_cst"),
    "store": ("relaxed", "release", "seq_cst"),
    "failure": ("relaxed", "acquire", "seq_cst"),
    "update": ("relaxed", "acquire", "release", "acq_rel", "seq_cst"),
    "fence": ("relaxed", "acquire", "release", "acq_rel", "seq_cst"),
}
NAMES = {"failure": "failing compare-and-swap", "update": "read-modify-write"}
# A site in the text: its place, what it does, its order, and its addresses in the program (a line may have several).
Site = collections.namedtuple("Site", "place what order at")
# What goes wrong: the words, and the schedule of an execution that shows it.
Found = collections.namedtuple("Found", "words schedule")


def at_most(a, b):
    return a in WEAKER[b]


def name_of(order, what):
    return "none" if what == "fence" and order == "relaxed" else order


def short(words):
    """A short form of a finding, without what the schedule shows: `data race at slot+8 (my.c:10 and my.c:13)`."""
    race = re.match(r"(data race|use after free): .*? at (\S+|block \S+|the stack of the \S+) \((.*?)\), which .*? \((.*?)\)", words)
    return f"{race[1]} at {race[2]} ({race[3]}, {race[4]})" if race else words


class Search:
    def __init__(self, program, env, room):
        self.program, self.room, self.known, self.runs, self.sites = program, room, {}, 0, []
        self.env = {**env, "EXPLORE_LATE": "1"}
        self.report = {}

    def call(self, **more):
        """Explores once; returns the status, the output and the report."""
        path = f"{self.room}/orders.json"
        if os.path.exists(path):
            os.remove(path)
        done = subprocess.run([self.program], capture_output=True, text=True, errors="replace", check=False, env={**self.env, "EXPLORE_REPORT": path, **more})
        self.runs += 1
        try:
            with open(path, encoding="utf-8") as file:
                return done.returncode, done.stdout + done.stderr, json.load(file)
        except (OSError, ValueError):  # it crashed
            return done.returncode, done.stdout + done.stderr, {}

    def read_sites(self):
        """Explores the test with the orders of its text; returns status and output if that is not possible."""
        status, text, self.report = self.call(EXPLORE_SITES="1")
        found = {}
        for at, what, order, place in re.findall(r"(?m)^site (\w+!?) (\w+) (\w+) (.*)$", text):
            found.setdefault((place, what, "acquire" if order == "consume" else order), []).append(at)

        def by_line(site):
            file, line = re.fullmatch(r"(.*?)(?::(\d+))?", site.place).groups()
            return file, int(line or 0), site.what

        self.sites = sorted((Site(place, what, order, tuple(at)) for (place, what, order), at in found.items()), key=by_line)
        return status, text

    def outcome(self, orders):
        """What goes wrong with these orders, or None."""
        orders = tuple(orders)
        for other, found in self.known.items():
            if found is None and all(map(at_most, other, orders)):
                return None
            if found is not None and all(map(at_most, orders, other)):
                return found
        self.known[orders] = self.explore(orders)
        return self.known[orders]

    def explore(self, orders):
        words = " ".join(f"{at}={order}" for site, order in zip(self.sites, orders) if order != site.order for at in site.at)
        status, text, report = self.call(EXPLORE_ORDERS=words or "0=relaxed")
        if status == 2:
            sys.exit(f"explore: {text.strip()}")
        if report.get("found"):
            return Found(report["found"], report["schedule"])
        if report.get("late"):
            return Found(report["late"], report["late_schedule"])
        if status != 0:
            schedule = re.search(r"(?m)^schedule: (.*)$", text)
            return Found(text.split("\n")[0] or f"status {status}", schedule[1] if schedule else "")
        self.report = report
        return None

    def alone(self, orders, i):
        """For site i, each order below its own that had to be tried, with what goes wrong: up to the weakest ones that suffice."""
        tried, enough = [], []
        for order in ORDERS[self.sites[i].what]:
            if order == orders[i] or not at_most(order, orders[i]) or any(at_most(it, order) for it in enough):
                continue
            found = self.outcome([*orders[:i], order, *orders[i + 1 :]])
            tried.append((order, found))
            if found is None:
                enough.append(order)
        return tried

    def together(self, orders):
        """Orders of which none can be lowered further."""
        orders = list(orders)
        for i in range(len(self.sites)):
            orders[i] = next((order for order, found in self.alone(orders, i) if found is None), orders[i])
        return orders

    def below(self, orders, i):
        """What goes wrong with the orders just below that of site i."""
        less = [it for it in ORDERS[self.sites[i].what] if it != orders[i] and at_most(it, orders[i])]
        nearest = [it for it in less if not any(it != other and at_most(it, other) for other in less)]
        return [(it, self.outcome([*orders[:i], it, *orders[i + 1 :]])) for it in nearest]


def print_rows(search, orders, wide):
    print("each lowered alone:")
    for i, site in enumerate(search.sites):
        words = [f"{name_of(order, site.what)}: {short(found.words) if found else 'enough'}" for order, found in search.alone(orders, i)]
        several = f" ({len(site.at)} accesses)" if len(site.at) > 1 else ""
        print(f"  {site.place:{wide}}  {NAMES.get(site.what, site.what)} {name_of(orders[i], site.what)}{several}{''.join(f' | {it}' for it in words)}")


def print_set(search, orders, wide):
    for i, site in enumerate(search.sites):
        was = f" ({name_of(site.order, site.what)} in the text)" if orders[i] != site.order else ""
        print(f"  {site.place:{wide}}  {NAMES.get(site.what, site.what)} {name_of(orders[i], site.what)}{was}")
        for less, found in search.below(orders, i):
            if found:
                print(f"  {'':{wide}}    {name_of(less, site.what)}: {short(found.words)}")
                print(f"  {'':{wide}}    EXPLORE_SCHEDULE='{found.schedule}'")


def search(program, name, env, room):
    """Prints what it finds; returns 0 if the orders of the text suffice, 3 if they do not, 2 if the test cannot be explored."""
    it, began = Search(program, env, room), time.monotonic()
    status, text = it.read_sites()
    if status == 2 or not it.sites:
        print(text, end="")
        print("explore: no memory order was seen", file=sys.stderr)
        return 2
    orders, wide = [site.order for site in it.sites], max(len(site.place) for site in it.sites)
    of_text = it.outcome(orders)
    if of_text:
        print(f"the orders of the text do not suffice: {of_text.words}\n    EXPLORE_SCHEDULE='{of_text.schedule}'")
        orders = ["seq_cst"] * len(it.sites)
        found = it.outcome(orders)
        if found:
            print(f"nor does seq_cst everywhere: {found.words}")
            return 3
        print("seq_cst everywhere does; from there:")
    print_rows(it, orders, wide)
    lowest = it.together(orders)
    print("all lowered together, explored as a whole:")
    print_set(it, lowest, wide)
    executions, bound = it.report.get("executions", 0), it.report.get("bound", 0)
    print(
        f"This holds of {os.path.basename(name)} within a bound of {bound} ({executions:,} executions with the last orders): a larger test, or bound, may need more."
    )
    never = explore_parts.never_reached(it.report)
    if never:
        print(f"never reached: {', '.join(never)}")
    print(f"{it.runs} explorations, {time.monotonic() - began:.1f} s")
    return 3 if of_text else 0
