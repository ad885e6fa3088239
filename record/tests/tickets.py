#!/usr/bin/env python3
"""tickets.py: tries the tickets of ring_calls.h in the axiomatic model of ARMv8 (aarch64.cat, accesses of one size, no dependencies): makes every
execution that the model allows of two threads, of which one puts and the other takes. A call is a begin, accesses of the queue with no order of
their own, and an end; a begin and an end each take the next number of one counter, by a read-modify-write.

It asks of each execution: is there a false alarm, a call whose end has a lower ticket than the other's begin, and whose accesses come after
the other's all the same? With the orders of ring_calls.h (a begin acquires, an end releases) there is none; with each weaker choice there is
one in each text, so both orders are needed. It asks of calls that overlap in the recording: do their accesses come in either order, and is a
store seen out of order there? So tickets hide a missing order only between calls that do not overlap. The last line counts."""
import itertools
import os
import re
import sys
from collections import namedtuple

INCLUDE = os.path.join(os.path.dirname(os.path.dirname(os.path.abspath(__file__))), "include")
# What a thread does: a start or an end of a call, or an access of the word with this name, which is initially 0 and which others write as 1.
BEGIN, END, COUNTER = "begin", "end", "next"
Event = namedtuple("Event", "thread writes word acquires releases")
# An execution: the ticket of each start and end, in program order; the value found by each read of the queue.
Execution = namedtuple("Execution", "tickets found")


def is_acyclic(count, edges):
    after = [[] for _ in range(count)]
    for a, b in edges:
        after[a].append(b)
    state = [0] * count

    def leads_back(a):
        state[a] = 1
        for b in after[a]:
            if state[b] == 1 or state[b] == 0 and leads_back(b):
                return True
        state[a] = 2
        return False

    return not any(state[a] == 0 and leads_back(a) for a in range(count))


def events_of(threads, acquires, releases):
    """Returns the events of the program (a read and a write for each start and end), and which events precede which in the program."""
    events, updates, before = [], [], []
    for thread, text in enumerate(threads):
        first = len(events)
        for step in text:
            if step in (BEGIN, END):
                updates.append((len(events), len(events) + 1))
                events += [Event(thread, False, COUNTER, step in acquires, False), Event(thread, True, COUNTER, False, step in releases)]
            else:
                events.append(Event(thread, step[0] == "write", step[1], False, False))
        before += itertools.combinations(range(first, len(events)), 2)
    return events, updates, before


def local_order(events, updates, before, from_store):
    """What is ordered within a thread, in the model's terms: aob and bob, for what these programs contain."""
    order = list(updates)
    order += [(a, b) for a, b in from_store if events[a].thread == events[b].thread and a in (w for _, w in updates) and events[b].acquires]
    order += [(a, b) for a, b in before if events[a].acquires or events[b].releases]
    return order + [(a, b) for a, b in before if events[a].releases and events[b].acquires]


def executions(threads, acquires, releases):
    """Makes each execution that the model allows, if the operations in `acquires` and `releases` have that order."""
    events, updates, before = events_of(threads, acquires, releases)
    reads = [a for a, it in enumerate(events) if not it.writes and it.word != COUNTER]
    stores = {a: [b for b, it in enumerate(events) if it.writes and it.word == events[a].word] for a in reads}
    same_word = [(a, b) for a, b in before if events[a].word == events[b].word]
    for turn in itertools.permutations(updates):
        # (no write of the counter comes between the read and the write of an update: each finds the previous one)
        from_store = [(earlier[1], later[0]) for earlier, later in zip(turn, turn[1:])]
        pairs = [*itertools.combinations(turn, 2)]
        coherence, from_read = [(a[1], b[1]) for a, b in pairs], [(a[0], b[1]) for a, b in pairs]
        for found in itertools.product(*([None, *stores[a]] for a in reads)):
            rf = from_store + [(store, a) for a, store in zip(reads, found) if store is not None]
            fr = from_read + [(a, store) for a, seen in zip(reads, found) if seen is None for store in stores[a]]
            if not is_acyclic(len(events), same_word + rf + coherence + fr):
                continue
            seen_outside = [(a, b) for a, b in rf + coherence + fr if events[a].thread != events[b].thread]
            if is_acyclic(len(events), seen_outside + local_order(events, updates, before, rf)):
                ticket = {update: number for number, update in enumerate(turn)}
                yield Execution([ticket[it] for it in updates], [0 if store is None else 1 for store in found])


class Text:
    """Two threads, each of which makes one call with accesses, and other calls. No word is written twice."""

    def __init__(self, name, producer, consumer):
        self.name, self.threads = name, (producer, consumer)
        steps = [(thread, step) for thread, text in enumerate(self.threads) for step in text]
        ends = [at for at, (_, step) in enumerate(steps) if step in (BEGIN, END)]
        # for each thread the numbers, among the starts and ends, of those around its accesses
        self.calls = []
        for thread in range(2):
            access = next(at for at, (of, step) in enumerate(steps) if of == thread and step not in (BEGIN, END))
            end = sum(at < access for at in ends)
            self.calls.append((end - 1, end))
        # what each read finds if the producer's call comes first: the value that its own thread, or the other, writes
        self.if_first = [int(thread == 1) for thread, step in steps if step[0] == "read"]

    def order(self, made):
        """Returns which thread's call comes before the other in the recording; None if they overlap."""
        (put_begins, put_ends), (take_begins, take_ends) = ((made.tickets[a], made.tickets[b]) for a, b in self.calls)
        return 0 if put_ends < take_begins else 1 if take_ends < put_begins else None

    def looks(self, made):
        """Returns which call came first according to its accesses; None if neither: some were seen and some were not."""
        return 0 if made.found == self.if_first else 1 if made.found == [1 - it for it in self.if_first] else None


CELL, INDEX = ("write", "cell"), ("write", "index")
SEES_CELL, SEES_INDEX = ("read", "cell"), ("read", "index")
NOTHING = [BEGIN, END]
TEXTS = [
    Text("a put, then a take", [BEGIN, INDEX, END], [BEGIN, SEES_INDEX, END]),
    Text("the consumer makes another call before", [BEGIN, INDEX, END], [*NOTHING, BEGIN, SEES_INDEX, END]),
    Text("the producer makes another call after", [BEGIN, INDEX, END, *NOTHING], [BEGIN, SEES_INDEX, END]),
    Text("a cell and an index", [BEGIN, CELL, INDEX, END], [BEGIN, SEES_INDEX, SEES_CELL, END]),
    Text("each side reads what the other writes", [BEGIN, ("read", "head"), INDEX, END], [BEGIN, SEES_INDEX, ("write", "head"), END]),
]
RIGHT = ({BEGIN}, {END})
WEAKER = {"all relaxed": (set(), set()), "ends relaxed": ({BEGIN}, set()), "begins relaxed": (set(), {END}), "the wrong way round": ({END}, {BEGIN})}
passed = failed = 0


def expect(good, what):
    global passed, failed
    if good:
        passed += 1
    else:
        failed += 1
        print(f"tickets: {what}")


def try_text(text):
    made = [*executions(text.threads, *RIGHT)]
    alarms = [it for it in made if text.order(it) is not None and text.looks(it) != text.order(it)]
    print(f"tickets: {text.name}: {len(made)} executions, {len(alarms)} with a false alarm")
    expect(not alarms, f"{text.name}: {alarms[:3]}")
    orders = {text.order(it) for it in made}
    expect(orders == {0, 1, None}, f"{text.name}: the recordings have the orders {orders}")
    overlapping = {text.looks(it) for it in made if text.order(it) is None}
    expect({0, 1} <= overlapping, f"{text.name}: calls that overlap look like {overlapping}")
    for name, orders in WEAKER.items():
        weak = [*executions(text.threads, *orders)]
        expect(
            any(text.order(it) is not None and text.looks(it) != text.order(it) for it in weak),
            f"{text.name}, {name}: no false alarm, so the order is not needed",
        )
        expect(len(weak) > len(made), f"{text.name}, {name}: {len(weak)} executions, no more than {len(made)}")


def try_hidden():
    """A put that stores its cell and then its index, both relaxed: the index is seen before the cell, but only by calls that overlap."""
    text = TEXTS[3]
    orders = [text.order(it) for it in executions(text.threads, *RIGHT) if it.found == [1, 0]]
    expect(orders and set(orders) == {None}, f"a missing order in a put is seen by calls in the orders {orders}")


def try_headers():
    """The recorders take tickets with these orders. (Otherwise the counter is only set to 0, while no thread records.)"""
    for name, kind in (("ring_calls.h", "RING_ENDS"), ("ring_register.h", "RING_REGISTER_ENDS")):
        with open(f"{INCLUDE}/{name}", encoding="utf-8") as file:
            lines = [line for line in file if "&r->next" in line]
        taken = [(kind in line, re.findall(r"memory_order_(\w+)", line)) for line in lines if "atomic_fetch_add_explicit" in line]
        expect(taken == [(True, ["acquire"]), (False, ["release"])], f"{name} takes tickets by {taken}")
        others = [line.strip() for line in lines if "atomic_fetch_add_explicit" not in line]
        expect(len(others) == 2 and all("(&r->next, (uint64_t)0" in line for line in others), f"{name} writes the counter by {others}")


def main():
    for text in TEXTS:
        try_text(text)
    try_hidden()
    try_headers()
    print(f"tickets: {passed} passed, {failed} failed")
    return failed > 0


if __name__ == "__main__":
    sys.exit(main())
