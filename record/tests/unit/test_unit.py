"""test_unit.py: a unit test of a small ring, for pytest or standalone: it is a queue in each of 10,000 rounds of 100 calls, and with its bug it
is not."""
import os
import sys
import threading
import time

sys.path.insert(0, os.path.join(os.path.dirname(os.path.dirname(os.path.dirname(os.path.abspath(__file__)))), "include", "python"))
import ring_audit
import ring_calls

SLOTS, ROUNDS, CALLS = 9, 10_000, 50
# Threads are switched within calls, too.
sys.setswitchinterval(1e-6)


class Ring:
    """The items are from head up to tail; one slot stays free. The bug: the tail moves before the cell is written."""

    def __init__(self, bug):
        self.cells, self.head, self.tail, self.bug = [0] * SLOTS, 0, 0, bug

    def put(self, item):
        tail, after = self.tail, (self.tail + 1) % SLOTS
        if after == self.head:
            return False
        if self.bug:
            self.tail = after
            time.sleep(0)
        self.cells[tail] = item
        self.tail = after
        return True

    def take(self):
        head = self.head
        if head == self.tail:
            return None
        item = self.cells[head]
        self.head = (head + 1) % SLOTS
        return item


def consume(rec, ring):
    for _ in range(CALLS):
        rec.take()
        item = ring.take()
        if item is None:
            rec.empty()
            os.sched_yield()
        else:
            rec.item(item)


def record_round(rec, bug):
    rec.restart()
    ring, item = Ring(bug), 1
    consumer = threading.Thread(target=consume, args=(rec, ring))
    consumer.start()
    for _ in range(CALLS):
        rec.put(item)
        if ring.put(item):
            rec.stored()
            item += 1
        else:
            rec.full()
            os.sched_yield()
    consumer.join()


def test_is_a_queue():
    rec = ring_calls.Recorder(5 * CALLS)
    for _ in range(ROUNDS):
        record_round(rec, False)
        assert ring_audit.lawful(rec, "queue 8")


def test_its_bug_is_found():
    rec = ring_calls.Recorder(5 * CALLS)
    for _ in range(ROUNDS):
        record_round(rec, True)
        result = ring_audit.lawful(rec, "queue 8")
        if not result:
            assert result.words.startswith("fault: line ")
            return
    assert False, "each of the rounds with the bug is lawful"


def test_tells_the_lines():
    rec = ring_calls.Recorder(20)
    rec.put(12)
    rec.stored()
    rec.take()
    rec.empty()
    result = ring_audit.lawful(rec, "queue 8")
    assert result.words == "fault: line 5: empty, but item 12 was inside since line 3"
    assert result.lines == "       1  queue 8\n       2  P put 12\n>      3  P stored\n       4  C take\n>      5  C empty\n"


if __name__ == "__main__":
    for test in (test_is_a_queue, test_its_bug_is_found, test_tells_the_lines):
        began = time.monotonic()
        test()
        print(f"{test.__name__}: {time.monotonic() - began:.1f} s")
