"""python_std.py: queue.Queue, queue.SimpleQueue and collections.deque of CPython. No argument: lists them; NAME CALLS: writes a recording.
A deque with a maximum length silently drops its oldest item when it is full: it is not such a queue."""
import collections
import os
import queue
import random
import sys
import threading
import time

sys.path.insert(0, os.path.join(os.path.dirname(os.path.dirname(os.path.abspath(__file__))), "include", "python"))
import ring_calls

# How each is made, its first line, the names of its put and take, the expected verdict of the audit.
QUEUES = {
    "python_queue": (lambda: queue.Queue(8), "queue 8", "put_nowait", "get_nowait", "lawful"),
    "python_simple_queue": (queue.SimpleQueue, "queue", "put", "get_nowait", "lawful"),
    "python_deque": (collections.deque, "queue", "append", "popleft", "lawful"),
    "python_deque_maxlen": (lambda: collections.deque(maxlen=8), "queue 8", "append", "popleft", "stored, but at least|item"),
}


def rest(pick, longer):
    if longer or pick.random() < 0.01:
        time.sleep(0)


def produce(rec, put, calls, done):
    pick, item = random.Random(1), 0
    for _ in range(calls):
        rec.put(item)
        try:
            put(item)
            rec.stored()
            item += 1
            rest(pick, False)
        except queue.Full:
            rec.full()
            rest(pick, True)
    rec.close()
    done.set()
    rec.closed()


def consume(rec, take, done):
    pick, told = random.Random(2), False
    while not told:
        rec.take()
        was_done = done.is_set()  # before the look: if it is set, nothing more will come
        try:
            rec.item(take())
            rest(pick, False)
        except (queue.Empty, IndexError):
            told = was_done
            if told:
                rec.told()
            else:
                rec.empty()
                rest(pick, True)


def main(name, calls):
    make, head, put, take, _ = QUEUES[name]
    q, rec, done = make(), ring_calls.Recorder(calls * 16 + 4096), threading.Event()
    sides = [threading.Thread(target=produce, args=(rec, getattr(q, put), calls, done)), threading.Thread(target=consume, args=(rec, getattr(q, take), done))]
    sys.setswitchinterval(1e-5)
    for side in sides:
        side.start()
    for side in sides:
        side.join()
    rec.write(head, sys.stdout)


if len(sys.argv) == 3:
    main(sys.argv[1], int(sys.argv[2]))
else:
    for each, (*_, verdict) in QUEUES.items():
        print(each, verdict)
